//! Paths of firmware file systems.

pub mod path;

pub use path::*;
