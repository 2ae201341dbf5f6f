//! The protocols of firmware.

pub mod device_path;
