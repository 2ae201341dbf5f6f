//! Paths: components with a separator, `\`, between them.

mod component;
#[allow(clippy::module_inception)]
mod path;
#[cfg(feature = "alloc")]
mod pathbuf;
mod validation;

pub use component::{Component, Components};
pub use path::Path;
#[cfg(feature = "alloc")]
pub use pathbuf::{PathArgument, PathBuf};
pub use validation::{validate_path, PathError};

use crate::data_types::{CStr16, Char16, NUL_16};
use crate::{char16, cstr16};

/// The character between the components of a path.
///
/// ```
/// assert_eq!(nardcorbel::fs::SEPARATOR, '\\');
/// ```
pub const SEPARATOR: Char16 = char16!('\\');

/// The separator as a string.
///
/// ```
/// use nardcorbel::fs::{Path, SEPARATOR_STR};
///
/// assert_eq!(Path::new(SEPARATOR_STR).components().count(), 0);
/// ```
pub const SEPARATOR_STR: &CStr16 = cstr16!("\\");

/// The characters that no component of a path to a file holds.
///
/// ```
/// use nardcorbel::{char16, fs::CHARACTER_DENY_LIST};
///
/// assert!(CHARACTER_DENY_LIST.contains(&char16!(':')));
/// ```
pub const CHARACTER_DENY_LIST: [Char16; 10] = [
    NUL_16,
    char16!('"'),
    char16!('*'),
    char16!('/'),
    char16!(':'),
    char16!('<'),
    char16!('>'),
    char16!('?'),
    SEPARATOR,
    char16!('|'),
];
