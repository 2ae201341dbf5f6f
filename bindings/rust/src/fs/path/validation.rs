//! Which paths name a file.

use super::Path;
use crate::data_types::Char16;
use crate::error::{Error, Reason};
use crate::sys;
use core::fmt;

/// Why a path names no file.
///
/// ```
/// use nardcorbel::fs::{validate_path, PathError};
/// use nardcorbel::cstr16;
///
/// assert_eq!(validate_path(cstr16!("")), Err(PathError::Empty));
/// ```
#[derive(Clone, Copy, Debug, Eq, PartialEq)]
#[non_exhaustive]
pub enum PathError {
    /// The path is empty.
    Empty,
    /// A component is empty.
    EmptyComponent,
    /// A component holds a character that no file name holds.
    IllegalChar(Char16),
    /// A `..` leads above the root.
    ClimbsAboveRoot,
}

impl fmt::Display for PathError {
    fn fmt(&self, f: &mut fmt::Formatter<'_>) -> fmt::Result {
        match self {
            Self::IllegalChar(it) => {
                write!(f, "{} (value {})", Reason::IllegalChar, u16::from(*it))
            }
            _ => self.parts().0.fmt(f),
        }
    }
}

impl core::error::Error for PathError {}

/// Checks that a path names a file, and says the fault of the first component that has one.
///
/// [`Path::validate`] also says where the fault is.
///
/// ```
/// use nardcorbel::fs::{validate_path, PathError};
/// use nardcorbel::{char16, cstr16};
///
/// assert_eq!(validate_path(cstr16!(r"\EFI\a.efi")), Ok(()));
/// let error = validate_path(cstr16!("a:b")).unwrap_err();
/// assert_eq!(error, PathError::IllegalChar(char16!(':')));
/// assert_eq!(error.to_string(), "path contains an illegal character (value 58)");
/// ```
pub fn validate_path<P: AsRef<Path>>(path: P) -> Result<(), PathError> {
    let Err(error) = sys::nard_path_check(path.as_ref().to_cstr16().to_u16_slice_with_nul()) else {
        return Ok(());
    };
    Err(match error.reason {
        Reason::PathEmpty => PathError::Empty,
        Reason::EmptyComponent => PathError::EmptyComponent,
        Reason::ClimbsAboveRoot => PathError::ClimbsAboveRoot,
        // The library names a character of the path, so it is no surrogate.
        _ => PathError::IllegalChar(
            Char16::try_from(error.character.unwrap_or_default()).unwrap_or_default(),
        ),
    })
}

impl PathError {
    /// The reason, and the character at fault.
    fn parts(self) -> (Reason, Option<char>) {
        match self {
            Self::Empty => (Reason::PathEmpty, None),
            Self::EmptyComponent => (Reason::EmptyComponent, None),
            Self::IllegalChar(it) => (Reason::IllegalChar, Some(it.into())),
            Self::ClimbsAboveRoot => (Reason::ClimbsAboveRoot, None),
        }
    }

    /// The error, and where it is in the text of the path.
    pub(super) fn located(self, chars: impl Iterator<Item = char>) -> Error {
        let (reason, character) = self.parts();
        let error = Error {
            character,
            ..Error::new(reason, 0)
        };
        located(error, chars, false)
    }
}

/// The error of a path with the index of the character or the component at fault. In a path that is normalized, slashes
/// separate too.
pub(super) fn located(error: Error, chars: impl Iterator<Item = char>, slashes: bool) -> Error {
    if !matches!(
        error.reason,
        Reason::EmptyComponent | Reason::IllegalChar | Reason::ClimbsAboveRoot
    ) {
        return error;
    }
    let (mut start, mut depth, mut dots) = (0, 0, true);
    let place = chars.chain(['\\']).enumerate().find_map(|(index, it)| {
        if it != '\\' && !(slashes && it == '/') {
            dots &= it == '.';
            // No component before the faulty one holds an illegal character.
            return (error.character == Some(it)).then_some(index);
        }
        let (component, length) = (start, index - start);
        depth += match length {
            0 => 0,
            1 if dots => 0,
            2 if dots => -1,
            _ => 1,
        };
        (start, dots) = (index + 1, true);
        match error.reason {
            // One separator at the start makes no difference.
            Reason::EmptyComponent => (length == 0 && index > 0).then_some(component),
            Reason::ClimbsAboveRoot => (depth < 0).then_some(component),
            _ => None,
        }
    });
    Error {
        place: place.unwrap_or(0),
        ..error
    }
}
