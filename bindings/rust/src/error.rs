//! The errors of calls.

use crate::sys;
use core::fmt;

/// What is wrong with an input, and where.
///
/// ```
/// use nardcorbel::{PathBuf, Reason};
///
/// let error = "a\\😀".parse::<PathBuf>().unwrap_err();
/// assert_eq!((error.reason, error.place, error.character), (Reason::InvalidChar, 2, Some('😀')));
/// assert_eq!(error.to_string(), "invalid character at index 2: '😀'");
/// ```
#[derive(Clone, Copy, Debug, PartialEq, Eq)]
#[non_exhaustive]
pub struct Error {
    /// What is wrong.
    pub reason: Reason,

    /// For [`Reason::BufferTooSmall`], how many elements the buffer needs. Otherwise the index or
    /// offset of the fault in the input. It has no meaning if the whole path or node is at fault.
    pub place: usize,

    /// The character at fault, if one is.
    pub character: Option<char>,
}

impl Error {
    pub(crate) const fn new(reason: Reason, place: usize) -> Self {
        Self {
            reason,
            place,
            character: None,
        }
    }

    /// Names the character at fault, if it is one of a text.
    pub(crate) fn in_text(self, text: &str) -> Self {
        match self.reason {
            Reason::InvalidChar | Reason::InteriorNul => Self {
                character: text.chars().nth(self.place),
                ..self
            },
            _ => self,
        }
    }
}

macro_rules! reasons {
    ($($name:ident = $number:ident, $text:literal;)*) => {
        /// What is wrong with an input.
        ///
        /// ```
        /// use nardcorbel::{DevicePath, Reason};
        ///
        /// let error = DevicePath::from_bytes(&[1, 1, 6, 0]).unwrap_err();
        /// assert_eq!(error.reason, Reason::NodeBeyondEnd);
        /// ```
        #[derive(Clone, Copy, Debug, PartialEq, Eq)]
        #[non_exhaustive]
        pub enum Reason {
            $(
                #[doc = $text]
                $name,
            )*
            /// The text is no GUID.
            NotAGuid,
            /// A number that this version of the crate does not know.
            Unknown(u32),
        }

        impl Reason {
            pub(crate) fn of(number: u32) -> Self {
                match number {
                    $(sys::$number => Reason::$name,)*
                    other => Reason::Unknown(other),
                }
            }
        }

        impl fmt::Display for Reason {
            fn fmt(&self, f: &mut fmt::Formatter<'_>) -> fmt::Result {
                match self {
                    $(Reason::$name => f.write_str($text),)*
                    Reason::NotAGuid => f.write_str("not a GUID"),
                    Reason::Unknown(number) => write!(f, "unknown status {number}"),
                }
            }
        }
    };
}

reasons! {
    NoNul = NO_NUL, "not null-terminated";
    InvalidChar = INVALID_CHAR, "invalid character";
    InteriorNul = INTERIOR_NUL, "interior null character";
    BufferTooSmall = BUFFER_TOO_SMALL, "buffer too small";
    NotUtf8 = NOT_UTF8, "invalid UTF-8";
    OddBytes = ODD_BYTES, "odd number of bytes";
    PathEmpty = PATH_EMPTY, "path is empty";
    EmptyComponent = EMPTY_COMPONENT, "path contains an empty component";
    IllegalChar = ILLEGAL_CHAR, "path contains an illegal character";
    ClimbsAboveRoot = CLIMBS_ABOVE_ROOT, "path climbs above the root";
    NoParent = NO_PARENT, "path has no parent";
    NoEndNode = NO_END_NODE, "device path has no end node";
    TruncatedHeader = TRUNCATED_HEADER, "device path ends within a node header";
    UnknownEnd = UNKNOWN_END, "end node has an unknown sub-type";
    LengthBelowHeader = LENGTH_BELOW_HEADER, "device path node is shorter than its header";
    EndWithData = END_WITH_DATA, "end node has data";
    NodeBeyondEnd = NODE_BEYOND_END, "device path node extends past the end of the data";
    OptionTooShort = OPTION_TOO_SHORT, "load option ends before its description";
    DescriptionWithoutEnd = DESCRIPTION_WITHOUT_END, "description is not null-terminated";
    ListBeyondEnd = LIST_BEYOND_END, "file path list extends past the end of the load option";
    EmptyList = EMPTY_LIST, "file path list is empty";
    NameEmpty = NAME_EMPTY, "name contains only spaces and dots";
    NameTooLong = NAME_TOO_LONG, "name is longer than 255 characters";
    NodeOfEnd = NODE_OF_END, "end node is only allowed at the end of a device path";
    NodeTooLong = NODE_TOO_LONG, "device path node is longer than 65,535 bytes";
    ListTooLong = LIST_TOO_LONG, "file path list is longer than 65,535 bytes";
    NotAName = NOT_A_NAME, "not the name of a load option";
    NoNode = NO_NODE, "not a device path";
    NoField = NO_FIELD, "device path node has no such field";
}

impl fmt::Display for Error {
    fn fmt(&self, f: &mut fmt::Formatter<'_>) -> fmt::Result {
        self.reason.fmt(f)?;
        match (self.reason, self.character) {
            (Reason::IllegalChar, Some(it)) => {
                write!(
                    f,
                    " (value {}) at index {}: {it:?}",
                    u32::from(it),
                    self.place
                )
            }
            (Reason::InvalidChar, Some(it)) => write!(f, " at index {}: {it:?}", self.place),
            (Reason::BufferTooSmall, _) => write!(f, ": {} elements are needed", self.place),
            (
                Reason::InvalidChar
                | Reason::InteriorNul
                | Reason::EmptyComponent
                | Reason::IllegalChar
                | Reason::ClimbsAboveRoot,
                _,
            ) => write!(f, " at index {}", self.place),
            (
                Reason::NoNul
                | Reason::PathEmpty
                | Reason::NoParent
                | Reason::NameEmpty
                | Reason::NameTooLong
                | Reason::NodeOfEnd
                | Reason::NodeTooLong
                | Reason::ListTooLong
                | Reason::NotAName
                | Reason::NoField,
                _,
            ) => Ok(()),
            _ => write!(f, " at offset {}", self.place),
        }
    }
}

impl core::error::Error for Error {}

/// What a call says besides its status.
#[derive(Default)]
pub(crate) struct Said {
    /// The length of the result.
    pub length: usize,
    /// Where the input is wrong.
    pub fault: usize,
    /// The character that is not allowed, or 0.
    pub character: u16,
}

impl Said {
    /// The status of a call that succeeds.
    pub fn status(&self, status: u32) -> Result<u32, Error> {
        match status {
            sys::OK | sys::END.. => Ok(status),
            sys::BUFFER_TOO_SMALL => Err(Error::new(Reason::BufferTooSmall, self.length)),
            _ => Err(Error {
                character: char::from_u32(self.character.into()).filter(|it| *it != '\0'),
                ..Error::new(Reason::of(status), self.fault)
            }),
        }
    }

    /// The length of the result.
    pub fn result(&self, status: u32) -> Result<usize, Error> {
        self.status(status).map(|_| self.length)
    }

    /// The length of a text that the call writes.
    pub fn text(&self, status: u32) -> Result<usize, Error> {
        // A text also needs room for its NUL.
        let missing = usize::from(status == sys::BUFFER_TOO_SMALL);
        let length = self.length.saturating_add(missing);
        Self { length, ..*self }.result(status)
    }
}
