//! Characters and strings of firmware.

pub mod chars;
mod literals;
#[cfg(feature = "alloc")]
pub mod owned_strs;
mod shown;
pub mod strs;
pub mod unaligned_slice;

pub use chars::{Char16, Char8, CharConversionError, NUL_16, NUL_8};
pub use guid::Guid;
#[doc(hidden)]
pub use literals::{char16, str_num_latin1_chars, str_num_ucs2_chars, str_to_latin1, str_to_ucs2};
#[cfg(feature = "alloc")]
pub use owned_strs::{CString16, FromStrError};
pub(crate) use shown::pad;
pub use shown::{str_from_units_lossy, Shown};
pub use strs::{
    CStr16, CStr16Iter, CStr8, EqStrUntilNul, FromSliceUntilNulError, FromSliceWithNulError,
    FromStrWithBufError, UnalignedCStr16Error,
};
pub use unaligned_slice::{UnalignedSlice, UnalignedSliceIntoIter, UnalignedSliceIter};

mod guid;
