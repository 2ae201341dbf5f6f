//! Owned strings.

use super::chars::{Char16, NUL_16};
use super::strs::{CStr16, EqStrUntilNul, FromSliceWithNulError};
use super::UnalignedSlice;
use crate::error::{Error, Reason};
use crate::sys;
use alloc::borrow::{Borrow, ToOwned};
use alloc::string::String;
use alloc::vec;
use alloc::vec::Vec;
use core::fmt;
use core::ops::Deref;
use core::str::FromStr;

/// Why a text is no string.
///
/// ```
/// use nardcorbel::{data_types::FromStrError, CString16};
///
/// assert_eq!(CString16::try_from("😀"), Err(FromStrError::InvalidChar));
/// ```
#[derive(Clone, Copy, Debug, Eq, PartialEq)]
pub enum FromStrError {
    /// A character is above U+FFFF.
    InvalidChar,
    /// The text has a NUL.
    InteriorNul,
}

impl fmt::Display for FromStrError {
    fn fmt(&self, f: &mut fmt::Formatter<'_>) -> fmt::Result {
        f.write_str(match self {
            Self::InvalidChar => "UCS-2 Conversion Error: Invalid character",
            Self::InteriorNul => "UCS-2 Conversion Error: Interior null terminator",
        })
    }
}

impl core::error::Error for FromStrError {}

/// A string of UCS-2 that owns its characters and its NUL.
///
/// ```
/// use nardcorbel::{char16, cstr16, CString16};
///
/// let mut string = CString16::try_from("boot")?;
/// string.push(char16!('.'));
/// string.push_str(cstr16!("efi"));
/// assert_eq!(string, "boot.efi");
/// # Ok::<(), nardcorbel::data_types::FromStrError>(())
/// ```
#[derive(Clone, Eq, Ord, PartialOrd, PartialEq, Hash)]
pub struct CString16(Vec<u16>);

impl CString16 {
    /// Creates an empty string.
    ///
    /// ```
    /// use nardcorbel::CString16;
    ///
    /// assert_eq!(CString16::new().to_u16_slice_with_nul(), [0]);
    /// ```
    #[must_use]
    pub fn new() -> Self {
        Self(vec![0])
    }

    /// Removes all characters.
    ///
    /// ```
    /// use nardcorbel::CString16;
    ///
    /// let mut string = CString16::try_from("ab")?;
    /// string.clear();
    /// assert!(string.is_empty());
    /// # Ok::<(), nardcorbel::data_types::FromStrError>(())
    /// ```
    pub fn clear(&mut self) {
        self.0.truncate(1);
        self.0[0] = 0;
    }

    /// Adds a character.
    ///
    /// # Panics
    ///
    /// Panics if the character is NUL.
    ///
    /// ```
    /// use nardcorbel::{char16, CString16};
    ///
    /// let mut string = CString16::new();
    /// string.push(char16!('a'));
    /// assert_eq!(string, "a");
    /// ```
    pub fn push(&mut self, character: Char16) {
        assert_ne!(character, NUL_16, "a string has no NUL before its end");
        // The NUL is replaced last: an allocator may unwind.
        let end = self.num_chars();
        self.0.push(0);
        self.0[end] = character.into();
    }

    /// Adds the characters of another string.
    ///
    /// ```
    /// use nardcorbel::{cstr16, CString16};
    ///
    /// let mut string = CString16::try_from("boot")?;
    /// string.push_str(cstr16!(".efi"));
    /// assert_eq!(string, "boot.efi");
    /// # Ok::<(), nardcorbel::data_types::FromStrError>(())
    /// ```
    pub fn push_str(&mut self, string: &CStr16) {
        self.0.reserve(string.num_chars());
        self.0.pop();
        self.0.extend_from_slice(string.to_u16_slice_with_nul());
    }

    /// Replaces each character that equals the first one by the second one.
    ///
    /// # Panics
    ///
    /// Panics if one of the two is NUL.
    ///
    /// ```
    /// use nardcorbel::{char16, CString16};
    ///
    /// let mut string = CString16::try_from("a/b")?;
    /// string.replace_char(char16!('/'), char16!('\\'));
    /// assert_eq!(string, r"a\b");
    /// # Ok::<(), nardcorbel::data_types::FromStrError>(())
    /// ```
    pub fn replace_char(&mut self, search: Char16, replace: Char16) {
        assert!(
            search != NUL_16 && replace != NUL_16,
            "a string has no NUL before its end"
        );
        let (search, replace) = (search.into(), replace.into());
        self.0
            .iter_mut()
            .filter(|it| **it == search)
            .for_each(|it| *it = replace);
    }

    /// Returns the number of characters, without the NUL.
    ///
    /// ```
    /// use nardcorbel::CString16;
    ///
    /// assert_eq!(CString16::try_from("aé")?.num_chars(), 2);
    /// # Ok::<(), nardcorbel::data_types::FromStrError>(())
    /// ```
    #[must_use]
    pub fn num_chars(&self) -> usize {
        self.0.len() - 1
    }

    /// Returns whether the string is only its NUL.
    ///
    /// ```
    /// use nardcorbel::CString16;
    ///
    /// assert!(CString16::new().is_empty());
    /// ```
    #[must_use]
    pub fn is_empty(&self) -> bool {
        self.num_chars() == 0
    }

    /// The string of units that a proved call wrote.
    pub(crate) fn of(units: Vec<u16>) -> Self {
        debug_assert!(CStr16::from_u16_with_nul(&units).is_ok());
        Self(units)
    }

    /// The units and the NUL, for calls that write a string.
    pub(crate) fn units_mut(&mut self) -> &mut Vec<u16> {
        &mut self.0
    }
}

impl Default for CString16 {
    fn default() -> Self {
        Self::new()
    }
}

impl<'a> Extend<&'a Char16> for CString16 {
    fn extend<I: IntoIterator<Item = &'a Char16>>(&mut self, chars: I) {
        chars.into_iter().for_each(|it| self.push(*it));
    }
}

impl TryFrom<&str> for CString16 {
    type Error = FromStrError;

    fn try_from(text: &str) -> Result<Self, FromStrError> {
        text.parse().map_err(|error: Error| match error.reason {
            Reason::InteriorNul => FromStrError::InteriorNul,
            _ => FromStrError::InvalidChar,
        })
    }
}

impl FromStr for CString16 {
    type Err = Error;

    /// Creates a string from a text. The error says which character is refused, and where.
    fn from_str(text: &str) -> Result<Self, Error> {
        // No character has fewer bytes than units.
        let mut units = vec![0; text.len() + 1];
        let length = sys::nard_string_from_utf8(text.as_bytes(), &mut units)
            .map_err(|error| error.in_text(text))?;
        units.truncate(length + 1);
        Ok(Self(units))
    }
}

impl TryFrom<Vec<u16>> for CString16 {
    type Error = FromSliceWithNulError;

    fn try_from(units: Vec<u16>) -> Result<Self, FromSliceWithNulError> {
        CStr16::from_u16_with_nul(&units)?;
        Ok(Self(units))
    }
}

impl TryFrom<&UnalignedSlice<'_, u16>> for CString16 {
    type Error = FromSliceWithNulError;

    fn try_from(units: &UnalignedSlice<'_, u16>) -> Result<Self, FromSliceWithNulError> {
        Self::try_from(units.to_vec())
    }
}

impl UnalignedSlice<'_, u16> {
    /// Copies the units to an owned string.
    ///
    /// ```
    /// use nardcorbel::data_types::UnalignedSlice;
    ///
    /// let name = UnalignedSlice::from_unit_bytes(&[0x61, 0, 0, 0]);
    /// assert_eq!(name.to_cstring16()?, "a");
    /// # Ok::<(), nardcorbel::data_types::FromSliceWithNulError>(())
    /// ```
    pub fn to_cstring16(&self) -> Result<CString16, FromSliceWithNulError> {
        CString16::try_from(self)
    }
}

impl From<&CStr16> for CString16 {
    fn from(string: &CStr16) -> Self {
        Self(string.to_u16_slice_with_nul().to_vec())
    }
}

impl From<&CStr16> for String {
    fn from(string: &CStr16) -> Self {
        string.chars().collect()
    }
}

impl From<&CString16> for String {
    fn from(string: &CString16) -> Self {
        string.chars().collect()
    }
}

impl ToOwned for CStr16 {
    type Owned = CString16;

    fn to_owned(&self) -> CString16 {
        CString16::from(self)
    }
}

impl Deref for CString16 {
    type Target = CStr16;

    fn deref(&self) -> &CStr16 {
        CStr16::of(&self.0)
    }
}

impl AsRef<CStr16> for CString16 {
    fn as_ref(&self) -> &CStr16 {
        self
    }
}

impl Borrow<CStr16> for CString16 {
    fn borrow(&self) -> &CStr16 {
        self
    }
}

impl fmt::Display for CString16 {
    fn fmt(&self, f: &mut fmt::Formatter<'_>) -> fmt::Result {
        fmt::Display::fmt(&**self, f)
    }
}

impl fmt::Debug for CString16 {
    fn fmt(&self, f: &mut fmt::Formatter<'_>) -> fmt::Result {
        fmt::Debug::fmt(&**self, f)
    }
}

impl fmt::Write for CString16 {
    /// Adds a text. Fails if it is no string, and then adds nothing.
    fn write_str(&mut self, text: &str) -> fmt::Result {
        self.push_str(&Self::try_from(text).map_err(|_| fmt::Error)?);
        Ok(())
    }
}

impl PartialEq<&CStr16> for CString16 {
    fn eq(&self, other: &&CStr16) -> bool {
        **self == **other
    }
}

impl PartialEq<CString16> for &CStr16 {
    fn eq(&self, other: &CString16) -> bool {
        **self == **other
    }
}

impl PartialEq<str> for CString16 {
    fn eq(&self, other: &str) -> bool {
        **self == *other
    }
}

impl PartialEq<&str> for CString16 {
    fn eq(&self, other: &&str) -> bool {
        **self == **other
    }
}

impl<S: AsRef<str> + ?Sized> EqStrUntilNul<S> for CString16 {
    fn eq_str_until_nul(&self, other: &S) -> bool {
        (**self).eq_str_until_nul(other)
    }
}

impl FromIterator<Char16> for CString16 {
    /// Collects characters.
    ///
    /// # Panics
    ///
    /// Panics if one of them is NUL.
    fn from_iter<I: IntoIterator<Item = Char16>>(chars: I) -> Self {
        let mut string = Self::new();
        chars.into_iter().for_each(|it| string.push(it));
        string
    }
}
