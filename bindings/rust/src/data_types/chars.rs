//! Characters of Latin-1 and of UCS-2.

use core::fmt;

/// The character cannot be represented in the type that was asked for.
///
/// ```
/// use nardcorbel::data_types::{Char8, CharConversionError};
///
/// assert_eq!(Char8::try_from('€'), Err(CharConversionError));
/// ```
#[derive(Clone, Copy, Debug, PartialEq, Eq)]
pub struct CharConversionError;

impl fmt::Display for CharConversionError {
    fn fmt(&self, f: &mut fmt::Formatter<'_>) -> fmt::Result {
        f.write_str("CharConversionError")
    }
}

impl core::error::Error for CharConversionError {}

/// A character of Latin-1.
///
/// ```
/// use nardcorbel::Char8;
///
/// assert_eq!(Char8::try_from('é')?, 'é');
/// assert!(Char8::try_from('ā').is_err());
/// # Ok::<(), nardcorbel::data_types::CharConversionError>(())
/// ```
#[derive(Clone, Copy, Default, Eq, PartialEq, PartialOrd, Ord, Hash)]
#[repr(transparent)]
pub struct Char8(u8);

/// The character that ends a string of Latin-1.
///
/// ```
/// use nardcorbel::data_types::{Char8, NUL_8};
///
/// assert_eq!(NUL_8, Char8::from(0));
/// ```
pub const NUL_8: Char8 = Char8(0);

impl TryFrom<char> for Char8 {
    type Error = CharConversionError;

    fn try_from(value: char) -> Result<Self, CharConversionError> {
        u8::try_from(value)
            .map(Self)
            .map_err(|_| CharConversionError)
    }
}

impl From<u8> for Char8 {
    fn from(value: u8) -> Self {
        Self(value)
    }
}

impl From<Char8> for u8 {
    fn from(value: Char8) -> Self {
        value.0
    }
}

impl From<Char8> for char {
    fn from(value: Char8) -> Self {
        Self::from(value.0)
    }
}

/// A character of UCS-2: a code unit that is no surrogate.
///
/// ```
/// use nardcorbel::{char16, Char16};
///
/// assert_eq!(Char16::try_from('é')?, char16!('é'));
/// assert!(Char16::try_from(0xd800).is_err() && Char16::try_from('😀').is_err());
/// # Ok::<(), nardcorbel::data_types::CharConversionError>(())
/// ```
#[derive(Clone, Copy, Default, Eq, PartialEq, PartialOrd, Ord, Hash)]
#[repr(transparent)]
pub struct Char16(u16);

/// The character that ends a string of UCS-2.
///
/// ```
/// use nardcorbel::{cstr16, data_types::NUL_16};
///
/// assert_eq!(cstr16!("a").as_slice_with_nul().last(), Some(&NUL_16));
/// ```
pub const NUL_16: Char16 = Char16(0);

impl Char16 {
    /// Creates a character, also in a constant. Fails if it is above U+FFFF.
    ///
    /// ```
    /// use nardcorbel::Char16;
    ///
    /// const BACKSLASH: Option<Char16> = match Char16::try_from_char('\\') {
    ///     Ok(it) => Some(it),
    ///     Err(_) => None,
    /// };
    /// assert_eq!(BACKSLASH.unwrap(), '\\');
    /// ```
    pub const fn try_from_char(value: char) -> Result<Self, CharConversionError> {
        match value as u32 {
            code @ 0..=0xffff => Ok(Self(code as u16)),
            _ => Err(CharConversionError),
        }
    }

    /// Creates a character from a code unit.
    ///
    /// # Safety
    ///
    /// The unit is no surrogate.
    ///
    /// ```
    /// use nardcorbel::Char16;
    ///
    /// // SAFETY: 0x61 is no surrogate.
    /// assert_eq!(unsafe { Char16::from_u16_unchecked(0x61) }, 'a');
    /// ```
    #[must_use]
    pub const unsafe fn from_u16_unchecked(unit: u16) -> Self {
        Self(unit)
    }

    /// Returns whether the character is ASCII.
    ///
    /// ```
    /// use nardcorbel::char16;
    ///
    /// assert!(char16!('a').is_ascii() && !char16!('é').is_ascii());
    /// ```
    #[must_use]
    pub const fn is_ascii(&self) -> bool {
        self.0 < 0x80
    }
}

impl TryFrom<char> for Char16 {
    type Error = CharConversionError;

    fn try_from(value: char) -> Result<Self, CharConversionError> {
        Self::try_from_char(value)
    }
}

impl TryFrom<u16> for Char16 {
    type Error = CharConversionError;

    fn try_from(unit: u16) -> Result<Self, CharConversionError> {
        match char::from_u32(unit.into()) {
            Some(_) => Ok(Self(unit)),
            None => Err(CharConversionError),
        }
    }
}

impl From<Char16> for u16 {
    fn from(value: Char16) -> Self {
        value.0
    }
}

impl From<Char16> for char {
    fn from(value: Char16) -> Self {
        // Only a caller of `from_u16_unchecked` can make it a surrogate.
        Self::from_u32(value.0.into()).unwrap_or(Self::REPLACEMENT_CHARACTER)
    }
}

macro_rules! as_char {
    ($($name:ident)*) => {$(
        impl PartialEq<char> for $name {
            fn eq(&self, other: &char) -> bool {
                u32::from(self.0) == u32::from(*other)
            }
        }

        impl fmt::Display for $name {
            fn fmt(&self, f: &mut fmt::Formatter<'_>) -> fmt::Result {
                fmt::Display::fmt(&char::from(*self), f)
            }
        }

        impl fmt::Debug for $name {
            fn fmt(&self, f: &mut fmt::Formatter<'_>) -> fmt::Result {
                fmt::Debug::fmt(&char::from(*self), f)
            }
        }
    )*};
}
as_char!(Char8 Char16);
