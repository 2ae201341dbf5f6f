//! Borrowed strings.

use super::chars::{Char16, Char8, NUL_16};
use super::UnalignedSlice;
use crate::error::{Error, Reason};
use crate::sys;
use core::borrow::Borrow;
use core::cmp::Ordering;
use core::ffi::CStr;
use core::fmt::{self, Write};
use core::hash::{Hash, Hasher};
use core::iter::FusedIterator;
use core::mem::MaybeUninit;
use core::ptr;
use core::slice;

macro_rules! errors {
    ($($(#[$about:meta])* $name:ident { $($variant:ident $(($place:ident))? = $text:literal $(, $at:literal)?;)* })*) => {$(
        $(#[$about])*
        #[derive(Clone, Copy, Debug, Eq, PartialEq)]
        pub enum $name {
            $(#[doc = $text] $variant $((errors!(@usize $place)))?,)*
        }

        impl fmt::Display for $name {
            fn fmt(&self, f: &mut fmt::Formatter<'_>) -> fmt::Result {
                match self {
                    $(Self::$variant $(($place))? => {
                        f.write_str($text)?;
                        $(write!(f, " at index {}", $place)?;)?
                        Ok(())
                    })*
                }
            }
        }

        impl core::error::Error for $name {}
    )*};
    (@usize $place:ident) => { usize };
}
errors! {
    /// Why units up to a NUL are no string.
    ///
    /// ```
    /// use nardcorbel::{data_types::FromSliceUntilNulError, CStr16};
    ///
    /// let error = CStr16::from_u16_until_nul(&[0x61, 0xd800, 0]).unwrap_err();
    /// assert_eq!(error, FromSliceUntilNulError::InvalidChar(1));
    /// assert_eq!(error.to_string(), "invalid character at index 1");
    /// ```
    FromSliceUntilNulError {
        InvalidChar(index) = "invalid character";
        NoNul = "no nul character";
    }

    /// Why units or bytes are no string.
    ///
    /// ```
    /// use nardcorbel::{data_types::FromSliceWithNulError, CStr16};
    ///
    /// let error = CStr16::from_u16_with_nul(&[0x61, 0, 0x62, 0]).unwrap_err();
    /// assert_eq!(error, FromSliceWithNulError::InteriorNul(1));
    /// assert_eq!(error.to_string(), "interior null character at index 1");
    /// ```
    FromSliceWithNulError {
        InvalidChar(index) = "invalid character";
        InteriorNul(index) = "interior null character";
        NotNulTerminated = "not null-terminated";
        NotAligned = "slice is not aligned to a 16-bit boundary";
    }

    /// Why unaligned units are no string, or don't fit a buffer.
    ///
    /// ```
    /// use nardcorbel::data_types::{UnalignedCStr16Error, UnalignedSlice};
    ///
    /// let name = UnalignedSlice::from_unit_bytes(&[0x61, 0, 0, 0]);
    /// assert_eq!(name.to_cstr16(&mut []), Err(UnalignedCStr16Error::BufferTooSmall));
    /// ```
    UnalignedCStr16Error {
        InvalidChar(index) = "invalid character";
        InteriorNul(index) = "interior null character";
        NotNulTerminated = "not null-terminated";
        BufferTooSmall = "buffer too small";
    }

    /// Why a text is no string, or doesn't fit a buffer.
    ///
    /// ```
    /// use nardcorbel::{data_types::FromStrWithBufError, CStr16};
    ///
    /// let error = CStr16::from_str_with_buf("ab", &mut [0; 2]).unwrap_err();
    /// assert_eq!(error, FromStrWithBufError::BufferTooSmall);
    /// ```
    FromStrWithBufError {
        InvalidChar(index) = "invalid character";
        InteriorNul(index) = "interior null character";
        BufferTooSmall = "buffer too small";
    }
}

/// A string of Latin-1 that ends in a NUL, the only one in it.
///
/// ```
/// use nardcorbel::{CStr8, cstr8};
///
/// let language: &CStr8 = CStr8::from_bytes_with_nul(b"en\0")?;
/// assert_eq!(language, cstr8!("en"));
/// # Ok::<(), nardcorbel::data_types::FromSliceWithNulError>(())
/// ```
#[derive(Eq, PartialEq, Ord, PartialOrd, Hash)]
#[repr(transparent)]
pub struct CStr8([Char8]);

impl CStr8 {
    /// Borrows the string at an address.
    ///
    /// # Safety
    ///
    /// A NUL follows, and up to it the memory is readable, and unchanged while the string is used.
    ///
    /// ```
    /// use nardcorbel::{cstr8, CStr8};
    ///
    /// let language = cstr8!("en");
    /// // SAFETY: the pointer is that of a string.
    /// assert_eq!(unsafe { CStr8::from_ptr(language.as_ptr()) }, language);
    /// ```
    #[must_use]
    pub unsafe fn from_ptr<'ptr>(ptr: *const Char8) -> &'ptr Self {
        // SAFETY: the caller's, for each character up to the NUL and for the slice of them.
        unsafe {
            let length = (0..).take_while(|it| u8::from(*ptr.add(*it)) != 0).count();
            Self::from_bytes_with_nul_unchecked(slice::from_raw_parts(ptr.cast(), length + 1))
        }
    }

    /// Creates a string from bytes, whose last and only the last is 0.
    ///
    /// ```
    /// use nardcorbel::CStr8;
    ///
    /// assert_eq!(CStr8::from_bytes_with_nul(b"en\0")?.to_string(), "en");
    /// assert!(CStr8::from_bytes_with_nul(b"en").is_err());
    /// # Ok::<(), nardcorbel::data_types::FromSliceWithNulError>(())
    /// ```
    pub fn from_bytes_with_nul(bytes: &[u8]) -> Result<&Self, FromSliceWithNulError> {
        match bytes.iter().position(|it| *it == 0) {
            None => Err(FromSliceWithNulError::NotNulTerminated),
            Some(it) if it + 1 < bytes.len() => Err(FromSliceWithNulError::InteriorNul(it)),
            Some(_) => Ok(Self::from_constant(bytes)),
        }
    }

    /// Creates a string from bytes without a test.
    ///
    /// # Safety
    ///
    /// The last byte, and only that, is 0.
    ///
    /// ```
    /// use nardcorbel::{cstr8, CStr8};
    ///
    /// // SAFETY: the only NUL is at the end.
    /// let language = unsafe { CStr8::from_bytes_with_nul_unchecked(b"en\0") };
    /// assert_eq!(language, cstr8!("en"));
    /// ```
    #[must_use]
    pub const unsafe fn from_bytes_with_nul_unchecked(bytes: &[u8]) -> &Self {
        // SAFETY: `CStr8` and `Char8` are transparent wrappers.
        unsafe { &*(ptr::from_ref(bytes) as *const Self) }
    }

    /// The string of bytes whose last and only the last is 0, for the macro `cstr8!`. Panics at any others.
    #[doc(hidden)]
    #[must_use]
    pub const fn from_constant(bytes: &[u8]) -> &Self {
        let (mut index, last) = (0, bytes.len() - 1);
        while index < last {
            assert!(bytes[index] != 0, "NUL before the end");
            index += 1;
        }
        assert!(bytes[last] == 0, "the last byte is not 0");
        // SAFETY: only the last byte is 0.
        unsafe { Self::from_bytes_with_nul_unchecked(bytes) }
    }

    /// Returns the address of the first character.
    ///
    /// ```
    /// use nardcorbel::cstr8;
    ///
    /// // SAFETY: a string has a first character.
    /// assert_eq!(unsafe { *cstr8!("en").as_ptr() }, 'e');
    /// ```
    #[must_use]
    pub const fn as_ptr(&self) -> *const Char8 {
        self.0.as_ptr()
    }

    /// Returns the bytes and the NUL.
    ///
    /// ```
    /// use nardcorbel::cstr8;
    ///
    /// assert_eq!(cstr8!("é").as_bytes(), [0xe9, 0]);
    /// ```
    #[must_use]
    pub const fn as_bytes(&self) -> &[u8] {
        // SAFETY: `Char8` is a transparent wrapper.
        unsafe { &*(ptr::from_ref(&self.0) as *const [u8]) }
    }

    /// Iterates over the characters, without the NUL.
    fn chars(&self) -> impl Iterator<Item = char> + Clone + '_ {
        self.0[..self.0.len() - 1].iter().map(|it| char::from(*it))
    }
}

impl AsRef<[u8]> for CStr8 {
    fn as_ref(&self) -> &[u8] {
        self.as_bytes()
    }
}

impl Borrow<[u8]> for CStr8 {
    fn borrow(&self) -> &[u8] {
        self.as_bytes()
    }
}

impl<'a> TryFrom<&'a CStr> for &'a CStr8 {
    type Error = FromSliceWithNulError;

    fn try_from(string: &'a CStr) -> Result<Self, FromSliceWithNulError> {
        CStr8::from_bytes_with_nul(string.to_bytes_with_nul())
    }
}

/// A string of UCS-2 that ends in a NUL, the only one in it. No unit is a surrogate.
///
/// ```
/// use nardcorbel::{cstr16, CStr16};
///
/// let string = CStr16::from_u16_with_nul(&[0x61, 0])?;
/// assert_eq!(string, cstr16!("a"));
/// assert_eq!(string, "a");
/// # Ok::<(), nardcorbel::data_types::FromSliceWithNulError>(())
/// ```
#[derive(Eq)]
#[repr(transparent)]
pub struct CStr16([Char16]);

// Over units, which is faster, and what `CString16` does.
impl PartialEq for CStr16 {
    fn eq(&self, other: &Self) -> bool {
        self.to_u16_slice_with_nul() == other.to_u16_slice_with_nul()
    }
}

impl PartialOrd for CStr16 {
    fn partial_cmp(&self, other: &Self) -> Option<Ordering> {
        Some(self.cmp(other))
    }
}

impl Ord for CStr16 {
    fn cmp(&self, other: &Self) -> Ordering {
        self.to_u16_slice_with_nul()
            .cmp(other.to_u16_slice_with_nul())
    }
}

impl Hash for CStr16 {
    fn hash<H: Hasher>(&self, state: &mut H) {
        self.to_u16_slice_with_nul().hash(state);
    }
}

impl CStr16 {
    /// Borrows the string at an address.
    ///
    /// # Safety
    ///
    /// A NUL follows, and up to it the memory is readable, holds no surrogate, and is unchanged while the string is used.
    ///
    /// ```
    /// use nardcorbel::{cstr16, CStr16};
    ///
    /// let name = cstr16!("BootOrder");
    /// // SAFETY: the pointer is that of a string.
    /// assert_eq!(unsafe { CStr16::from_ptr(name.as_ptr()) }, name);
    /// ```
    #[must_use]
    pub unsafe fn from_ptr<'ptr>(ptr: *const Char16) -> &'ptr Self {
        // SAFETY: the caller's, for each character up to the NUL and for the slice of them.
        unsafe {
            let length = (0..).take_while(|it| *ptr.add(*it) != NUL_16).count();
            Self::from_char16_with_nul_unchecked(slice::from_raw_parts(ptr, length + 1))
        }
    }

    /// Creates a string from the units up to the first NUL.
    ///
    /// ```
    /// use nardcorbel::CStr16;
    ///
    /// assert_eq!(CStr16::from_u16_until_nul(&[0x61, 0, 0xffff])?, "a");
    /// # Ok::<(), nardcorbel::data_types::FromSliceUntilNulError>(())
    /// ```
    pub fn from_u16_until_nul(units: &[u16]) -> Result<&Self, FromSliceUntilNulError> {
        match sys::nard_string_length(units) {
            Ok(length) => Ok(Self::of(&units[..=length])),
            Err(error) => Err(match error.reason {
                Reason::InvalidChar => FromSliceUntilNulError::InvalidChar(error.place),
                _ => FromSliceUntilNulError::NoNul,
            }),
        }
    }

    /// Creates a string from all of the units.
    ///
    /// ```
    /// use nardcorbel::CStr16;
    ///
    /// assert_eq!(CStr16::from_u16_with_nul(&[0x61, 0])?, "a");
    /// assert!(CStr16::from_u16_with_nul(&[0x61, 0, 0x62, 0]).is_err());
    /// # Ok::<(), nardcorbel::data_types::FromSliceWithNulError>(())
    /// ```
    pub fn from_u16_with_nul(units: &[u16]) -> Result<&Self, FromSliceWithNulError> {
        match sys::nard_string_check(units) {
            Ok(_) => Ok(Self::of(units)),
            Err(error) => Err(match error.reason {
                Reason::InvalidChar => FromSliceWithNulError::InvalidChar(error.place),
                Reason::InteriorNul => FromSliceWithNulError::InteriorNul(error.place),
                _ => FromSliceWithNulError::NotNulTerminated,
            }),
        }
    }

    /// Creates a string from units without a test.
    ///
    /// # Safety
    ///
    /// The last unit, and only that, is 0, and none is a surrogate.
    ///
    /// ```
    /// use nardcorbel::CStr16;
    ///
    /// // SAFETY: the only NUL is at the end, and no unit is a surrogate.
    /// assert_eq!(unsafe { CStr16::from_u16_with_nul_unchecked(&[0x61, 0]) }, "a");
    /// ```
    #[must_use]
    pub const unsafe fn from_u16_with_nul_unchecked(units: &[u16]) -> &Self {
        // SAFETY: `CStr16` and `Char16` are transparent wrappers.
        unsafe { &*(ptr::from_ref(units) as *const Self) }
    }

    /// Units that the library said are a string.
    pub(crate) const fn of(units: &[u16]) -> &Self {
        // SAFETY: each caller passes units that a proved call checked or wrote, or characters before a NUL.
        unsafe { Self::from_u16_with_nul_unchecked(units) }
    }

    /// The string of a constant, for the macro `cstr16!`.
    #[doc(hidden)]
    #[must_use]
    pub const fn from_constant(units: &[u16]) -> &Self {
        let (mut index, last) = (0, units.len() - 1);
        while index < last {
            assert!(
                !matches!(units[index], 0 | 0xd800..=0xdfff),
                "NUL or a surrogate"
            );
            index += 1;
        }
        assert!(units[last] == 0, "the last unit is not NUL");
        Self::of(units)
    }

    /// Creates a string from the characters up to the first NUL.
    ///
    /// ```
    /// use nardcorbel::{char16, data_types::NUL_16, CStr16};
    ///
    /// let chars = [char16!('a'), NUL_16, char16!('b')];
    /// assert_eq!(CStr16::from_char16_until_nul(&chars)?, "a");
    /// # Ok::<(), nardcorbel::data_types::FromSliceUntilNulError>(())
    /// ```
    pub fn from_char16_until_nul(chars: &[Char16]) -> Result<&Self, FromSliceUntilNulError> {
        match chars.iter().position(|it| *it == NUL_16) {
            Some(end) => Ok(Self::of(units_of(&chars[..=end]))),
            None => Err(FromSliceUntilNulError::NoNul),
        }
    }

    /// Creates a string from characters, whose last and only the last is NUL.
    ///
    /// ```
    /// use nardcorbel::{char16, data_types::NUL_16, CStr16};
    ///
    /// assert_eq!(CStr16::from_char16_with_nul(&[char16!('a'), NUL_16])?, "a");
    /// # Ok::<(), nardcorbel::data_types::FromSliceWithNulError>(())
    /// ```
    pub fn from_char16_with_nul(chars: &[Char16]) -> Result<&Self, FromSliceWithNulError> {
        match chars.iter().position(|it| *it == NUL_16) {
            None => Err(FromSliceWithNulError::NotNulTerminated),
            Some(it) if it + 1 < chars.len() => Err(FromSliceWithNulError::InteriorNul(it)),
            Some(_) => Ok(Self::of(units_of(chars))),
        }
    }

    /// Creates a string from characters without a test.
    ///
    /// # Safety
    ///
    /// The last character, and only that, is NUL.
    ///
    /// ```
    /// use nardcorbel::{char16, data_types::NUL_16, CStr16};
    ///
    /// // SAFETY: the only NUL is at the end.
    /// assert_eq!(unsafe { CStr16::from_char16_with_nul_unchecked(&[char16!('a'), NUL_16]) }, "a");
    /// ```
    #[must_use]
    pub const unsafe fn from_char16_with_nul_unchecked(chars: &[Char16]) -> &Self {
        Self::of(units_of(chars))
    }

    /// Writes a text in UTF-16 and a NUL to the start of a buffer, and returns the string.
    ///
    /// Fails with `BufferTooSmall` if the text and the NUL do not fit, whatever the text holds. The buffer is then full of the
    /// text's first units. Otherwise the whole text is written before its characters are checked, also if the call then fails.
    ///
    /// ```
    /// use nardcorbel::CStr16;
    /// use nardcorbel::data_types::FromStrWithBufError;
    ///
    /// let mut buffer = [0; 4];
    /// assert_eq!(CStr16::from_str_with_buf("abc", &mut buffer)?, "abc");
    /// let error = CStr16::from_str_with_buf("a😀", &mut buffer).unwrap_err();
    /// assert_eq!(error, FromStrWithBufError::InvalidChar(1));
    /// # Ok::<(), FromStrWithBufError>(())
    /// ```
    pub fn from_str_with_buf<'a>(
        text: &str,
        buffer: &'a mut [u16],
    ) -> Result<&'a Self, FromStrWithBufError> {
        let mut units = text.encode_utf16().chain([0]);
        // The buffer first: a unit without a place is not taken.
        let places = buffer.iter_mut().zip(units.by_ref());
        let written = places.map(|(to, unit)| *to = unit).count();
        if units.next().is_some() {
            return Err(FromStrWithBufError::BufferTooSmall);
        }
        Self::from_u16_with_nul(&buffer[..written]).map_err(|error| match error {
            FromSliceWithNulError::InteriorNul(it) => FromStrWithBufError::InteriorNul(it),
            // A text in UTF-16 lacks only characters above U+FFFF, and a NUL was added.
            FromSliceWithNulError::InvalidChar(it) => FromStrWithBufError::InvalidChar(it),
            _ => FromStrWithBufError::BufferTooSmall,
        })
    }

    /// Copies units from any address to an aligned buffer, and creates a string from them.
    ///
    /// ```
    /// use nardcorbel::{data_types::UnalignedSlice, CStr16};
    /// use std::mem::MaybeUninit;
    ///
    /// let name = UnalignedSlice::from_unit_bytes(&[0x61, 0, 0, 0]);
    /// assert_eq!(CStr16::from_unaligned_slice(&name, &mut [MaybeUninit::uninit(); 8])?, "a");
    /// # Ok::<(), nardcorbel::data_types::UnalignedCStr16Error>(())
    /// ```
    pub fn from_unaligned_slice<'buf>(
        source: &UnalignedSlice<'_, u16>,
        buffer: &'buf mut [MaybeUninit<u16>],
    ) -> Result<&'buf Self, UnalignedCStr16Error> {
        let buffer = buffer
            .get_mut(..source.len())
            .ok_or(UnalignedCStr16Error::BufferTooSmall)?;
        source.copy_to_maybe_uninit(buffer);
        // SAFETY: `copy_to_maybe_uninit` wrote each element.
        let units = unsafe { &*(ptr::from_ref(buffer) as *const [u16]) };
        Self::from_u16_with_nul(units).map_err(|error| match error {
            FromSliceWithNulError::InvalidChar(it) => UnalignedCStr16Error::InvalidChar(it),
            FromSliceWithNulError::InteriorNul(it) => UnalignedCStr16Error::InteriorNul(it),
            _ => UnalignedCStr16Error::NotNulTerminated,
        })
    }

    /// Creates a string from bytes at an even address, two for each unit in the machine's order.
    ///
    /// ```
    /// use nardcorbel::{cstr16, CStr16};
    ///
    /// let string = cstr16!("a");
    /// assert_eq!(CStr16::from_bytes_with_nul(string.as_bytes())?, string);
    /// # Ok::<(), nardcorbel::data_types::FromSliceWithNulError>(())
    /// ```
    pub fn from_bytes_with_nul(bytes: &[u8]) -> Result<&Self, FromSliceWithNulError> {
        if bytes.len() % 2 != 0 || !bytes.ends_with(&[0, 0]) {
            return Err(FromSliceWithNulError::NotNulTerminated);
        }
        let units = bytes.as_ptr().cast::<u16>();
        if !units.is_aligned() {
            return Err(FromSliceWithNulError::NotAligned);
        }
        // SAFETY: the address is even, and two bytes of any value are a unit.
        Self::from_u16_with_nul(unsafe { slice::from_raw_parts(units, bytes.len() / 2) })
    }

    /// Returns the address of the first character.
    ///
    /// ```
    /// use nardcorbel::cstr16;
    ///
    /// // SAFETY: a string has a first character.
    /// assert_eq!(unsafe { *cstr16!("ab").as_ptr() }, 'a');
    /// ```
    #[must_use]
    pub const fn as_ptr(&self) -> *const Char16 {
        self.0.as_ptr()
    }

    /// Returns the characters without the NUL.
    ///
    /// ```
    /// use nardcorbel::{char16, cstr16};
    ///
    /// assert_eq!(cstr16!("a").as_slice(), [char16!('a')]);
    /// ```
    #[must_use]
    pub fn as_slice(&self) -> &[Char16] {
        &self.0[..self.num_chars()]
    }

    /// Returns the characters and the NUL.
    ///
    /// ```
    /// use nardcorbel::{char16, cstr16, data_types::NUL_16};
    ///
    /// assert_eq!(cstr16!("a").as_slice_with_nul(), [char16!('a'), NUL_16]);
    /// ```
    #[must_use]
    pub const fn as_slice_with_nul(&self) -> &[Char16] {
        &self.0
    }

    /// Returns the units without the NUL.
    ///
    /// ```
    /// use nardcorbel::cstr16;
    ///
    /// assert_eq!(cstr16!("a€").to_u16_slice(), [0x61, 0x20ac]);
    /// ```
    #[must_use]
    pub fn to_u16_slice(&self) -> &[u16] {
        &self.to_u16_slice_with_nul()[..self.num_chars()]
    }

    /// Returns the units and the NUL.
    ///
    /// ```
    /// use nardcorbel::cstr16;
    ///
    /// assert_eq!(cstr16!("a€").to_u16_slice_with_nul(), [0x61, 0x20ac, 0]);
    /// ```
    #[must_use]
    pub const fn to_u16_slice_with_nul(&self) -> &[u16] {
        units_of(&self.0)
    }

    /// Iterates over the characters, without the NUL.
    ///
    /// ```
    /// use nardcorbel::{char16, cstr16};
    ///
    /// assert!(cstr16!("ab").iter().rev().eq(&[char16!('b'), char16!('a')]));
    /// ```
    #[must_use]
    pub fn iter(&self) -> CStr16Iter<'_> {
        CStr16Iter(self.as_slice().iter())
    }

    /// Iterates over the characters as `char`, without the NUL.
    ///
    /// ```
    /// use nardcorbel::cstr16;
    ///
    /// assert!(cstr16!("aé").chars().eq(['a', 'é']));
    /// ```
    pub fn chars(&self) -> impl DoubleEndedIterator<Item = char> + ExactSizeIterator + Clone + '_ {
        self.as_slice().iter().map(|it| char::from(*it))
    }

    /// Returns the number of characters, without the NUL.
    ///
    /// ```
    /// use nardcorbel::cstr16;
    ///
    /// assert_eq!(cstr16!("aé").num_chars(), 2);
    /// ```
    #[must_use]
    pub const fn num_chars(&self) -> usize {
        self.0.len() - 1
    }

    /// Returns the number of characters, without the NUL, as [`num_chars`](Self::num_chars) does.
    ///
    /// ```
    /// use nardcorbel::cstr16;
    ///
    /// assert_eq!(cstr16!("aé").len(), 2);
    /// ```
    #[must_use]
    pub const fn len(&self) -> usize {
        self.num_chars()
    }

    /// Returns whether the string is only its NUL.
    ///
    /// ```
    /// use nardcorbel::cstr16;
    ///
    /// assert!(cstr16!("").is_empty());
    /// ```
    #[must_use]
    pub const fn is_empty(&self) -> bool {
        self.num_chars() == 0
    }

    /// Returns the number of bytes, including the NUL.
    ///
    /// ```
    /// use nardcorbel::cstr16;
    ///
    /// assert_eq!(cstr16!("aé").num_bytes(), 6);
    /// ```
    #[must_use]
    pub const fn num_bytes(&self) -> usize {
        self.0.len() * 2
    }

    /// Returns whether all characters are ASCII.
    ///
    /// ```
    /// use nardcorbel::cstr16;
    ///
    /// assert!(cstr16!("a").is_ascii() && !cstr16!("é").is_ascii());
    /// ```
    #[must_use]
    pub fn is_ascii(&self) -> bool {
        // Without a branch for each unit.
        self.to_u16_slice().iter().fold(0, |all, it| all | it) < 0x80
    }

    /// Writes the text to a sink, such as a `String`.
    ///
    /// ```
    /// use nardcorbel::cstr16;
    ///
    /// let mut text = String::new();
    /// cstr16!("é").as_str_in_buf(&mut text)?;
    /// assert_eq!(text, "é");
    /// # Ok::<(), std::fmt::Error>(())
    /// ```
    pub fn as_str_in_buf(&self, buffer: &mut dyn fmt::Write) -> fmt::Result {
        self.chars().try_for_each(|it| buffer.write_char(it))
    }

    /// Writes the text as UTF-8 to the start of a buffer, and returns it. The buffer needs room for a NUL too.
    ///
    /// ```
    /// use nardcorbel::cstr16;
    ///
    /// assert_eq!(cstr16!("é").to_str_in_buf(&mut [0; 3])?, "é");
    /// assert_eq!(cstr16!("é").to_str_in_buf(&mut [0; 2]).unwrap_err().place, 3);
    /// # Ok::<(), nardcorbel::Error>(())
    /// ```
    pub fn to_str_in_buf<'a>(&self, buffer: &'a mut [u8]) -> Result<&'a str, Error> {
        let size = sys::nard_string_to_utf8(self.to_u16_slice_with_nul(), buffer)?;
        super::shown::text_of(&buffer[..size])
    }

    /// Returns the bytes of the units and the NUL, in the machine's order.
    ///
    /// ```
    /// use nardcorbel::cstr16;
    ///
    /// let bytes = cstr16!("a").as_bytes();
    /// assert_eq!(bytes, [0x61_u16, 0].map(u16::to_ne_bytes).as_flattened());
    /// ```
    #[must_use]
    pub const fn as_bytes(&self) -> &[u8] {
        // SAFETY: the units are as many bytes, of any value.
        unsafe { slice::from_raw_parts(self.0.as_ptr().cast(), self.num_bytes()) }
    }

    /// Returns whether both strings are equal without case, as the firmware's Unicode collation compares names.
    ///
    /// ```
    /// use nardcorbel::cstr16;
    ///
    /// assert!(cstr16!("BOOT").eq_ignore_case(cstr16!("boot")));
    /// ```
    #[must_use]
    pub fn eq_ignore_case(&self, other: &Self) -> bool {
        sys::nard_string_equal_ignore_case(
            self.to_u16_slice_with_nul(),
            other.to_u16_slice_with_nul(),
        )
    }

    /// Compares two strings without case.
    ///
    /// ```
    /// use nardcorbel::cstr16;
    ///
    /// assert!(cstr16!("a").cmp_ignore_case(cstr16!("B")).is_lt());
    /// ```
    #[must_use]
    pub fn cmp_ignore_case(&self, other: &Self) -> Ordering {
        let (one, two) = (self.to_u16_slice_with_nul(), other.to_u16_slice_with_nul());
        sys::nard_string_compare_ignore_case(one, two).cmp(&0)
    }

    /// Returns whether a pattern matches the whole string without case. Patterns have `*`, `?` and sets such as `[a-z]`.
    ///
    /// ```
    /// use nardcorbel::cstr16;
    ///
    /// assert!(cstr16!("a.efi").matches(cstr16!("*.EFI")));
    /// ```
    #[must_use]
    pub fn matches(&self, pattern: &Self) -> bool {
        sys::nard_string_matches(
            self.to_u16_slice_with_nul(),
            pattern.to_u16_slice_with_nul(),
        )
    }

    /// Returns whether two names mean the same file on a FAT volume: they are equal without case, and without spaces at the start
    /// and spaces and dots at the end.
    ///
    /// ```
    /// use nardcorbel::cstr16;
    ///
    /// assert!(cstr16!("a.efi.").is_same_fat_file(cstr16!("A.EFI")));
    /// ```
    #[must_use]
    pub fn is_same_fat_file(&self, other: &Self) -> bool {
        sys::nard_fat_name_equal(self.to_u16_slice_with_nul(), other.to_u16_slice_with_nul())
    }
}

/// The units of characters.
pub(crate) const fn units_of(chars: &[Char16]) -> &[u16] {
    // SAFETY: `Char16` is a transparent wrapper.
    unsafe { &*(ptr::from_ref(chars) as *const [u16]) }
}

/// Iterates over the characters of a string, without the NUL.
///
/// ```
/// use nardcorbel::{char16, cstr16};
///
/// let mut chars = cstr16!("ab").iter();
/// assert_eq!((chars.next(), chars.len()), (Some(&char16!('a')), 1));
/// ```
#[derive(Clone, Debug)]
pub struct CStr16Iter<'a>(slice::Iter<'a, Char16>);

impl<'a> Iterator for CStr16Iter<'a> {
    type Item = &'a Char16;

    fn next(&mut self) -> Option<&'a Char16> {
        self.0.next()
    }

    fn size_hint(&self) -> (usize, Option<usize>) {
        self.0.size_hint()
    }
}

impl DoubleEndedIterator for CStr16Iter<'_> {
    fn next_back(&mut self) -> Option<Self::Item> {
        self.0.next_back()
    }
}

impl ExactSizeIterator for CStr16Iter<'_> {}
impl FusedIterator for CStr16Iter<'_> {}

impl<'a> IntoIterator for &'a CStr16 {
    type Item = &'a Char16;
    type IntoIter = CStr16Iter<'a>;

    fn into_iter(self) -> CStr16Iter<'a> {
        self.iter()
    }
}

impl AsRef<[u8]> for CStr16 {
    fn as_ref(&self) -> &[u8] {
        self.as_bytes()
    }
}

impl Borrow<[u8]> for CStr16 {
    fn borrow(&self) -> &[u8] {
        self.as_bytes()
    }
}

impl AsRef<Self> for CStr16 {
    fn as_ref(&self) -> &Self {
        self
    }
}

impl UnalignedSlice<'_, u16> {
    /// Copies the units to an aligned buffer, and creates a string from them.
    ///
    /// ```
    /// use nardcorbel::data_types::UnalignedSlice;
    /// use std::mem::MaybeUninit;
    ///
    /// let name = UnalignedSlice::from_unit_bytes(&[0x61, 0, 0, 0]);
    /// assert_eq!(name.to_cstr16(&mut [MaybeUninit::uninit(); 8])?, "a");
    /// # Ok::<(), nardcorbel::data_types::UnalignedCStr16Error>(())
    /// ```
    pub fn to_cstr16<'buf>(
        &self,
        buffer: &'buf mut [MaybeUninit<u16>],
    ) -> Result<&'buf CStr16, UnalignedCStr16Error> {
        CStr16::from_unaligned_slice(self, buffer)
    }
}

macro_rules! as_text {
    ($($name:ident)*) => {$(
        impl fmt::Display for $name {
            /// Writes the characters. Width, fill and precision apply to each of them.
            fn fmt(&self, f: &mut fmt::Formatter<'_>) -> fmt::Result {
                self.chars().try_for_each(|it| fmt::Display::fmt(&it, f))
            }
        }

        impl fmt::Debug for $name {
            fn fmt(&self, f: &mut fmt::Formatter<'_>) -> fmt::Result {
                f.write_str(concat!(stringify!($name), "(\""))?;
                self.chars().flat_map(char::escape_debug).try_for_each(|it| f.write_char(it))?;
                f.write_str("\")")
            }
        }

        impl PartialEq<str> for $name {
            fn eq(&self, other: &str) -> bool {
                self.chars().eq(other.chars())
            }
        }

        impl PartialEq<&str> for $name {
            fn eq(&self, other: &&str) -> bool {
                *self == **other
            }
        }

        impl PartialEq<str> for &$name {
            fn eq(&self, other: &str) -> bool {
                **self == *other
            }
        }

        impl<S: AsRef<str> + ?Sized> EqStrUntilNul<S> for $name {
            fn eq_str_until_nul(&self, other: &S) -> bool {
                let both = self.chars().zip(other.as_ref().chars());
                both.take_while(|(_, it)| *it != '\0').all(|(one, two)| one == two)
            }
        }
    )*};
}
as_text!(CStr8 CStr16);

/// Compares strings of firmware and texts of Rust, in either order.
///
/// ```
/// use nardcorbel::{cstr16, data_types::EqStrUntilNul};
///
/// assert!(cstr16!("boot").eq_str_until_nul("boot\0 and more"));
/// assert!("boot".eq_str_until_nul(cstr16!("boot")));
/// ```
pub trait EqStrUntilNul<StrType: ?Sized> {
    /// Returns whether one is a beginning of the other: the string, and the text up to its first NUL.
    ///
    /// ```
    /// use nardcorbel::{cstr16, data_types::EqStrUntilNul};
    ///
    /// assert!(!cstr16!("boot").eq_str_until_nul("bo-t"));
    /// ```
    fn eq_str_until_nul(&self, other: &StrType) -> bool;
}

impl<StrType: AsRef<str>, Other: EqStrUntilNul<StrType> + ?Sized> EqStrUntilNul<Other> for StrType {
    fn eq_str_until_nul(&self, other: &Other) -> bool {
        other.eq_str_until_nul(self)
    }
}
