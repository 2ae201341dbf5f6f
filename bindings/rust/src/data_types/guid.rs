//! Globally unique identifiers.

use crate::error::{Error, Reason};
use core::fmt;
use core::str::FromStr;

/// A globally unique identifier: 16 bytes, whose first three numbers are stored with their low byte first.
///
/// ```
/// use nardcorbel::{guid, Guid};
///
/// let system: Guid = "c12a7328-f81f-11d2-ba4b-00a0c93ec93b".parse()?;
/// assert_eq!(system, guid!("C12A7328-F81F-11D2-BA4B-00A0C93EC93B"));
/// assert_eq!(system.to_bytes()[..4], [0x28, 0x73, 0x2a, 0xc1]);
/// # Ok::<(), nardcorbel::Error>(())
/// ```
#[derive(Clone, Copy, Default, PartialEq, Eq, PartialOrd, Ord, Hash)]
#[repr(transparent)]
pub struct Guid([u8; 16]);

/// The index in the text of the digits of each byte.
const DIGITS: [usize; 16] = [6, 4, 2, 0, 11, 9, 16, 14, 19, 21, 24, 26, 28, 30, 32, 34];

impl Guid {
    /// The identifier of zeros.
    pub const ZERO: Self = Self([0; 16]);

    /// Creates an identifier from the bytes that firmware stores.
    ///
    /// ```
    /// use nardcorbel::Guid;
    ///
    /// let guid = Guid::from_bytes([0, 1, 2, 3, 4, 5, 6, 7, 8, 9, 10, 11, 12, 13, 14, 15]);
    /// assert_eq!(guid.to_string(), "03020100-0504-0706-0809-0a0b0c0d0e0f");
    /// ```
    #[must_use]
    pub const fn from_bytes(bytes: [u8; 16]) -> Self {
        Self(bytes)
    }

    /// Returns the bytes that firmware stores.
    ///
    /// ```
    /// use nardcorbel::guid;
    ///
    /// let guid = guid!("03020100-0504-0706-0809-0a0b0c0d0e0f");
    /// assert_eq!(guid.to_bytes()[..4], [0, 1, 2, 3]);
    /// ```
    #[must_use]
    pub const fn to_bytes(self) -> [u8; 16] {
        self.0
    }

    /// Returns whether all bytes are zero.
    ///
    /// ```
    /// use nardcorbel::Guid;
    ///
    /// assert!(Guid::ZERO.is_zero());
    /// ```
    #[must_use]
    pub const fn is_zero(self) -> bool {
        u128::from_le_bytes(self.0) == 0
    }

    /// Reads a text of 36 characters. Fails with the offset of the first wrong byte.
    ///
    /// ```
    /// use nardcorbel::Guid;
    ///
    /// assert!(Guid::try_parse("03020100-0504-0706-0809-0a0b0c0d0e0f").is_ok());
    /// assert_eq!(Guid::try_parse("03020100_").unwrap_err().to_string(), "not a GUID at offset 8");
    /// ```
    pub const fn try_parse(text: &str) -> Result<Self, Error> {
        let (text, mut bytes, mut index) = (text.as_bytes(), [0; 16], 0);
        while index < 36 {
            let right = match (index, index < text.len()) {
                (_, false) => false,
                (8 | 13 | 18 | 23, true) => text[index] == b'-',
                _ => text[index].is_ascii_hexdigit(),
            };
            if !right {
                return Err(Error::new(Reason::NotAGuid, index));
            }
            index += 1;
        }
        if text.len() > 36 {
            return Err(Error::new(Reason::NotAGuid, 36));
        }
        let mut index = 0;
        while index < 16 {
            bytes[index] = digit(text[DIGITS[index]]) << 4 | digit(text[DIGITS[index] + 1]);
            index += 1;
        }
        Ok(Self(bytes))
    }

    /// Reads a literal, for the macro `guid!`.
    #[doc(hidden)]
    #[must_use]
    pub const fn parse_or_panic(text: &str) -> Self {
        match Self::try_parse(text) {
            Ok(it) => it,
            Err(_) => panic!("the text is no GUID"),
        }
    }
}

/// The value of a digit of hexadecimal.
const fn digit(byte: u8) -> u8 {
    match byte {
        b'0'..=b'9' => byte - b'0',
        _ => (byte | 0x20) - b'a' + 10,
    }
}

/// A GUID that the compiler reads.
///
/// ```
/// use nardcorbel::{guid, Guid};
///
/// const OWNER: Guid = guid!("8be4df61-93ca-11d2-aa0d-00e098032b8c");
/// assert_eq!(OWNER.to_bytes()[0], 0x61);
/// ```
#[macro_export]
macro_rules! guid {
    ($text:expr) => {{
        const GUID: $crate::Guid = $crate::Guid::parse_or_panic($text);
        GUID
    }};
}

impl FromStr for Guid {
    type Err = Error;

    fn from_str(text: &str) -> Result<Self, Error> {
        Self::try_parse(text)
    }
}

impl fmt::Display for Guid {
    fn fmt(&self, f: &mut fmt::Formatter<'_>) -> fmt::Result {
        let mut text = [b'-'; 36];
        for (byte, at) in self.0.iter().zip(DIGITS) {
            for (place, digit) in [(at, byte >> 4), (at + 1, byte & 15)] {
                text[place] = b"0123456789abcdef"[usize::from(digit)];
            }
        }
        f.pad(core::str::from_utf8(&text).unwrap_or_default())
    }
}

impl fmt::Debug for Guid {
    fn fmt(&self, f: &mut fmt::Formatter<'_>) -> fmt::Result {
        write!(f, "Guid(\"{self}\")")
    }
}
