//! Literals that the compiler checks: `char16!`, `cstr8!` and `cstr16!`.

use super::chars::Char16;

/// A character of UCS-2 that the compiler checks.
///
/// ```
/// use nardcorbel::char16;
///
/// assert_eq!(char16!('\\'), '\\');
/// ```
///
/// ```compile_fail
/// nardcorbel::char16!('😀');
/// ```
#[macro_export]
macro_rules! char16 {
    ($character:expr) => {{
        const CHARACTER: $crate::Char16 = $crate::data_types::char16($character);
        CHARACTER
    }};
}

/// A string of Latin-1 with its NUL, which the compiler makes and checks.
///
/// ```
/// use nardcorbel::cstr8;
///
/// assert_eq!(cstr8!("é").as_bytes(), [0xe9, 0]);
/// ```
///
/// ```compile_fail
/// nardcorbel::cstr8!("ā");
/// ```
#[macro_export]
macro_rules! cstr8 {
    () => {
        $crate::cstr8!("")
    };
    ($text:expr) => {{
        const BYTES: [u8; $crate::data_types::str_num_latin1_chars($text) + 1] =
            $crate::data_types::str_to_latin1($text);
        const STRING: &$crate::CStr8 = $crate::CStr8::from_constant(&BYTES);
        STRING
    }};
}

/// A string of UCS-2 with its NUL, which the compiler makes and checks.
///
/// ```
/// use nardcorbel::{cstr16, CStr16};
///
/// const FILE: &CStr16 = cstr16!(r"\EFI\BOOT\BOOTX64.EFI");
/// assert_eq!(FILE.num_chars(), 21);
/// ```
///
/// ```compile_fail
/// nardcorbel::cstr16!("😀");
/// ```
///
/// ```compile_fail
/// nardcorbel::cstr16!("a\0");
/// ```
#[macro_export]
macro_rules! cstr16 {
    () => {
        $crate::cstr16!("")
    };
    ($text:expr) => {{
        const UNITS: [u16; $crate::data_types::str_num_ucs2_chars($text) + 1] =
            $crate::data_types::str_to_ucs2($text);
        const STRING: &$crate::CStr16 = $crate::CStr16::from_constant(&UNITS);
        STRING
    }};
}

/// The character of a literal.
#[doc(hidden)]
#[must_use]
pub const fn char16(character: char) -> Char16 {
    match Char16::try_from_char(character) {
        Ok(it) => it,
        Err(_) => panic!("the character is above U+FFFF"),
    }
}

/// Decodes the character at an offset of a text, and returns how many bytes it has.
const fn character(bytes: &[u8], at: usize) -> (u32, usize) {
    const fn rest(bytes: &[u8], at: usize) -> u32 {
        (bytes[at] & 0x3f) as u32
    }
    let first = bytes[at] as u32;
    if first < 0x80 {
        (first, 1)
    } else if first < 0xe0 {
        ((first & 0x1f) << 6 | rest(bytes, at + 1), 2)
    } else if first < 0xf0 {
        (
            (first & 0xf) << 12 | rest(bytes, at + 1) << 6 | rest(bytes, at + 2),
            3,
        )
    } else {
        // No string of firmware can hold it: the value doesn't matter as long as it is above U+FFFF.
        (0x1_0000, 4)
    }
}

/// The number of characters in a text.
const fn num_chars(text: &str) -> usize {
    let (bytes, mut at, mut count) = (text.as_bytes(), 0, 0);
    while at < bytes.len() {
        at += character(bytes, at).1;
        count += 1;
    }
    count
}

macro_rules! literal {
    ($count:ident, $convert:ident, $unit:ty, $most:literal, $fault:literal) => {
        /// Counts the characters of a literal. Panics if the encoding lacks one of them.
        #[doc(hidden)]
        #[must_use]
        pub const fn $count(text: &str) -> usize {
            let (bytes, mut at) = (text.as_bytes(), 0);
            while at < bytes.len() {
                let (code, width) = character(bytes, at);
                assert!(code <= $most, $fault);
                at += width;
            }
            num_chars(text)
        }

        /// Encodes a literal with its NUL. Panics if it has a NUL or a character that the encoding lacks, or another length.
        #[doc(hidden)]
        #[must_use]
        pub const fn $convert<const N: usize>(text: &str) -> [$unit; N] {
            assert!($count(text) + 1 == N, "the array has another length");
            let (bytes, mut at, mut index, mut units) = (text.as_bytes(), 0, 0, [0; N]);
            while at < bytes.len() {
                let (code, width) = character(bytes, at);
                assert!(code != 0, "the text has a NUL");
                units[index] = code as $unit;
                index += 1;
                at += width;
            }
            units
        }
    };
}
literal!(
    str_num_latin1_chars,
    str_to_latin1,
    u8,
    0xff,
    "the text is not Latin-1"
);
literal!(
    str_num_ucs2_chars,
    str_to_ucs2,
    u16,
    0xffff,
    "a character of the text is above U+FFFF"
);
