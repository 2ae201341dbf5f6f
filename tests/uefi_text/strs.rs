//! Borrowed strings: which code units, characters, bytes and Rust texts become strings, why others are
//! refused, and what strings convert to.

use for_tests::{characters, prints, string};
use std::test::Fail;
use uefi_text::FromSliceUntilNulError::InvalidChar as FrontChar;
use uefi_text::FromSliceWithNulError::{InteriorNul, InvalidChar, NotNulTerminated};
use uefi_text::FromStrWithBufError::{BufferTooSmall, InteriorNul as NulAt, InvalidChar as CharAt};
use uefi_text::{
    CStr16, CString16, Char16, FromSliceUntilNulError as UntilNul,
    FromSliceWithNulError as WithNul, FromStrWithBufError as WithBuffer,
};

/// Returns whether an answer is the string of all units, with the expected length, or the expected error.
pub(crate) fn is_whole(
    units: &[u16],
    answer: Result<CStr16<'_>, WithNul>,
    want: Result<usize, WithNul>,
) -> bool {
    match (answer, want) {
        (Ok(string), Ok(len)) => {
            string.to_u16_slice_with_nul() == units
                && Some(string.to_u16_slice()) == units.get(..len)
        }
        (Err(error), Err(want)) => error == want,
        _ => false,
    }
}

/// Checks `is_whole` for an owned string.
pub(crate) fn is_whole_owned(
    units: &[u16],
    answer: &Result<CString16, WithNul>,
    want: Result<usize, WithNul>,
) -> bool {
    match answer {
        Ok(string) => is_whole(units, Ok(string.as_cstr16()), want),
        Err(error) => is_whole(units, Err(*error), want),
    }
}

/// Returns whether an answer is the string of the units before the first NUL, with the expected length, or
/// the expected error.
fn is_front(
    units: &[u16],
    answer: Result<CStr16<'_>, UntilNul>,
    want: Result<usize, UntilNul>,
) -> bool {
    match (answer, want) {
        (Ok(string), Ok(len)) => Some(string.to_u16_slice()) == units.get(..len),
        (Err(error), Err(want)) => error == want,
        _ => false,
    }
}

/// Returns whether the constructors from characters answer like those from units.
fn are_read(
    rt: &HostRuntime,
    list: &[Char16],
    units: &[u16],
    whole: Result<usize, WithNul>,
    front: Result<usize, UntilNul>,
) -> bool {
    is_whole_owned(
        units,
        &CStr16::from_char16_with_nul(rt.alloc(), list),
        whole,
    ) && match &CStr16::from_char16_until_nul(rt.alloc(), list) {
        Ok(string) => is_front(units, Ok(string.as_cstr16()), front),
        Err(error) => is_front(units, Err(*error), front),
    }
}

/// Returns whether all units, and the units up to the first NUL, become strings of the expected lengths or
/// are refused. Checks the same for their characters if no unit is a surrogate.
pub(crate) fn are_strings(
    rt: &HostRuntime,
    units: &[u16],
    whole: Result<usize, WithNul>,
    front: Result<usize, UntilNul>,
) -> Result<bool, Fail> {
    let list = characters(rt.alloc(), units)?;
    Ok(
        is_whole(units, CStr16::from_u16_with_nul(units), whole)
            && is_front(units, CStr16::from_u16_until_nul(units), front)
            && (list.len() < units.len() || are_read(rt, &list, units, whole, front)),
    )
}

/// Units, and the length of the string of all of them, and of those up to the first NUL, or why each is
/// refused.
const UNITS: &[(&[u16], Result<usize, WithNul>, Result<usize, UntilNul>)] = &[
    (&[], Err(NotNulTerminated), Err(UntilNul::NoNul)),
    (&[65], Err(NotNulTerminated), Err(UntilNul::NoNul)),
    (&[65, 66], Err(NotNulTerminated), Err(UntilNul::NoNul)),
    (&[97, 98], Err(NotNulTerminated), Err(UntilNul::NoNul)),
    (&[0], Ok(0), Ok(0)),
    (&[65, 0], Ok(1), Ok(1)),
    (&[97, 98, 0], Ok(2), Ok(2)),
    (&[65, 0, 66], Err(InteriorNul(1)), Ok(1)),
    (&[97, 0, 98], Err(InteriorNul(1)), Ok(1)),
    (&[97, 0, 98, 0], Err(InteriorNul(1)), Ok(1)),
    (&[97, 0, 0xd800], Err(InteriorNul(1)), Ok(1)),
    (&[65, 0xde01, 0], Err(InvalidChar(1)), Err(FrontChar(1))),
    (&[0xd800, 0, 65, 0], Err(InvalidChar(0)), Err(FrontChar(0))),
    (&[0xd83d, 0], Err(InvalidChar(0)), Err(FrontChar(0))),
    (&[0xd83d, 0xde00, 0], Err(InvalidChar(0)), Err(FrontChar(0))),
];

#[test]
fn strings_of_units_and_characters(rt: HostRuntime) -> Result<(), Fail> {
    for (units, whole, front) in UNITS {
        assert!(rt; are_strings(&rt, units, *whole, *front)?, "{units:?}");
    }
    Ok(())
}

/// Returns whether bytes become a string of these units and convert back, or are refused.
fn is_string_of(rt: &HostRuntime, bytes: &[u8], want: Result<&[u16], WithNul>) -> bool {
    match (&CStr16::from_bytes_with_nul(rt.alloc(), bytes), want) {
        (Ok(string), Ok(units)) => {
            let string = string.as_cstr16();
            string.to_u16_slice_with_nul() == units
                && matches!(string.as_bytes(rt.alloc()), Ok(back) if back.as_slice() == bytes)
        }
        (Err(error), Err(want)) => *error == want,
        _ => false,
    }
}

/// Bytes, and the units of their string, or why they are refused.
const BYTES: &[(&[u8], Result<&[u16], WithNul>)] = &[
    (&[0, 0], Ok(&[0])),
    (&[0x61, 0, 0, 0], Ok(&[97, 0])),
    (&[0x41, 0, 0x42, 0, 0, 0], Ok(&[65, 66, 0])),
    (&[], Err(NotNulTerminated)),
    (&[0, 0xd8], Err(NotNulTerminated)),
    (&[0x41, 0, 0], Err(NotNulTerminated)),
    (&[0x41, 0, 0x42, 0], Err(NotNulTerminated)),
    (&[0x41, 0, 0, 1], Err(NotNulTerminated)),
    (&[0, 0xd8, 0, 0], Err(InvalidChar(0))),
    (&[0, 0, 0, 0], Err(InteriorNul(0))),
    (&[0x41, 0, 0, 0, 0x42, 0, 0, 0], Err(InteriorNul(1))),
];

/// The bytes begin at an even address, then at an odd one.
#[test]
fn strings_of_bytes(rt: HostRuntime) -> Result<(), Fail> {
    for (bytes, want) in BYTES {
        let mut moved = vec![in rt.alloc(); 0xffu8]?;
        moved.extend_from_slice(bytes)?;
        let is_right = is_string_of(&rt, bytes, *want)
            && is_string_of(&rt, moved.get(1..).unwrap_or(&[]), *want);
        assert!(rt; is_right, "{bytes:?}");
    }
    Ok(())
}

/// Returns whether a string converts to bytes and back.
pub(crate) fn gives_bytes(rt: &HostRuntime, string: CStr16<'_>) -> Result<bool, Fail> {
    let bytes = string.as_bytes(rt.alloc())?;
    Ok(is_string_of(rt, &bytes, Ok(string.to_u16_slice_with_nul())))
}

/// Returns whether a string converts to this text, and its UTF-8 bytes are added after existing ones.
pub(crate) fn gives_text(rt: &HostRuntime, string: CStr16<'_>, text: &str) -> Result<bool, Fail> {
    let mut bytes = vec![in rt.alloc(); b'x']?;
    string.as_slice().add_utf8_to(&mut bytes)?;
    Ok(
        bytes.split_first() == Some((&b'x', text.as_bytes()))
            && string.to_rust_string(rt.alloc())?.as_str() == text,
    )
}

/// Returns whether each view of a string shows these units, the last of which is the NUL.
fn has_units(string: CStr16<'_>, units: &[u16]) -> bool {
    let text = units.get(..string.num_chars()).unwrap_or(&[]);
    string.to_u16_slice_with_nul() == units
        && string.as_slice_with_nul().units() == units
        && string.as_slice().units() == text
        && string.num_bytes() == units.len().saturating_mul(2)
        && string.is_empty() == text.is_empty()
}

/// The units of strings, and their texts.
const TEXTS: &[(&[u16], &str)] = &[
    (&[0], ""),
    (&[97, 0], "a"),
    (&[120, 0], "x"),
    (&[0xe9, 0], "é"),
    (&[97, 98, 0], "ab"),
    (&[97, 98, 99, 0], "abc"),
    (&[65, 66, 67, 0], "ABC"),
    (&[97, 0xe9, 0x20ac, 0xffff, 98, 0], "aé€\u{ffff}b"),
];

/// Returns whether the string of a text has these units, converts to bytes and text and back, and equals its
/// copy.
fn is_string(rt: &HostRuntime, text: &str, units: &[u16]) -> Result<bool, Fail> {
    let owned = string(rt.alloc(), text)?;
    let string = owned.as_cstr16();
    Ok(
        has_units(string, units)
            && string.is_ascii() == text.is_ascii()
            && string.to_string(rt.alloc())?.as_str() == text
            && gives_bytes(rt, string)?
            && gives_text(rt, string, text)?
            && string.eq_cstr16(string.to_owned(rt.alloc())?.as_cstr16())
            && owned.eq_cstr16(string.to_owned(rt.alloc())?.as_cstr16()),
    )
}

#[test]
fn strings_and_what_they_give(rt: HostRuntime) -> Result<(), Fail> {
    for (units, text) in TEXTS {
        assert!(rt; is_string(&rt, text, units)?, "{text}");
    }
    Ok(())
}

/// Returns whether `write_str` and `from_str_with_buf` write a text into a buffer of nines, or refuse it with
/// this error, and leave `after` in the buffer.
pub(crate) fn is_buffered(
    rt: &HostRuntime,
    text: &str,
    want: Result<usize, WithBuffer>,
    after: &[u16],
) -> Result<bool, Fail> {
    let mut buffer = vec![in rt.alloc(); 9u16; after.len()]?;
    let is_written = CStr16::write_str(text, &mut buffer) == want && buffer.as_slice() == after;
    buffer.fill(9);
    let is_borrowed = match (CStr16::from_str_with_buf(text, &mut buffer), want) {
        (Ok(string), Ok(len)) => Some(string.to_u16_slice()) == after.get(..len),
        (Err(error), Err(want)) => error == want,
        _ => false,
    };
    Ok(is_written && is_borrowed && buffer.as_slice() == after)
}

/// A text, its length or why it is refused, and the buffer of nines after the write.
const BUFFERS: &[(&str, Result<usize, WithBuffer>, &[u16])] = &[
    ("A", Ok(1), &[65, 0, 9, 9]),
    ("ABC", Ok(3), &[65, 66, 67, 0]),
    ("ABCD", Err(BufferTooSmall), &[65, 66, 67, 68]),
    ("a😀", Err(CharAt(1)), &[97, 0xd83d, 0xde00, 0]),
    ("a\0b", Err(NulAt(1)), &[97, 0, 98, 0]),
    ("ab😀", Err(BufferTooSmall), &[97, 98, 0xd83d, 0xde00]),
    ("", Err(BufferTooSmall), &[]),
    ("", Ok(0), &[0]),
    // Every room from 0 to one more than the text and its NUL need.
    ("a😀b", Err(BufferTooSmall), &[]),
    ("a😀b", Err(BufferTooSmall), &[97]),
    ("a😀b", Err(BufferTooSmall), &[97, 0xd83d]),
    ("a😀b", Err(BufferTooSmall), &[97, 0xd83d, 0xde00]),
    ("a😀b", Err(BufferTooSmall), &[97, 0xd83d, 0xde00, 98]),
    ("a😀b", Err(CharAt(1)), &[97, 0xd83d, 0xde00, 98, 0]),
    ("a😀b", Err(CharAt(1)), &[97, 0xd83d, 0xde00, 98, 0, 9]),
];

#[test]
fn texts_in_buffers(rt: HostRuntime) -> Result<(), Fail> {
    for (text, want, after) in BUFFERS {
        assert!(rt; is_buffered(&rt, text, *want, after)?, "{after:?}");
    }
    Ok(())
}

/// The units of strings, their UTF-8 bytes, whether they are ASCII, and the size of the units in bytes.
const ENCODED: &[(&[u16], &[u8], bool, usize)] = &[
    (&[0], b"", true, 2),
    (&[65, 66, 67, 0], b"ABC", true, 8),
    (&[0xe9, 0], b"\xc3\xa9", false, 4),
    (&[0xff, 0], b"\xc3\xbf", false, 4),
    (&[0x100, 0], b"\xc4\x80", false, 4),
    (&[0xa2c3, 0], b"\xea\x8b\x83", false, 4),
];

#[test]
fn encoded_strings(rt: HostRuntime) -> Result<(), Fail> {
    for (units, bytes, is_ascii, num_bytes) in ENCODED {
        let string = CStr16::from_u16_with_nul(units)?;
        let text = string.to_rust_string(rt.alloc())?;
        let is_right = string.is_ascii() == *is_ascii && string.num_bytes() == *num_bytes;
        assert!(rt; is_right && text.as_bytes() == *bytes, "{units:?}");
    }
    Ok(())
}

#[test]
fn printed_strings(rt: HostRuntime) -> Result<(), Fail> {
    let string = CStr16::from_u16_with_nul(&[0xe9, 10, 0])?;
    assert!(rt; prints(rt.alloc(), &string, "é\n|CStr16(['é', '\\n'])"));
    let all = string.as_slice_with_nul();
    assert!(rt; prints(rt.alloc(), &all, "é\n\0|['é', '\\n', '\\0']"));
    let mut left = string.iter();
    let _first = left.next();
    let printed = format!(in rt.alloc(); "{left:?}")?;
    assert!(rt; printed.as_str() == "CStr16Iter([10])");
    Ok(())
}
