//! Borrowed Latin-1 strings, and Rust texts encoded as Latin-1.

use for_tests::{hostile_places, prints};
use std::test::Fail;
use uefi_text::FromSliceWithNulError::{InteriorNul, NotNulTerminated};
use uefi_text::{
    CStr8, FromSliceWithNulError, has_no_nul, is_latin1, str_num_latin1_chars, str_to_latin1,
};

/// Bytes, and the text that their string prints, or why they are refused.
const BYTES: &[(&[u8], Result<&str, FromSliceWithNulError>)] = &[
    (&[97, 0], Ok("a|CStr8(['a'])")),
    (&[97, 98, 99, 0], Ok("abc|CStr8(['a', 'b', 'c'])")),
    (&[65, 0], Ok("A|CStr8(['A'])")),
    (&[0xe9, 0], Ok("é|CStr8(['é'])")),
    (&[0xe9, 10, 0], Ok("é\n|CStr8(['é', '\\n'])")),
    (&[], Err(NotNulTerminated)),
    (&[65], Err(NotNulTerminated)),
    (&[0, 65], Err(InteriorNul(0))),
    (&[65, 0, 66, 0], Err(InteriorNul(1))),
];

/// Returns whether bytes become a string that keeps them and prints `want`, or are refused.
fn are_read(rt: &HostRuntime, bytes: &[u8], want: Result<&str, FromSliceWithNulError>) -> bool {
    match (CStr8::from_bytes_with_nul(bytes), want) {
        (Ok(string), Ok(want)) => string.as_bytes() == bytes && prints(rt.alloc(), &string, want),
        (Err(error), Err(want)) => error == want,
        _ => false,
    }
}

#[test]
fn strings_of_bytes(rt: HostRuntime) {
    for (bytes, want) in BYTES {
        assert!(rt; are_read(&rt, bytes, *want), "{bytes:?}");
    }
}

/// Texts, and the number of their characters if all are Latin-1.
const TEXTS: &[(&str, Option<usize>)] = &[
    ("", Some(0)),
    ("ÿ", Some(1)),
    ("é\0", Some(2)),
    ("Ā", None),
];

/// Returns the number of characters of a text if all are Latin-1.
fn count_of(text: &str) -> Option<usize> {
    if is_latin1(text) {
        Some(str_num_latin1_chars(text))
    } else {
        None
    }
}

#[test]
fn texts_and_their_characters(rt: HostRuntime) {
    for (text, want) in TEXTS {
        assert!(rt; count_of(text) == *want, "{text:?}");
    }
}

/// Returns whether a text is encoded as these bytes.
fn becomes<const LEN: usize>(text: &str, want: [u8; LEN]) -> bool {
    if !is_latin1(text) || !has_no_nul(text) {
        return false;
    }
    let count = str_num_latin1_chars(text);
    count < LEN && count + 1 == LEN && str_to_latin1::<LEN>(text) == want
}

#[test]
fn texts_as_bytes(rt: HostRuntime) {
    assert!(rt; becomes("", [0]) && becomes("é", [0xe9, 0]));
}

/// Returns whether a NUL among `others` bytes ends the string if it is last, and otherwise is refused with
/// its position; and whether the bytes before it are refused.
fn decides(rt: &HostRuntime, others: usize, place: usize) -> Result<bool, Fail> {
    let mut bytes = Vec::new(rt.alloc());
    bytes.resize(place, 0xe9)?;
    let before = CStr8::from_bytes_with_nul(&bytes).err();
    bytes.push(0)?;
    bytes.resize(others.saturating_add(1), 0xe9)?;
    let all = CStr8::from_bytes_with_nul(&bytes).err();
    let want = if place == others {
        None
    } else {
        Some(InteriorNul(place))
    };
    Ok(before == Some(NotNulTerminated) && all == want)
}

#[test]
fn zeros_at_each_place(rt: HostRuntime) -> Result<(), Fail> {
    for (others, place) in &hostile_places(rt.alloc())? {
        let is_right = decides(&rt, *others, *place)?;
        assert!(rt; is_right, "{others} others, at {place}");
    }
    Ok(())
}
