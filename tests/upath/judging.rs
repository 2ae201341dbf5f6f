//! Bytes that are accepted as a path, or refused.

use for_tests::{has_text, says};
use std::test::Fail;
use upath::judge;

/// Returns whether bytes are accepted as the path of a text.
pub(crate) fn accepts(rt: &HostRuntime, bytes: &[u8], want: &str) -> bool {
    matches!(&judge(rt.alloc(), bytes), Ok(path) if has_text(path.to_cstr16(), want))
}

/// Bytes, and the text of their path.
const ACCEPTED: &[(&[u8], &str)] = &[
    (b"\\\0\0\0", r"\"),
    (b"\\\0a\0\0\0", r"\a"),
    (b"/\0a\0\0\0", r"\a"),
    (b"\xff\xff\0\0", "\u{ffff}"),
];

/// Refused bytes, and the message of the error. An odd number of bytes is reported first, then a missing NUL.
const REFUSED: &[(&[u8], &str)] = &[
    (b"", "not null-terminated"),
    (b"a", "odd number of bytes"),
    (b"a\0", "not null-terminated"),
    (b"a\0\0", "odd number of bytes"),
    // Prefixes of an accepted path.
    (b"\\", "odd number of bytes"),
    (b"\\\0", "not null-terminated"),
    (b"\\\0a", "odd number of bytes"),
    (b"\\\0a\0", "not null-terminated"),
    (b"\\\0a\0\0", "odd number of bytes"),
    (b"\0\xd8", "invalid character at index 0"),
    (b"\0\xd8\0\0", "invalid character at index 0"),
    (b"A\0\0\xd8\0\0", "invalid character at index 1"),
    (b"a\0\0\0b\0", "interior null character at index 1"),
    (b"\0\0", "path is empty"),
    (b"\\\0\\\0\0\0", "path contains an empty component"),
    (b"a\0/\0/\0b\0\0\0", "path contains an empty component"),
    (b".\0.\0\0\0", "path climbs above the root"),
    (
        b"a\0>\0\0\0",
        "path contains an illegal character (value 62)",
    ),
];

#[test]
fn judged_bytes(rt: HostRuntime) {
    for (bytes, want) in REFUSED {
        let judged = judge(rt.alloc(), bytes);
        let is_right = matches!(&judged, Err(error) if says(rt.alloc(), error, want));
        assert!(rt; is_right, "{want}");
    }
    for (bytes, want) in ACCEPTED {
        assert!(rt; accepts(&rt, bytes, want), "{bytes:?}");
    }
}

/// A unit, whether it replaces the NUL of a text or each other unit in turn, and the message before the
/// position, or nothing if the bytes are accepted.
const HOSTILE_UNITS: &[(u16, bool, &str)] = &[
    (0xd800, false, "invalid character at index "),
    (0xdfff, false, "invalid character at index "),
    (0, false, "interior null character at index "),
    (0xdc00, true, "invalid character at index "),
    (0xd7ff, false, ""),
    (0xe000, false, ""),
    (0xffff, false, ""),
];

/// Returns the bytes of `len` times `A` and a NUL, with one unit replaced.
fn bytes_with(rt: &HostRuntime, len: usize, place: usize, unit: u16) -> Result<Vec<u8>, Fail> {
    let mut bytes = Vec::new(rt.alloc());
    for index in 0..=len {
        let other = if index < len { 65 } else { 0 };
        let unit = if index == place { unit } else { other };
        bytes.extend_from_slice(&unit.to_le_bytes())?;
    }
    Ok(bytes)
}

/// Returns whether bytes are refused with these words and this position, or are accepted if there are no
/// words.
fn is_decided(rt: &HostRuntime, bytes: &[u8], words: &str, place: usize) -> Result<bool, Fail> {
    let want = format!(in rt.alloc(); "{words}{place}")?;
    Ok(match &judge(rt.alloc(), bytes) {
        Ok(path) => words.is_empty() && path.to_cstr16().num_bytes() == bytes.len(),
        Err(error) => says(rt.alloc(), error, &want),
    })
}

#[test]
fn hostile_units_at_each_place(rt: HostRuntime) -> Result<(), Fail> {
    for len in 1..=5usize {
        for (unit, is_last, words) in HOSTILE_UNITS {
            let places = if *is_last { len..=len } else { 0..=len - 1 };
            for place in places {
                let bytes = bytes_with(&rt, len, place, *unit)?;
                assert!(rt; is_decided(&rt, &bytes, words, place)?, "{bytes:?}");
            }
        }
    }
    Ok(())
}
