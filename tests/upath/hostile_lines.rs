//! Lines with hidden bytes at each position: invalid UTF-8, a character that UCS-2 cannot encode, a line end,
//! or a character with more bytes than its neighbours.

use crate::run::prints;
use for_tests::{hostile_places, repeated};
use std::test::Fail;

const NOT_UTF8: &str = "? not UTF-8\npieces 0\n";

/// Bytes among others in a line after `from `, and what the line prints, followed by `pieces`. In the output,
/// `<` stands for the characters before the bytes, and `>` for the characters after them.
const ROWS: &[(&[u8], &str)] = &[
    (b"a", "= <a>\npieces 1\n| <a>\n"),
    (b"\xff", NOT_UTF8),
    // A byte outside any character, an overlong form, a surrogate, and a number above the last character.
    (b"\x80", NOT_UTF8),
    (b"\xc0\xaf", NOT_UTF8),
    (b"\xe0\x80\x80", NOT_UTF8),
    (b"\xed\xa0\x80", NOT_UTF8),
    (b"\xf4\x90\x80\x80", NOT_UTF8),
    // Characters that are cut short.
    (b"\xe2\x82", NOT_UTF8),
    (b"\xf0\x9f\x98", NOT_UTF8),
    (
        b"\0",
        "UCS-2 Conversion Error: Interior null terminator\npieces 0\n",
    ),
    (
        b"\xf0\x9f\x98\x80",
        "UCS-2 Conversion Error: Invalid character\npieces 0\n",
    ),
    (b"\xef\xbf\xbf", "= <\u{ffff}>\npieces 1\n| <\u{ffff}>\n"),
    (b"\r\nclear\nfrom x", "= <\r\n= \n= x>\npieces 1\n| x>\n"),
];

/// Returns the input of a row, with `before` and `after` around its bytes.
fn input(rt: &HostRuntime, bytes: &[u8], before: &str, after: &str) -> Result<Vec<u8>, Fail> {
    let mut input = Vec::new(rt.alloc());
    for part in [
        b"from ".as_slice(),
        before.as_bytes(),
        bytes,
        after.as_bytes(),
        b"\npieces",
    ] {
        input.extend_from_slice(part)?;
    }
    Ok(input)
}

/// Returns whether each row prints its output, with `before` and `after` around its bytes.
fn are_printed(rt: &HostRuntime, before: &str, after: &str) -> Result<bool, Fail> {
    for (bytes, row) in ROWS {
        let output = row
            .replace(rt.alloc(), '<', before)?
            .replace(rt.alloc(), '>', after)?;
        if !prints(rt, &input(rt, bytes, before, after)?, &output) {
            return Ok(false);
        }
    }
    Ok(true)
}

/// The other characters have one byte, then two.
#[test]
fn hostile_lines(rt: HostRuntime) -> Result<(), Fail> {
    for (others, place) in &hostile_places(rt.alloc())? {
        for (other, len) in [("a", 1usize), ("é", 2)] {
            let text = repeated(rt.alloc(), other, *others as u64)?;
            let len = place.saturating_mul(len);
            let before = text.get(..len).unwrap_or("");
            let after = text.get(len..).unwrap_or("");
            assert!(rt; are_printed(&rt, before, after)?, "{text}, at {len}");
        }
    }
    Ok(())
}
