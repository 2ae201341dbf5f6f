//! Strings compared with Rust texts up to a NUL.

use std::test::Fail;
use uefi_text::{CStr8, CStr16, EqStrUntilNul, str_eq_until_nul};

/// Returns whether both calls that compare a string with a text return `want`.
fn says<S: EqStrUntilNul>(string: &S, text: &str, want: bool) -> bool {
    string.eq_str_until_nul(text) == want && str_eq_until_nul(text, string) == want
}

/// Returns whether each kind of string with these units and bytes compares with a text as `want`.
fn agree(
    rt: &HostRuntime,
    units: &[u16],
    bytes: &[u8],
    text: &str,
    want: bool,
) -> Result<bool, Fail> {
    let string = CStr16::from_u16_with_nul(units)?;
    Ok(
        says(&string, text, want)
            && says(&CStr8::from_bytes_with_nul(bytes)?, text, want)
            && says(&string.to_owned(rt.alloc())?, text, want),
    )
}

const TEST: &[u16] = &[116, 101, 115, 116, 0];

/// The units of a string, its bytes, a text, and whether the string equals the text.
const ROWS: &[(&[u16], &[u8], &str, bool)] = &[
    (TEST, b"test\0", "test", true),
    (TEST, b"test\0", "te\0st", true),
    (TEST, b"test\0", "test\0", true),
    (TEST, b"test\0", "test😀", true),
    (TEST, b"test\0", "", true),
    (TEST, b"test\0", "hello", false),
    (&[0xe9, 0], &[0xe9, 0], "é", true),
    (&[0xe9, 0], &[0xe9, 0], "e", false),
];

#[test]
fn equal_until_nul(rt: HostRuntime) -> Result<(), Fail> {
    for (units, bytes, text, want) in ROWS {
        assert!(rt;
            agree(&rt, units, bytes, text, *want)?,
            "{bytes:?} and {text:?}"
        );
    }
    Ok(())
}
