//! Upper and lower case. The rows follow the Unicode Character Database.

use std::test::Fail;
use uefi_text::Char16;

/// Characters in lower case, and the same in upper case.
const CASES: &[(char, char)] = &[
    ('a', 'A'),
    ('z', 'Z'),
    ('\u{e0}', '\u{c0}'),
    ('\u{e9}', '\u{c9}'),
    ('\u{f6}', '\u{d6}'),
    ('\u{f8}', '\u{d8}'),
    ('\u{fe}', '\u{de}'),
    // Characters without another case here: signs, letters whose other case is not 32 away, and letters
    // beyond Latin-1.
    ('`', '`'),
    ('{', '{'),
    ('0', '0'),
    ('\u{f7}', '\u{f7}'),
    ('\u{d7}', '\u{d7}'),
    ('\u{df}', '\u{df}'),
    ('\u{ff}', '\u{ff}'),
    ('\u{b5}', '\u{b5}'),
    ('\u{101}', '\u{101}'),
    ('\u{100}', '\u{100}'),
    ('\u{ffe9}', '\u{ffe9}'),
];

/// Returns whether both characters convert to `lower` in lower case and to `upper` in upper case.
fn has_cases(lower: Char16, upper: Char16) -> bool {
    lower.to_uppercase() == upper
        && lower.to_lowercase() == lower
        && upper.to_uppercase() == upper
        && upper.to_lowercase() == lower
}

#[test]
fn cases_of_characters(rt: HostRuntime) -> Result<(), Fail> {
    for (lower, upper) in CASES {
        let upper = Char16::try_from_char(*upper)?;
        assert!(rt; has_cases(Char16::try_from_char(*lower)?, upper), "{lower}");
    }
    Ok(())
}
