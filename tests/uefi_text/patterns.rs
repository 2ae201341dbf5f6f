//! Patterns: the examples of the UEFI Specification 2.10, section 21.1, and odd sets, decided as EDK II's
//! driver `EnglishDxe` decides them.

use for_tests::{repeated, string};
use std::test::Fail;
use uefi_text::CStr16;

/// A pattern, a text, and whether the pattern matches the text.
const ROWS: &[(&str, &str, bool)] = &[
    // Examples of the specification: names that end in .FW, a letter, one of several signs, the letter z, and
    // two-character names that begin with D, with any extension.
    ("*.FW", "boot.fw", true),
    ("*.FW", ".FW", true),
    ("*.FW", "boot.fwx", false),
    ("[a-z]", "q", true),
    ("[a-z]", "Q", true),
    ("[a-z]", "4", false),
    ("[!@#$%^&*()]", "*", true),
    ("[!@#$%^&*()]", "a", false),
    ("z", "Z", true),
    ("D?.*", "da.txt", true),
    ("D?.*", "DX.", true),
    ("D?.*", "D.txt", false),
    // Empty patterns, and stars.
    ("", "", true),
    ("", "a", false),
    ("*", "", true),
    ("?", "", false),
    ("a**", "a", true),
    ("a**?", "a", false),
    ("*ab*ab", "aabab_abaab", true),
    ("*ab*ab", "abb", false),
    ("*[ab][bc]?c*", "xxabbabcc", true),
    // Sets: the first `]` ends a set, and nothing complements or escapes.
    ("[]", "a", false),
    ("[]]", "]", false),
    ("[^a]", "^", true),
    ("[^a]", "b", false),
    ("[a]]", "a]", true),
    ("a]", "a]", true),
    ("[?*[]", "[", true),
    ("[ab]", "", false),
    // Ranges.
    ("[c-a]", "b", false),
    ("[c-a]", "a", true),
    ("[c-a]", "c", true),
    ("[-a]", "!", true),
    ("[-a]", "b", false),
    ("[a-]", "-", false),
    ("[a-]", "a", true),
    ("[a--]", "-", true),
    ("[a-c-e]", "d", true),
    ("[Y-b]", "Z", false),
    ("[X-_]", "^", true),
    ("[\u{e0}-\u{e5}]", "\u{c3}", true),
    // Sets without `]`.
    ("[a", "a", false),
    ("[", "[", false),
    ("*[", "", false),
];

/// Returns whether matching a pattern with a text gives `want`, for strings and for slices.
fn matches(pattern: CStr16<'_>, text: CStr16<'_>, want: bool) -> bool {
    text.matches(pattern) == want && text.as_slice().matches(pattern.as_slice()) == want
}

#[test]
fn patterns_and_texts(rt: HostRuntime) -> Result<(), Fail> {
    for (pattern, text, want) in ROWS {
        let (a, b) = (string(rt.alloc(), pattern)?, string(rt.alloc(), text)?);
        let is_right = matches(a.as_cstr16(), b.as_cstr16(), *want);
        assert!(rt; is_right, "{pattern} and {text}");
    }
    Ok(())
}

#[test]
fn many_stars(rt: HostRuntime) -> Result<(), Fail> {
    let stars = repeated(rt.alloc(), "*a", 500)?;
    let pattern = string(rt.alloc(), &format!(in rt.alloc(); "{stars}b")?)?;
    let mut text = repeated(rt.alloc(), "a", 10_000)?;
    let short = string(rt.alloc(), &text)?;
    assert!(rt; !short.as_cstr16().matches(pattern.as_cstr16()));
    text.push('b')?;
    let whole = string(rt.alloc(), &text)?;
    assert!(rt; whole.as_cstr16().matches(pattern.as_cstr16()));
    Ok(())
}
