//! Owned strings: created, extended, changed and printed.

use for_tests::{has_text, prints, string};
use std::fmt::Write;
use std::test::Fail;
use uefi_text::{CStr16, CString16, Char16, NUL_16};

/// Returns whether a string is empty, with a NUL.
fn is_empty(string: &CString16) -> bool {
    string.num_chars() == 0
        && string.is_empty()
        && string.as_cstr16().to_u16_slice_with_nul() == [0u16].as_slice()
        && string.as_cstr16().num_bytes() == 2
}

/// Returns whether a string is empty after each of two calls of `clear`.
fn clears_twice(mut string: CString16) -> bool {
    string.clear();
    let is_cleared = is_empty(&string);
    string.clear();
    is_cleared && is_empty(&string)
}

#[test]
fn empty_strings(rt: HostRuntime) -> Result<(), Fail> {
    assert!(rt; is_empty(&CString16::new(rt.alloc())?) && clears_twice(string(rt.alloc(), "a")?));
    Ok(())
}

#[test]
fn printed_strings(rt: HostRuntime) -> Result<(), Fail> {
    let string = string(rt.alloc(), "aé\n")?;
    assert!(rt; prints(rt.alloc(), &string, "aé\n|CString16(['a', 'é', '\\n'])"));
    Ok(())
}

/// Pushes these characters to the empty string one by one.
pub(crate) fn pushed_one_by_one(rt: &HostRuntime, characters: &str) -> Result<CString16, Fail> {
    let mut text = CString16::new(rt.alloc())?;
    for c in characters.chars() {
        let c = Char16::try_from(c)?;
        if c != NUL_16 {
            text.push(c)?;
        }
    }
    Ok(text)
}

/// Returns whether a text is `want` after one string is pushed to it, and it is extended by the characters of
/// another.
fn grows(
    mut text: CString16,
    pushed: CStr16<'_>,
    extended: CStr16<'_>,
    want: &str,
) -> Result<bool, Fail> {
    text.push_str(pushed)?;
    text.extend(extended.iter())?;
    Ok(has_text(text.as_cstr16(), want))
}

/// The characters of a string, a string that is pushed to it, characters that extend it, and its text.
const GROWN: &[[&str; 4]] = &[
    ["hi", "", "", "hi"],
    ["!", "hi", "!", "!hi!"],
    ["b", "", "", "b"],
    ["", "", "", ""],
];

#[test]
fn pushed_and_extended(rt: HostRuntime) -> Result<(), Fail> {
    for [pushed, text, more, want] in GROWN {
        let (text, more) = (string(rt.alloc(), text)?, string(rt.alloc(), more)?);
        let start = pushed_one_by_one(&rt, pushed)?;
        assert!(rt; start.num_chars() == pushed.len(), "{pushed}");
        assert!(rt;
            grows(start, text.as_cstr16(), more.as_cstr16(), want)?,
            "{want}"
        );
    }
    Ok(())
}

/// A text that is written after `ab`, whether the write succeeds, and the string after it.
const WRITTEN: &[(&str, bool, &str)] = &[
    ("é\u{ffff}", true, "abé\u{ffff}"),
    ("c\0", false, "ab"),
    ("c😀", false, "ab"),
];

#[test]
fn written_texts(rt: HostRuntime) -> Result<(), Fail> {
    for (text, is_written, want) in WRITTEN {
        let mut held = string(rt.alloc(), "ab")?;
        let is_right = held.write_str(text).is_ok() == *is_written;
        assert!(rt; is_right && has_text(held.as_cstr16(), want), "{text:?}");
    }
    Ok(())
}

/// Returns whether `text` is `want` once one character is replaced by another. Neither may be NUL.
fn replaces(
    rt: &HostRuntime,
    text: &str,
    search: Char16,
    replace: Char16,
    want: &str,
) -> Result<bool, Fail> {
    if search == NUL_16 || replace == NUL_16 {
        return Ok(false);
    }
    let mut string = string(rt.alloc(), text)?;
    string.replace_char(search, replace);
    Ok(has_text(string.as_cstr16(), want))
}

/// A text, one of its characters, its replacement, and the text with all replaced.
const REPLACED: &[(&str, char, char, &str)] = &[
    ("foo/bar/foobar//", '/', '\\', r"foo\bar\foobar\\"),
    ("aba", 'a', 'a', "aba"),
];

#[test]
fn replaced_characters(rt: HostRuntime) -> Result<(), Fail> {
    for (text, search, replace, want) in REPLACED {
        let (search, replace) = (Char16::try_from(*search)?, Char16::try_from(*replace)?);
        assert!(rt; replaces(&rt, text, search, replace, want)?, "{text}");
    }
    Ok(())
}
