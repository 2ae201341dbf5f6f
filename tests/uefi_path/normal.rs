//! Normal paths, and why a path has none.

use crate::fixtures::is_path;
use for_tests::{prints, repeated, says, string};
use std::test::Fail;
use uefi_path::{NormalizeError, Path, PathError};
use uefi_text::Char16;

/// Returns whether the normal path of a text has the text `want`.
fn is_normal_path(rt: &HostRuntime, text: &str, want: &str) -> Result<bool, Fail> {
    let string = string(rt.alloc(), text)?;
    match Path::new(string.as_cstr16()).normalize(rt.alloc()) {
        Ok(path) => Ok(is_path(&path, want)),
        Err(_) => Ok(false),
    }
}

/// Texts, and the texts of their normal paths.
pub(crate) const NORMAL: &[(&str, &str)] = &[
    (r"a\..\b", "b"),
    (r"a\b\..\..\c", "c"),
    (r"a\.\b\..\..", r"\"),
    (".", r"\"),
    (r"\", r"\"),
    (r"...\b", r"...\b"),
    (r"\a\.", "a"),
    (r"\a\b", r"a\b"),
    (r"a\..", r"\"),
    (r".a\a.\.. \ .", r".a\a.\.. \ ."),
    ("é\\\u{ffff}\\..", "é"),
];

#[test]
fn paths_and_their_normal_paths(rt: HostRuntime) -> Result<(), Fail> {
    for (text, want) in NORMAL {
        assert!(rt; is_normal_path(&rt, text, want)?, "{text}");
    }
    Ok(())
}

/// Texts without a normal path, and the reason.
const REFUSED: &[(&str, &str)] = &[
    ("", "path is empty"),
    (r"a\\..", "path contains an empty component"),
    (r"a\\..\..", "path contains an empty component"),
    ("a/..", "path contains an illegal character (value 47)"),
    (r"..\a", "path climbs above the root"),
    (r"a\..\..", "path climbs above the root"),
];

#[test]
fn refused_paths(rt: HostRuntime) -> Result<(), Fail> {
    for (text, why) in REFUSED {
        let string = string(rt.alloc(), text)?;
        let normal = Path::new(string.as_cstr16()).normalize(rt.alloc());
        assert!(rt;
            matches!(&normal, Err(error) if says(rt.alloc(), error, why)),
            "{text}"
        );
    }
    Ok(())
}

#[test]
fn long_paths(rt: HostRuntime) -> Result<(), Fail> {
    let mut text = repeated(rt.alloc(), r"ab\", 50_000)?;
    text.push_str("c")?;
    assert!(rt; is_normal_path(&rt, &text, &text)?);
    text.push_str(&repeated(rt.alloc(), r"\..", 50_000)?)?;
    assert!(rt; is_normal_path(&rt, &text, "ab")?);
    Ok(())
}

#[test]
fn printed_refusals(rt: HostRuntime) -> Result<(), Fail> {
    let illegal = NormalizeError::Invalid(PathError::IllegalChar(Char16::try_from('>')?));
    let want = "path contains an illegal character (value 62)|Invalid(IllegalChar('>'))";
    assert!(rt; prints(rt.alloc(), &illegal, want));
    let climbs = NormalizeError::Invalid(PathError::ClimbsAboveRoot);
    let want = "path climbs above the root|Invalid(ClimbsAboveRoot)";
    assert!(rt;
        prints(rt.alloc(), &climbs, want)
            && says(rt.alloc(), &NormalizeError::OutOfMemory, "out of memory")
    );
    Ok(())
}
