//! The parents of paths.

use crate::fixtures::{buffer, is_path};
use for_tests::string;
use std::test::Fail;
use uefi_path::{Path, PathBuf};

/// Returns whether a parent has this text, or is missing.
fn is_parent(parent: &Option<PathBuf>, want: Option<&str>) -> bool {
    match (parent, want) {
        (Some(parent), Some(want)) => is_path(parent, want),
        (None, None) => true,
        _ => false,
    }
}

/// Returns whether the paths of a text, borrowed and in a buffer, have these parents or none.
pub(crate) fn has_parent(
    rt: &HostRuntime,
    text: &str,
    borrowed: Option<&str>,
    owned: Option<&str>,
) -> Result<bool, Fail> {
    let string = string(rt.alloc(), text)?;
    Ok(
        is_parent(&Path::new(string.as_cstr16()).parent(rt.alloc())?, borrowed)
            && is_parent(&buffer(rt, text)?.parent()?, owned),
    )
}

/// Texts, and the parents of their borrowed paths and of their buffers. They differ because a slash separates
/// components only in a buffer.
pub(crate) const PARENTS: &[(&str, Option<&str>, Option<&str>)] = &[
    ("", None, None),
    (r"\", None, None),
    ("abc", None, None),
    (r"\a", None, None),
    (r"a\", Some("a"), Some("a")),
    (r"a\b", Some("a"), Some("a")),
    (r"\a\b", Some("a"), Some("a")),
    (r"a\\b", Some(r"a\"), Some(r"a\")),
    (r"a\\\b", Some(r"a\"), Some(r"a\")),
    (r"a\\b\c", Some(r"a\b"), Some(r"a\b")),
    (r"\\\a", Some(""), Some("")),
    (r"\\a\b", Some("a"), Some("a")),
    (r"a\b\c\d", Some(r"a\b\c"), Some(r"a\b\c")),
    (r"\a\b\\", Some(r"a\b\"), Some(r"a\b\")),
    ("/a/b/c", None, Some(r"a\b")),
    (r"a/b\c", Some(r"a\b"), Some(r"a\b")),
    (r"a/\b\c", Some(r"a\\b"), Some(r"a\b")),
];

#[test]
fn parents(rt: HostRuntime) -> Result<(), Fail> {
    for (text, borrowed, owned) in PARENTS {
        assert!(rt; has_parent(&rt, text, *borrowed, *owned)?, "{text}");
    }
    Ok(())
}
