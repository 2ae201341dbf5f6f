//! Path buffers: created, pushed to, joined, copied and cleared; and printed paths.

use crate::fixtures::{buffer, is_path};
use for_tests::{prints, string};
use std::alloc::AllocError;
use std::test::Fail;
use uefi_path::{CountedUnits, Path, PathBuf};

/// Texts, and the texts of their buffers.
const REPLACED: &[(&str, &str)] = &[
    ("", ""),
    ("/", r"\"),
    (r"/a//b\", r"\a\\b\"),
    (r"\hello\foo\bar", r"\hello\foo\bar"),
];

#[test]
fn replaced_slashes(rt: HostRuntime) -> Result<(), Fail> {
    for (text, want) in REPLACED {
        let (string, taken) = (string(rt.alloc(), text)?, buffer(&rt, text)?);
        let copied = PathBuf::from(rt.alloc(), string.as_cstr16())?;
        let is_right = is_path(&copied, want) && is_path(&taken, want) && copied == taken;
        let is_right = is_right && copied.to_string(rt.alloc())?.as_str() == *want;
        assert!(rt; is_right, "{text}");
    }
    Ok(())
}

#[test]
fn printed_buffers(rt: HostRuntime) -> Result<(), Fail> {
    let empty = PathBuf::new(rt.alloc())?;
    assert!(rt; prints(rt.alloc(), &empty, "|PathBuf(CStr16([]))"));
    let want = r"\a\é|PathBuf(CStr16(['\\', 'a', '\\', 'é']))";
    assert!(rt; prints(rt.alloc(), &buffer(&rt, r"/a\é")?, want));
    Ok(())
}

#[test]
fn printed_paths(rt: HostRuntime) -> Result<(), Fail> {
    let (empty, text) = (string(rt.alloc(), "")?, string(rt.alloc(), r"/a\é")?);
    let empty = Path::new(empty.as_cstr16());
    assert!(rt; prints(rt.alloc(), &empty, "|Path(CStr16([]))"));
    let want = r"/a\é|Path(CStr16(['/', 'a', '\\', 'é']))";
    assert!(rt; prints(rt.alloc(), &Path::new(text.as_cstr16()), want));
    Ok(())
}

/// Returns whether a path is empty after each of two calls of `clear`.
fn clears_twice(mut path: PathBuf) -> bool {
    path.clear();
    let is_empty = path.is_empty() && is_path(&path, "");
    path.clear();
    is_empty && path.is_empty()
}

/// A copy keeps its text when the original is cleared.
#[test]
fn copied_and_cleared(rt: HostRuntime) -> Result<(), Fail> {
    let path = buffer(&rt, "first")?;
    let copy = path.clone()?;
    assert!(rt; is_path(&path, "first") && clears_twice(path) && is_path(&copy, "first"));
    Ok(())
}

/// Returns whether both joins of a path with another have the text `want`.
fn joins(
    rt: &HostRuntime,
    path: Path<'_>,
    other: Path<'_>,
    want: &str,
) -> Result<bool, AllocError> {
    Ok(
        is_path(&path.join(rt.alloc(), other)?, want)
            && is_path(&path.to_path_buf(rt.alloc())?.join(other)?, want),
    )
}

/// Returns whether the buffer of a path has the text `want` after another path is pushed, and after the text
/// of that path is pushed unit by unit, and is unchanged by a push of no text.
fn pushes(
    rt: &HostRuntime,
    path: Path<'_>,
    other: Path<'_>,
    want: &str,
) -> Result<bool, AllocError> {
    let (mut plain, mut counted) = (path.to_path_buf(rt.alloc())?, path.to_path_buf(rt.alloc())?);
    let empty = PathBuf::new(rt.alloc())?;
    plain.push(other)?;
    counted.push_counted(&mut CountedUnits::new(other.to_cstr16()))?;
    counted.push_counted(&mut CountedUnits::new(empty.to_cstr16()))?;
    Ok(is_path(&plain, want) && is_path(&counted, want))
}

/// Returns whether both joins and both pushes have the text `want`.
pub(crate) fn joins_and_pushes(
    rt: &HostRuntime,
    text: &str,
    other: &str,
    want: &str,
) -> Result<bool, Fail> {
    let (text, other) = (string(rt.alloc(), text)?, string(rt.alloc(), other)?);
    let (path, other) = (Path::new(text.as_cstr16()), Path::new(other.as_cstr16()));
    Ok(joins(rt, path, other, want)? && pushes(rt, path, other, want)?)
}

/// A text, another that is pushed to it, and the text of the path afterwards.
const PUSHES: &[(&str, &str, &str)] = &[
    ("", "", ""),
    ("", r"\x", r"\x"),
    ("", "/x/y", r"\x\y"),
    ("a", "", "a"),
    ("a", "b", r"a\b"),
    (r"\a", "b", r"\a\b"),
    (r"a\", "b", r"a\b"),
    ("a", "/b", r"a\\b"),
    ("a", "b/c", r"a\b\c"),
    ("a", r"\b", r"a\\b"),
    (r"\", r"\x", r"\\x"),
    (r"a\b", r"c\d", r"a\b\c\d"),
];

#[test]
fn pushed_and_joined(rt: HostRuntime) -> Result<(), Fail> {
    for (text, other, want) in PUSHES {
        assert!(rt; joins_and_pushes(&rt, text, other, want)?, "{text}, {want}");
    }
    Ok(())
}

/// Returns whether the empty path has the text `want` after these parts are pushed to it in turn, and after
/// their texts are pushed unit by unit.
fn is_pushed_in_turn(rt: &HostRuntime, parts: &[&str], want: &str) -> Result<bool, Fail> {
    let (mut plain, mut counted) = (PathBuf::new(rt.alloc())?, PathBuf::new(rt.alloc())?);
    for part in parts {
        let part = string(rt.alloc(), part)?;
        plain.push(Path::new(part.as_cstr16()))?;
        counted.push_counted(&mut CountedUnits::new(part.as_cstr16()))?;
    }
    Ok(is_path(&plain, want) && is_path(&counted, want))
}

/// Texts that are pushed in turn, and the text of the path.
const SEVERAL: &[(&[&str], &str)] = &[
    (&["a", "b"], r"a\b"),
    (&["first", "second", "third"], r"first\second\third"),
    (&[r"\first", "second"], r"\first\second"),
    (&["first", "", "", "", "second"], r"first\second"),
];

#[test]
fn several_pushes(rt: HostRuntime) -> Result<(), Fail> {
    for (parts, want) in SEVERAL {
        assert!(rt; is_pushed_in_turn(&rt, parts, want)?, "{want}");
    }
    Ok(())
}
