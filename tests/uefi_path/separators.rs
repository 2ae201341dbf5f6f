//! Paths that consist of separators only.

use crate::fixtures::{buffer, is_path};
use for_tests::{are_ordered, repeated, string};
use std::cmp::Ordering::Greater;
use std::test::Fail;
use uefi_path::{Path, PathError, validate_path};

/// Returns whether a path has this many components, all empty, and is refused for the first.
fn has_empty_components(path: Path<'_>, count: usize) -> bool {
    path.components().count() == count
        && path.components().all(|component| component.is_empty())
        && validate_path(path) == Err(PathError::EmptyComponent)
}

/// Returns whether the parent of a path is the empty path, which has no parent.
fn has_one_parent(rt: &HostRuntime, path: Path<'_>) -> Result<bool, Fail> {
    match path.parent(rt.alloc())? {
        Some(parent) => Ok(is_path(&parent, "") && parent.parent()?.is_none()),
        None => Ok(false),
    }
}

/// Returns whether `more` separators that are pushed to a path follow its own.
fn takes(rt: &HostRuntime, path: Path<'_>, count: u64, more: u64) -> Result<bool, Fail> {
    let (pushed, all) = (
        repeated(rt.alloc(), r"\", more)?,
        repeated(rt.alloc(), r"\", count.saturating_add(more))?,
    );
    let mut held = path.to_path_buf(rt.alloc())?;
    held.push(buffer(rt, &pushed)?.as_path())?;
    Ok(is_path(&held, &all))
}

#[test]
fn paths_of_separators(rt: HostRuntime) -> Result<(), Fail> {
    for count in 2..=6u64 {
        let text = string(rt.alloc(), &repeated(rt.alloc(), r"\", count)?)?;
        let less = string(rt.alloc(), &repeated(rt.alloc(), r"\", count - 1)?)?;
        let (path, less) = (Path::new(text.as_cstr16()), Path::new(less.as_cstr16()));
        assert!(rt; has_empty_components(path, count as usize), "{count}");
        assert!(rt;
            has_one_parent(&rt, path)? && are_ordered(&path, &less, Greater),
            "{count}"
        );
        for more in 1..=3 {
            assert!(rt; takes(&rt, path, count, more)?, "{count} and {more}");
        }
    }
    Ok(())
}
