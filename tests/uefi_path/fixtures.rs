//! Path buffers created from Rust texts, and compared with them.

use for_tests::{has_text, string};
use std::alloc::AllocError;
use std::test::Fail;
use uefi_path::PathBuf;

/// Creates the path buffer of a text, with each slash replaced.
pub(crate) fn buffer(rt: &HostRuntime, text: &str) -> Result<PathBuf, Fail> {
    match PathBuf::new_from_cstring16(rt.alloc(), string(rt.alloc(), text)?) {
        Ok(path) => Ok(path),
        Err(_) => Err(AllocError.into()),
    }
}

/// Returns whether a path has this text.
pub(crate) fn is_path(path: &PathBuf, want: &str) -> bool {
    has_text(path.to_cstr16(), want)
}
