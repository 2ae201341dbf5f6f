//! The parents of paths, as texts.

use for_tests::{has_text, string};
use std::test::Fail;
use uefi_path::PathBuf;
use upath::all_parents;

/// Paths, and their parents.
const PARENTS: &[(&str, &[&str])] = &[
    (r"\a\b\c", &[r"a\b", "a"]),
    (r"a\\b", &[r"a\", "a"]),
    (r"\\\a", &[""]),
    (r"a\", &["a"]),
    (r"\", &[]),
    (r"\\", &[""]),
    (r"\\\\\\", &[""]),
];

#[test]
fn parents_of_paths(rt: HostRuntime) -> Result<(), Fail> {
    for (text, want) in PARENTS {
        let path = PathBuf::from(rt.alloc(), string(rt.alloc(), text)?.as_cstr16())?;
        let parents = all_parents(rt.alloc(), &path)?;
        assert!(rt; parents.len() == want.len(), "{text}");
        for (parent, want) in parents.iter().zip(*want) {
            assert!(rt; has_text(parent.to_cstr16(), want), "{text}");
        }
    }
    Ok(())
}
