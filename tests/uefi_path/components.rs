//! The components of paths.

use crate::fixtures::buffer;
use for_tests::string;
use std::test::Fail;
use uefi_path::Path;
use uefi_text::CStr16;

/// Lists the components of a path, with a bar before each.
fn barred(rt: &HostRuntime, path: Path<'_>) -> Result<String, Fail> {
    let mut shown = String::new(rt.alloc());
    for component in path.components() {
        shown.push('|')?;
        for character in component.iter() {
            shown.push(char::from(character))?;
        }
    }
    Ok(shown)
}

/// Returns whether both ways to make a path from a string keep the string.
fn keeps(string: CStr16<'_>) -> bool {
    let path = Path::new(string);
    Path::from(string) == path && path.to_cstr16() == string
}

/// Returns whether the path of a text has these components, its buffer has `owned` components, and both are
/// empty only if the text is.
fn has_components(rt: &HostRuntime, text: &str, want: &str, owned: usize) -> Result<bool, Fail> {
    let (string, path) = (string(rt.alloc(), text)?, buffer(rt, text)?);
    let borrowed = Path::new(string.as_cstr16());
    Ok(
        barred(rt, borrowed)?.as_str() == want
            && keeps(string.as_cstr16())
            && borrowed.is_empty() == text.is_empty()
            && path.is_empty() == text.is_empty()
            && path.components().count() == owned,
    )
}

/// Texts, the components of their paths, and the number of components of their buffers. A slash separates
/// components only in a buffer.
const COMPONENTS: &[(&str, &str, usize)] = &[
    ("", "", 0),
    ("/", "|/", 0),
    (r"\", "", 0),
    (r"\\", "||", 2),
    (r"a\", "|a|", 2),
    (r"\\a", "||a", 2),
    (r"a\b", "|a|b", 2),
    (r"a\\b", "|a||b", 3),
    (r"\\\a", "|||a", 3),
    (r"foo\bar\hello", "|foo|bar|hello", 3),
    (r"\foo\bar\hello", "|foo|bar|hello", 3),
    (r"\hello\foo\bar", "|hello|foo|bar", 3),
    (r"a/b\c", "|a/b|c", 3),
];

#[test]
fn components_of_texts(rt: HostRuntime) -> Result<(), Fail> {
    for (text, want, owned) in COMPONENTS {
        assert!(rt; has_components(&rt, text, want, *owned)?, "{text}");
    }
    Ok(())
}

/// An iterator prints the rest of the text, and nothing after the last component.
#[test]
fn printed_components(rt: HostRuntime) -> Result<(), Fail> {
    let path = buffer(&rt, r"\a\é")?;
    let mut components = path.components();
    for want in [
        r"Components(Some(['a', '\\', 'é']))",
        "Components(Some(['é']))",
        "Components(None)",
    ] {
        let printed = format!(in rt.alloc(); "{components:?}")?;
        assert!(rt; printed.as_str() == want, "{want}");
        let _next = components.next();
    }
    Ok(())
}
