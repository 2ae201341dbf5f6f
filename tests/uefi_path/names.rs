//! Order and endings of paths; names, stems, extensions and ancestors. The rows of endings, stems, extensions
//! and ancestors come from the documentation of Rust's `std::path::Path`, with `\` for `/`, where both
//! libraries agree.

use crate::fixtures::buffer;
use for_tests::{MemoryCall, Refusing, are_ordered, has_text, out_of_memory, requests, string};
use std::alloc::{AllocError, Global};
use std::cmp::Ordering::{self, Equal, Greater, Less};
use std::fmt::Write;
use std::test::Fail;
use uefi_path::{Path, PathBuf};
use uefi_text::{CStr16, Char16Slice};

/// Two paths, their order, and the order of their buffers, in which each slash is replaced.
const ORDERS: &[(&str, &str, Ordering, Ordering)] = &[
    ("", r"\", Equal, Equal),
    (r"\a", "a", Equal, Equal),
    (r"\a", r"\\a", Greater, Greater),
    (r"\x", r"\\x", Greater, Greater),
    (r"\b", "a", Greater, Greater),
    // By components, the first would be less.
    (r"a\b", "a!", Greater, Greater),
    (r"a\b", r"\a\b", Equal, Equal),
    (r"a\b", r"a\b\c", Less, Less),
    (r"first\second\third", r"\first\second", Greater, Greater),
    ("a/b", r"a\b", Less, Equal),
];

#[test]
fn orders(rt: HostRuntime) -> Result<(), Fail> {
    for (a, b, borrowed, owned) in ORDERS {
        let (path, other) = (string(rt.alloc(), a)?, string(rt.alloc(), b)?);
        let (path, other) = (Path::new(path.as_cstr16()), Path::new(other.as_cstr16()));
        let is_right = are_ordered(&path, &other, *borrowed)
            && are_ordered(&buffer(&rt, a)?, &buffer(&rt, b)?, *owned);
        assert!(rt; is_right, "{a} and {b}");
    }
    Ok(())
}

/// Paths, and whether `\etc\resolv.conf` ends with each.
const ENDINGS: &[(&str, bool)] = &[
    ("resolv.conf", true),
    (r"etc\resolv.conf", true),
    (r"\resolv.conf", true),
    ("conf", false),
];

#[test]
fn endings(rt: HostRuntime) -> Result<(), Fail> {
    let path = buffer(&rt, r"\etc\resolv.conf")?;
    for (other, want) in ENDINGS {
        let ends = path.as_path().ends_with(buffer(&rt, other)?.as_path());
        assert!(rt; ends == *want, "{other}");
    }
    Ok(())
}

/// A path, and the file name, stem and extension of its buffer, or `-` if it has none.
const NAMES: &[[&str; 4]] = &[
    ["foo.rs", "foo.rs", "foo", "rs"],
    ["foo.tar.gz", "foo.tar.gz", "foo.tar", "gz"],
    [r"a\.profile", ".profile", ".profile", "-"],
    [r"\a.b\c", "c", "c", "-"],
    ["a.", "a.", "a", ""],
    [".a.b", ".a.b", ".a", "b"],
    ["...", "...", "..", ""],
    [".", ".", ".", "-"],
    ["..", "..", "..", "-"],
    [r"a\", "", "", "-"],
    ["", "-", "-", "-"],
    [r"\", "-", "-", "-"],
    [r"\efi\é.efi", "é.efi", "é", "efi"],
    ["a/b", "b", "b", "-"],
];

/// Returns whether a part is this text, or is missing if the text is `-`.
fn is_text(rt: &HostRuntime, part: Option<Char16Slice<'_>>, want: &str) -> Result<bool, Fail> {
    match part {
        Some(part) => Ok(has_text(part.to_cstring16(rt.alloc())?.as_cstr16(), want)),
        None => Ok(want == "-"),
    }
}

#[test]
fn names_stems_and_extensions(rt: HostRuntime) -> Result<(), Fail> {
    for [text, name, stem, extension] in NAMES {
        let path = buffer(&rt, text)?;
        let borrowed = path.as_path();
        let is_right = is_text(&rt, path.file_name(), name)?
            && is_text(&rt, borrowed.file_name(), name)?
            && is_text(&rt, borrowed.file_stem(), stem)?
            && is_text(&rt, borrowed.extension(), extension)?;
        assert!(rt; is_right, "{text}");
    }
    Ok(())
}

/// A path, and its ancestors, each followed by `;`.
const ANCESTORS: &[(&str, &str)] = &[
    (r"\foo\bar", r"foo\bar;foo;"),
    (r"..\foo\bar", r"..\foo\bar;..\foo;..;"),
    (r"a\\b", r"a\\b;a\;a;"),
    ("a", "a;"),
    ("", ""),
    (r"\", ""),
];

#[test]
fn ancestors_of_paths(rt: HostRuntime) -> Result<(), Fail> {
    for (text, want) in ANCESTORS {
        let path = string(rt.alloc(), text)?;
        let mut joined = string(rt.alloc(), "")?;
        for ancestor in Path::new(path.as_cstr16()).ancestors() {
            write!(joined, "{ancestor};")?;
        }
        assert!(rt; has_text(joined.as_cstr16(), want), "{text}");
    }
    Ok(())
}

/// Whether to replace the extension or the name, a path, the replacement, and the path afterwards.
const RENAMED: &[(bool, &str, &str, &str)] = &[
    (false, r"\", "bar", r"\bar"),
    (false, "", "bar", "bar"),
    (false, r"\foo.txt", "bar.txt", r"\bar.txt"),
    (false, r"tmp\foo", "bar", r"tmp\bar"),
    (false, r"tmp\", "bar", r"tmp\bar"),
    (false, "a", "b/c", r"b\c"),
    (false, r"a\b", "", r"a\"),
    (true, r"\feel\the", "force", r"\feel\the.force"),
    (true, r"\the.force", "dark.side", r"\the.dark.side"),
    (true, r"\the.dark.side", "cookie", r"\the.dark.cookie"),
    (true, r"\feel\the.dark.cookie", "", r"\feel\the.dark"),
    (true, r"\feel\the", "", r"\feel\the"),
    (true, r"a.b\.c", "d", r"a.b\.c.d"),
];

/// The replacement of the extension or the name of a path.
#[derive(Clone, Copy)]
struct Renaming<'a> {
    is_extension: bool,
    text: CStr16<'a>,
    other: CStr16<'a>,
    want: CStr16<'a>,
}

impl MemoryCall for Renaming<'_> {
    /// Returns whether the extension or the name is replaced, or the path is unchanged when memory ran out.
    fn answer(&self, heap: &Refusing<Global>) -> Result<bool, AllocError> {
        let mut path = PathBuf::from(heap, self.text)?;
        let is_set = if self.is_extension {
            path.set_extension(self.other) == Ok(true)
        } else {
            path.set_file_name(self.other).is_ok()
        };
        if is_set {
            Ok(path.to_cstr16() == self.want)
        } else {
            out_of_memory(path.to_cstr16() == self.text)
        }
    }
}

#[test]
fn paths_with_another_name(rt: HostRuntime) -> Result<(), Fail> {
    for (is_extension, text, other, want) in RENAMED {
        let (a, b) = (string(rt.alloc(), text)?, string(rt.alloc(), other)?);
        let c = string(rt.alloc(), want)?;
        let renaming = Renaming {
            is_extension: *is_extension,
            text: a.as_cstr16(),
            other: b.as_cstr16(),
            want: c.as_cstr16(),
        };
        let asked = requests(rt.alloc(), 0, &renaming)?;
        assert!(rt; 1 < asked, "{text}");
    }
    Ok(())
}
