//! Paths that are written into a caller's buffer, whole if they fit, otherwise not at all.

use crate::normal::NORMAL;
use crate::parents::PARENTS;
use for_tests::{BufferCall, says, string, writes_whole};
use std::test::Fail;
use uefi_path::{NormalWriteError, Path};
use uefi_text::BufferTooSmall;

/// The content of the buffers before each call.
const FILLER: u16 = 0x21;

/// Returns how many units of a parent and its NUL were written, or are needed; 0 if the path has no parent.
fn parent_in(path: Path<'_>, room: &mut [u16]) -> Result<usize, usize> {
    match path.write_parent(room) {
        Ok(written) => Ok(written.map_or(0, |len| len.saturating_add(1))),
        Err(BufferTooSmall(needed)) => Err(needed),
    }
}

/// Returns how many units of a normal path and its NUL were written, or are needed; 0 if the path has no
/// normal path.
fn normal_in(path: Path<'_>, room: &mut [u16]) -> Result<usize, usize> {
    match path.write_normal(room) {
        Ok(len) => Ok(len.saturating_add(1)),
        Err(NormalWriteError::Invalid(_)) => Ok(0),
        Err(NormalWriteError::BufferTooSmall(needed)) => Err(needed),
    }
}

/// A call that writes the parent or the normal path of a path.
#[derive(Clone, Copy)]
struct Written<'a> {
    path: Path<'a>,
    normal: bool,
}

impl BufferCall<u16> for Written<'_> {
    fn write(&self, room: &mut [u16]) -> Result<usize, usize> {
        if self.normal {
            normal_in(self.path, room)
        } else {
            parent_in(self.path, room)
        }
    }
}

/// Returns whether the parent or the normal path of a path is written into each buffer that has room for it,
/// and every shorter buffer is unchanged. If there is none, every buffer is unchanged.
fn are_written(
    rt: &HostRuntime,
    text: &str,
    normal: bool,
    want: Option<&str>,
) -> Result<bool, Fail> {
    let text = string(rt.alloc(), text)?;
    let path = Path::new(text.as_cstr16());
    let written = string(rt.alloc(), want.unwrap_or(""))?.into_vec_with_nul();
    let units = if want.is_some() { &written[..] } else { &[] };
    let has_one = if normal {
        path.write_normal(&mut [0; 32]).is_ok()
    } else {
        path.write_parent(&mut [0; 32]) != Ok(None)
    };
    let is_right = writes_whole(rt.alloc(), units, FILLER, &Written { path, normal })?;
    Ok(is_right && has_one == want.is_some())
}

/// A path with slashes, and its normal path as written.
const SLASHED: &[(&str, &str)] = &[
    ("/", r"\"),
    ("a/..", r"\"),
    ("/efi/boot/../x", r"efi\x"),
    (r"\efi/boot\.", r"efi\boot"),
    (r"a\b/../..\c", "c"),
];

/// A path without a normal path, and the reason.
const REFUSED: &[(&str, &str)] = &[
    ("", "path is empty"),
    ("//", "path contains an empty component"),
    ("/efi/boot/", "path contains an empty component"),
    (r"a\..\", "path contains an empty component"),
    ("/a/b*", "path contains an illegal character (value 42)"),
    ("/..", "path climbs above the root"),
    (r"..\a", "path climbs above the root"),
    (r"a\../../b//", "path climbs above the root"),
];

#[test]
fn written_parents(rt: HostRuntime) -> Result<(), Fail> {
    for (text, want, _) in PARENTS {
        assert!(rt; are_written(&rt, text, false, *want)?, "{text}");
    }
    Ok(())
}

#[test]
fn written_normal_paths(rt: HostRuntime) -> Result<(), Fail> {
    for (text, want) in NORMAL {
        assert!(rt; are_written(&rt, text, true, Some(want))?, "{text}");
    }
    for (text, want) in SLASHED {
        assert!(rt; are_written(&rt, text, true, Some(want))?, "{text}");
    }
    for (text, why) in REFUSED {
        assert!(rt; are_written(&rt, text, true, None)?, "{text}");
        let path = string(rt.alloc(), text)?;
        if let Err(error) = Path::new(path.as_cstr16()).write_normal(&mut []) {
            assert!(rt; says(rt.alloc(), &error, why), "{text}");
        }
    }
    let path = string(rt.alloc(), "a/b")?;
    if let Err(error) = Path::new(path.as_cstr16()).write_normal(&mut [0; 2]) {
        let why = "buffer too small: the normal path needs 4 units";
        assert!(rt; says(rt.alloc(), &error, why));
    }
    Ok(())
}
