//! The file paths of device paths, joined from the names in their nodes.

use for_tests::{BufferCall, bytes, has_text, string, writes_whole};
use std::test::Fail;
use uefi_device_path::{
    DevicePath, DevicePathBuf, DevicePathInstance, DeviceSubType, DeviceType, FilePathCause,
    FilePathError, FilePathWriteError,
};
use uefi_text::CStr16;
use uefi_text::FromSliceWithNulError::{InteriorNul, InvalidChar, NotNulTerminated};

/// Builds a path with one other node, and a file node for each name.
fn named(rt: &HostRuntime, names: &[&[u8]]) -> Result<DevicePathBuf, Fail> {
    let mut path = DevicePathBuf::new(rt.alloc())?;
    path.push(DeviceType::HARDWARE, DeviceSubType(1), &[0, 0])?;
    for name in names {
        path.push(DeviceType::MEDIA, DeviceSubType::MEDIA_FILE_PATH, name)?;
    }
    Ok(path)
}

/// Returns how many units were written with the NUL, or are needed.
fn needed(written: Result<usize, FilePathWriteError>) -> Result<usize, usize> {
    match written {
        Ok(count) => Ok(count.saturating_add(1)),
        Err(FilePathWriteError::BufferTooSmall(count)) => Err(count),
        Err(FilePathWriteError::Name(_)) => Err(0),
    }
}

/// Returns how many units are borrowed with the NUL, or are needed.
fn borrowed(path: Result<CStr16<'_>, FilePathWriteError>) -> Result<usize, usize> {
    match path {
        Ok(string) => Ok(string.to_u16_slice_with_nul().len()),
        Err(error) => needed(Err(error)),
    }
}

/// A call that writes a file path into a buffer, or borrows it from there.
#[derive(Clone, Copy)]
enum Call<'a> {
    Write(DevicePath<'a>),
    WriteOfInstance(DevicePathInstance<'a>),
    Borrow(DevicePath<'a>),
    BorrowOfInstance(DevicePathInstance<'a>),
}

impl BufferCall<u16> for Call<'_> {
    fn write(&self, room: &mut [u16]) -> Result<usize, usize> {
        match *self {
            Call::Write(path) => needed(path.write_file_path(room)),
            Call::WriteOfInstance(instance) => needed(instance.write_file_path(room)),
            Call::Borrow(path) => borrowed(path.file_path_in_buf(room)),
            Call::BorrowOfInstance(instance) => borrowed(instance.file_path_in_buf(room)),
        }
    }
}

/// Returns whether a path and its only instance have this file path, in memory and in buffers.
fn joins(rt: &HostRuntime, path: DevicePath<'_>, want: &str) -> Result<bool, Fail> {
    let all = path.instance_iter().next().ok_or("an instance")?;
    let units = string(rt.alloc(), want)?.into_vec_with_nul();
    for call in [
        Call::Write(path),
        Call::WriteOfInstance(all),
        Call::Borrow(path),
        Call::BorrowOfInstance(all),
    ] {
        if !writes_whole(rt.alloc(), &units, 9, &call)? {
            return Ok(false);
        }
    }
    Ok(
        has_text(path.file_path(rt.alloc())?.to_cstr16(), want)
            && has_text(all.file_path(rt.alloc())?.to_cstr16(), want),
    )
}

/// Names in Latin-1, as bytes of units, and the path that they form.
const ROWS: &[(&[&[u8]], &str)] = &[
    (&[], ""),
    (&[b"\\\0E\0F\0I\0\\\0B\0\0\0"], r"\EFI\B"),
    (&[b"\\\0E\0\\\0\0\0", b"B\0\0\0"], r"\E\B"),
    (&[b"\\\0E\0\0\0", b"\\\0B\0\0\0"], r"\E\B"),
    (&[b"\\\0E\0\\\0\0\0", b"\\\0B\0\0\0"], r"\E\B"),
    (&[b"E\0\0\0", b"B\0\0\0"], r"E\B"),
    (&[b"/\0E\0/\0\0\0", b"/\0B\0\0\0"], r"\E\B"),
    (&[b"\0\0", b"a\0\0\0"], "a"),
    (&[b"\0\0", b"\\\0a\0\0\0"], r"\a"),
    (&[b"a\0\0\0", b"\0\0"], "a"),
    (&[b"a\0\0\0", b"\\\0\0\0"], "a"),
    (&[b"\\\0\0\0", b"\\\0\0\0", b"a\0\0\0"], r"\a"),
];

#[test]
fn joined(rt: HostRuntime) -> Result<(), Fail> {
    for (names, want) in ROWS {
        let path = named(&rt, names)?;
        assert!(rt; joins(&rt, path.as_device_path(), want)?, "{names:?}");
    }
    Ok(())
}

/// The data of a node, which begins at offset 18, and why it is not a name.
const REFUSED: &[(&str, FilePathCause)] = &[
    ("61", FilePathCause::HalfUnit),
    ("", FilePathCause::Text(NotNulTerminated)),
    ("6100", FilePathCause::Text(NotNulTerminated)),
    ("610000006200", FilePathCause::Text(InteriorNul(1))),
    ("610000d80000", FilePathCause::Text(InvalidChar(1))),
];

/// Returns whether a path and its only instance have no file path for this reason, in memory and in buffers
/// of each size, which stay unchanged.
fn are_refused(rt: &HostRuntime, path: DevicePath<'_>, want: FilePathError) -> Result<bool, Fail> {
    let instance = path.instance_iter().next().ok_or("an instance")?;
    let written = Some(FilePathWriteError::Name(want));
    for len in 0..8 {
        let mut room = [9; 8];
        let buffer = room.get_mut(..len).unwrap_or_default();
        let is_refused = path.write_file_path(buffer).err() == written
            && instance.write_file_path(buffer).err() == written
            && path.file_path_in_buf(buffer).err() == written
            && instance.file_path_in_buf(buffer).err() == written;
        if !is_refused || room != [9; 8] {
            return Ok(false);
        }
    }
    Ok(
        path.file_path(rt.alloc()).err() == Some(want)
            && instance.file_path(rt.alloc()).err() == Some(want),
    )
}

#[test]
fn refused(rt: HostRuntime) -> Result<(), Fail> {
    for (digits, cause) in REFUSED {
        let data = bytes(rt.alloc(), digits)?;
        let path = named(&rt, &[b"a\0\0\0", &data])?;
        let want = FilePathError {
            cause: *cause,
            offset: 18,
        };
        assert!(rt; are_refused(&rt, path.as_device_path(), want)?, "{digits}");
    }
    Ok(())
}
