//! Building paths, in memory and in buffers: their bytes, and refused nodes.

use for_tests::{END, holds};
use std::test::Fail;
use uefi_device_path::{BuildError, DevicePathBuf, DevicePathBuilder, DeviceSubType, DeviceType};

/// The bytes of a path with two nodes, of 6 and 4 bytes.
const BUILT: &[u8] = &[1, 1, 6, 0, 0, 0x1f, 0x7f, 1, 4, 0, 0x7f, 0xff, 4, 0];

/// The bytes of a path with only the first node.
const FIRST: &[u8] = &[1, 1, 6, 0, 0, 0x1f, 0x7f, 0xff, 4, 0];

/// Builds a path with two nodes, of 6 and 4 bytes, in a buffer.
fn build<'a>(buffer: &'a mut [u8]) -> Result<&'a [u8], BuildError> {
    let mut path = DevicePathBuilder::with_buf(buffer)?;
    path.push(DeviceType::HARDWARE, DeviceSubType(1), &[0, 0x1f])?;
    path.push(DeviceType::END, DeviceSubType::END_INSTANCE, &[])?;
    Ok(path.finalize().as_bytes())
}

/// A buffer of 14 bytes or more contains the whole path. In a shorter buffer, the error gives the size that
/// the next node needs, and the path so far remains.
#[test]
fn built_in_buffers(rt: HostRuntime) {
    for len in 0..16 {
        let mut room = [9; 16];
        let built = build(room.get_mut(..len).unwrap_or_default());
        let (needed, left) = match len {
            0..4 => (Err(BuildError::BufferTooSmall(4)), &[] as &[u8]),
            4..10 => (Err(BuildError::BufferTooSmall(10)), END),
            10..14 => (Err(BuildError::BufferTooSmall(14)), FIRST),
            _ => (Ok(BUILT), BUILT),
        };
        assert!(rt; built == needed, "{len}");
        assert!(rt; holds(&room, left, &9), "{len}");
    }
}

/// Nodes, and why each is refused.
const REFUSED: &[(u8, u8, usize, BuildError)] = &[
    (0x7f, 0xff, 0, BuildError::EndNode),
    (0x7f, 0x00, 0, BuildError::EndNode),
    (0x7f, 0x01, 1, BuildError::EndNode),
    (0x7f, 0x01, 65_532, BuildError::EndNode),
    (1, 1, 65_532, BuildError::NodeTooLong),
];

/// Returns whether a node is refused with this error, in memory and in a buffer without room for a node, and
/// the path is unchanged.
fn is_refused(
    rt: &HostRuntime,
    kind: (DeviceType, DeviceSubType),
    data: &[u8],
    want: BuildError,
) -> Result<bool, Fail> {
    let mut room = [9; 4];
    let mut built = DevicePathBuilder::with_buf(&mut room)?;
    let mut path = DevicePathBuf::new(rt.alloc())?;
    Ok(
        path.push(kind.0, kind.1, data).err() == Some(want)
            && path.as_device_path().as_bytes() == END
            && built.push(kind.0, kind.1, data).err() == Some(want)
            && built.push(DeviceType::HARDWARE, kind.1, &[]).err()
                == Some(BuildError::BufferTooSmall(8))
            && built.as_device_path().as_bytes() == END,
    )
}

#[test]
fn refused(rt: HostRuntime) -> Result<(), Fail> {
    let data = vec![in rt.alloc(); 0u8; 65_532]?;
    for (device_type, sub_type, len, want) in REFUSED {
        let kind = (DeviceType(*device_type), DeviceSubType(*sub_type));
        let is_right = is_refused(&rt, kind, data.get(..*len).unwrap_or(&[]), *want)?;
        assert!(rt; is_right, "{len}");
    }
    let mut path = DevicePathBuf::new(rt.alloc())?;
    path.push(DeviceType::MEDIA, DeviceSubType(3), &data[..65_531])?;
    assert!(rt; path.as_device_path().as_bytes().len() == 65_539);
    Ok(())
}
