//! Nodes that are appended to a path of known size. With each amount of room, the path is the same as that of
//! `push_in_buf`, and an error leaves the buffer unchanged.

use for_tests::{END, holds};
use std::test::Fail;
use uefi_device_path::build::RawNode;
use uefi_device_path::{
    BuildError, DevicePathError, DeviceSubType, DeviceType, GrowError, NodeError, push_at_in_buf,
    push_in_buf,
};

/// Nodes, with their types and data: a PCI function, the end of an instance, a file, and a node that no
/// specification lists.
const NODES: &[(u8, u8, &[u8])] = &[
    (1, 1, &[0, 0x1f]),
    (0x7f, 1, &[]),
    (4, 4, &[0x61, 0, 0, 0]),
    (9, 200, &[]),
];

/// The bytes of the path of `NODES`.
const PATH: &[u8] = &[
    1, 1, 6, 0, 0, 0x1f, 0x7f, 1, 4, 0, 4, 4, 8, 0, 0x61, 0, 0, 0, 9, 200, 4, 0, 0x7f, 0xff, 4, 0,
];

/// Creates a node of this type, sub-type and data.
fn node_of(device_type: u8, sub_type: u8, content: &[u8]) -> RawNode<'_> {
    RawNode {
        device_type: DeviceType(device_type),
        sub_type: DeviceSubType(sub_type),
        content,
    }
}

/// Adds the nodes to the empty path in two buffers, with a different call for each. Returns whether the
/// results and the buffers agree after each node, and the size of the path in the end.
fn build_both(one: &mut [u8], other: &mut [u8]) -> (bool, usize) {
    let mut len = 4;
    for &(device_type, sub_type, content) in NODES {
        let node = node_of(device_type, sub_type, content);
        let found = push_in_buf(one, &node);
        if push_at_in_buf(other, len, &node) != found || *one != *other {
            return (false, len);
        }
        if let Ok(longer) = found {
            len = longer;
        }
    }
    (true, len)
}

#[test]
fn as_without_the_size(rt: HostRuntime) -> Result<(), Fail> {
    for room in 4..PATH.len() + 3 {
        let mut one = Vec::from_slice(rt.alloc(), END)?;
        one.resize(room, 9)?;
        let mut other = Vec::from_slice(rt.alloc(), &one)?;
        let (agree, len) = build_both(&mut one, &mut other);
        assert!(rt; agree, "{room}");
        if room >= PATH.len() {
            assert_eq!(rt; len, PATH.len(), "{room}");
            assert!(rt; holds(&other, PATH, &9), "{room}");
        }
    }
    Ok(())
}

/// A path of 10 bytes in a buffer of 12.
const BEFORE: [u8; 12] = [1, 1, 6, 0, 0, 0x1f, 0x7f, 0xff, 4, 0, 9, 9];

/// Sizes at which the path of `BEFORE` does not end, and the type, sub-type and data size of a node. The
/// missing end is reported before any fault of the node.
const NO_END: &[(usize, u8, u8, usize)] = &[
    (0, 1, 1, 2),
    (3, 0x7f, 0xff, 0),
    (4, 0x7f, 0xff, 0),
    (6, 1, 1, 65_532),
    (9, 1, 1, 2),
    (11, 1, 1, 2),
    (12, 1, 1, 0),
    (13, 1, 1, 2),
    (usize::MAX, 1, 1, 2),
];

/// The type, sub-type and data size of nodes, and why they are not added to the path of `BEFORE`. The lack of
/// room is reported last.
const REFUSED: &[(u8, u8, usize, BuildError)] = &[
    (0x7f, 0xff, 0, BuildError::EndNode),
    (0x7f, 0x00, 0, BuildError::EndNode),
    (0x7f, 0x01, 1, BuildError::EndNode),
    (0x7f, 0x01, 65_532, BuildError::EndNode),
    (1, 1, 65_532, BuildError::NodeTooLong),
    (1, 1, 65_531, BuildError::BufferTooSmall(65_545)),
    (1, 1, 0, BuildError::BufferTooSmall(14)),
    (0x7f, 0x01, 0, BuildError::BufferTooSmall(14)),
];

#[test]
fn refused(rt: HostRuntime) -> Result<(), Fail> {
    let mut buffer = BEFORE;
    for &(len, device_type, sub_type, count) in NO_END {
        let data = vec![in rt.alloc(); 0u8; count]?;
        let want = GrowError::Path(DevicePathError {
            cause: NodeError::Missing,
            offset: len,
        });
        let added = push_at_in_buf(&mut buffer, len, &node_of(device_type, sub_type, &data));
        assert_eq!(rt; added, Err(want), "{len}");
        assert_eq!(rt; buffer, BEFORE, "{len}");
    }
    for &(device_type, sub_type, count, want) in REFUSED {
        let data = vec![in rt.alloc(); 0u8; count]?;
        let added = push_at_in_buf(&mut buffer, 10, &node_of(device_type, sub_type, &data));
        assert_eq!(rt; added, Err(GrowError::Build(want)), "{count}");
        assert_eq!(rt; buffer, BEFORE, "{count}");
    }
    Ok(())
}

/// Bytes before the end node may be anything, and bytes after the path are not written.
#[test]
fn after_any_bytes(rt: HostRuntime) {
    let mut buffer = [0, 1, 2, 0x7f, 0xff, 4, 0, 9, 9, 9, 9, 9, 9, 9];
    let added = push_at_in_buf(&mut buffer, 7, &node_of(1, 1, &[0, 0x1f]));
    assert_eq!(rt; added, Ok(13));
    let want = [0, 1, 2, 1, 1, 6, 0, 0, 0x1f, 0x7f, 0xff, 4, 0, 9];
    assert_eq!(rt; buffer, want);
}
