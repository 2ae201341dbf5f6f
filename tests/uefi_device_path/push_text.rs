//! Texts whose nodes are appended to the path at the start of a buffer, in the printed form and as people
//! write them: what the buffer contains afterwards, for each size of the buffer.

use crate::node_text::REGULAR;
use crate::{lenient_reader, path_reader};
use for_tests::{END, bytes, holds, repeated, split_row};
use std::alloc::Global;
use std::fmt::Display;
use std::test::Fail;
use uefi_device_path::{
    DevicePathBuf, PushTextError, TextStyle, Utf16Text, push_any_text_in_buf,
    push_lenient_text_in_buf, push_styled_text_in_buf, push_text_in_buf, units_within,
};

/// Returns the path of a PCI device and the nodes with these bytes.
fn path_of(alloc: Global, nodes: &[u8]) -> Result<Vec<u8>, Fail> {
    let mut path = Vec::from_slice(alloc, &[1, 1, 6, 0, 0, 0x1f])?;
    path.extend_from_slice(nodes)?;
    path.extend_from_slice(END)?;
    Ok(path)
}

/// The result of a call, with its error as a text.
type Shown<T> = Result<Result<T, String>, Fail>;

/// Converts a result.
fn shown<T, E: Display + Drop>(alloc: Global, it: Result<T, E>) -> Shown<T> {
    match it {
        Ok(value) => Ok(Ok(value)),
        Err(error) => Ok(Err(format!(in alloc; "{error}")?)),
    }
}

/// Appends the nodes of a text.
fn push(alloc: Global, exact: bool, old: &mut [u8], text: &str) -> Shown<usize> {
    if exact {
        return shown(alloc, push_text_in_buf(old, text));
    }
    shown(alloc, push_lenient_text_in_buf(old, text))
}

/// Returns whether a text extends the path of a PCI device to `path` in a buffer of `len` bytes, or is
/// refused because they are too few.
fn is_added(alloc: Global, exact: bool, len: usize, text: &str, path: &[u8]) -> Result<bool, Fail> {
    let device = path_of(alloc, &[])?;
    let mut buffer = Vec::from_slice(alloc, &device)?;
    buffer.resize(len, 9)?;
    let added = push(alloc, exact, &mut buffer, text)?;
    Ok(if len < path.len() {
        let needed = format!(in alloc;
            "buffer too small: the device path needs {} bytes",
            path.len()
        )?;
        added == Err(needed) && holds(&buffer, &device, &9)
    } else {
        added == Ok(path.len()) && holds(&buffer, path, &9)
    })
}

/// Returns the first line of a table whose text is not appended correctly, in buffers of any size that has
/// room for the device.
fn find_wrong(alloc: Global, exact: bool, table: &str) -> Result<Option<&str>, Fail> {
    for line in table.split('\n') {
        let (nodes, text) = split_row(line);
        let path = path_of(alloc, &bytes(alloc, nodes)?)?;
        for room in 10..path.len() + 2 {
            if !is_added(alloc, exact, room, text, &path)? {
                return Ok(Some(line));
            }
        }
    }
    Ok(None)
}

#[test]
fn at_each_room(rt: HostRuntime) -> Result<(), Fail> {
    for (exact, table) in [
        (true, path_reader::TEXTS),
        (true, REGULAR),
        (false, lenient_reader::BY_LIBEFIVAR),
        (false, lenient_reader::BY_PEOPLE),
    ] {
        assert_eq!(rt; find_wrong(rt.alloc(), exact, table)?, None);
    }
    Ok(())
}

/// File names on both sides of the length up to which a text is read only once.
#[test]
fn long_names(rt: HostRuntime) -> Result<(), Fail> {
    let alloc = rt.alloc();
    for count in 119..129u16 {
        let name = repeated(alloc, "a", u64::from(count))?;
        let text = format!(in alloc; "\\{name}")?;
        let len = count.saturating_mul(2).saturating_add(8).to_le_bytes();
        let mut nodes = Vec::from_slice(alloc, &[4, 4, len[0], len[1], 0x5c, 0])?;
        for _ in 0..count {
            nodes.extend_from_slice(&[0x61, 0])?;
        }
        nodes.extend_from_slice(&[0, 0])?;
        let path = path_of(alloc, &nodes)?;
        for room in [
            10,
            path.len().saturating_sub(1),
            path.len(),
            path.len().saturating_add(1),
        ] {
            assert!(rt;
                is_added(alloc, true, room, &text, &path)?,
                "{count} in {room}"
            );
        }
    }
    Ok(())
}

/// Returns why a text is refused, or `None` if the reader in memory and a full buffer disagree, or a buffer
/// without a path does not get its own error.
fn refusal(alloc: Global, exact: bool, text: &str) -> Result<Option<String>, Fail> {
    let (mut buffer, mut no_path) = ([0x7f, 0xff, 4, 0], [0x7f, 0xff, 3, 0]);
    let added = push(alloc, exact, &mut buffer, text)?.err();
    let unread = push(alloc, exact, &mut no_path, text)?.err();
    let read = if exact {
        shown(alloc, DevicePathBuf::from_text(alloc, text))?.err()
    } else {
        shown(alloc, DevicePathBuf::from_lenient_text(alloc, text))?.err()
    };
    let is_first = unread.as_deref()
        == Some("device path node is shorter than its header at offset 2");
    let is_so = is_first && added == read && buffer == [0x7f, 0xff, 4, 0];
    Ok(if is_so { added } else { None })
}

#[test]
fn refused(rt: HostRuntime) -> Result<(), Fail> {
    for line in path_reader::REFUSED.split('\n') {
        let (place, texts) = split_row(line);
        for text in texts.split(" | ") {
            let want = format!(in rt.alloc();
                "invalid node at offset {place}: expected the exact printed form at offset {place}"
            )?;
            assert_eq!(rt; refusal(rt.alloc(), true, text)?, Some(want), "{text}");
        }
    }
    for row in lenient_reader::REFUSED.split(" | ") {
        let (row, expected) = row.rsplit_once(": ").unwrap_or((row, ""));
        let (node, row) = split_row(row);
        let (byte, text) = split_row(row);
        let want = format!(in rt.alloc();
            "invalid node at offset {node}: expected {expected} at offset {byte}"
        )?;
        assert_eq!(rt; refusal(rt.alloc(), false, text)?, Some(want), "{text}");
    }
    Ok(())
}

/// Returns the units of a text in UTF-16.
fn units_of(alloc: Global, text: &str) -> Result<Vec<u16>, Fail> {
    let mut units = Vec::new(alloc);
    for unit in text.encode_utf16() {
        units.push(unit)?;
    }
    Ok(units)
}

/// Appends the nodes of a text in UTF-8 and in UTF-16. Returns the results, and whether the buffers are
/// the same.
fn push_both(
    style: TextStyle,
    text: &str,
    units: &[u16],
) -> Option<
    (
        Result<usize, PushTextError>,
        Result<usize, PushTextError>,
        bool,
    ),
> {
    let (mut bytes, mut others) = ([9; 4096], [9; 4096]);
    bytes[..4].copy_from_slice(END);
    others[..4].copy_from_slice(END);
    let read = push_styled_text_in_buf(style, &mut bytes, text);
    let wide = push_any_text_in_buf(style, &mut others, Utf16Text::new(&units).ok()?);
    Some((read, wide, bytes == others))
}

/// Returns the first line of a table whose text is read in UTF-16 otherwise than in UTF-8.
fn find_other(alloc: Global, style: TextStyle, table: &str) -> Result<Option<&str>, Fail> {
    for line in table.split('\n') {
        let (_, texts) = split_row(line);
        for text in texts.split(" | ") {
            let units = units_of(alloc, text)?;
            let Some((read, wide, is_same)) = push_both(style, text, &units) else {
                return Ok(Some(line));
            };
            if read != wide || !is_same {
                return Ok(Some(line));
            }
        }
    }
    Ok(None)
}

#[test]
fn in_utf16(rt: HostRuntime) -> Result<(), Fail> {
    for (style, table) in [
        (TextStyle::Printed, path_reader::TEXTS),
        (TextStyle::Printed, path_reader::REFUSED),
        (TextStyle::Printed, REGULAR),
        (TextStyle::Lenient, lenient_reader::BY_LIBEFIVAR),
        (TextStyle::Lenient, lenient_reader::BY_PEOPLE),
        (TextStyle::Lenient, lenient_reader::REFUSED),
    ] {
        assert_eq!(rt; find_other(rt.alloc(), style, table)?, None);
    }
    Ok(())
}

/// The places of a fault count units, and a part of a character counts as none of it. A surrogate without a
/// partner is found wherever it is.
#[test]
fn places_in_utf16(rt: HostRuntime) -> Result<(), Fail> {
    let units = units_of(rt.alloc(), "\\\u{e9}\u{4e00}\u{1f600}/Pci(256,0)")?;
    let wanted = [0, 1, 1, 2, 2, 2, 3, 3, 3, 3, 5, 6];
    for bytes in 0..wanted.len() {
        assert_eq!(rt; units_within(&units, bytes), wanted[bytes], "{bytes}");
    }
    for (units, place) in [
        ([0xd800, 0xdc00, 0xd800], 2),
        ([0xdc00, 0xd800, 0xdc00], 0),
        ([0xfffd, 0xdbff, 0xe000], 1),
        ([0xd7ff, 0xe000, 0xdfff], 2),
    ] {
        assert!(rt;
            Utf16Text::new(&&units[..]).err() == Some(place) && units_within(&units, 99) == place
        );
    }
    Ok(())
}

/// A node has at most 65,531 bytes of data. Its name has at most 32,764 units, including the backslash before
/// it. A path has any number of nodes.
#[test]
fn long_texts(rt: HostRuntime) -> Result<(), Fail> {
    let alloc = rt.alloc();
    let mut node = Vec::from_slice(alloc, &[9, 200, 0xff, 0xff])?;
    node.resize(65_535, 0xab)?;
    let path = path_of(alloc, &node)?;
    let digits = "AB".repeat(alloc, 65_531)?;
    let text = format!(in alloc; "Path(9,200,{digits})")?;
    let written = format!(in alloc; "path( 9,200,\t{digits} )")?;
    for room in [path.len().saturating_sub(1), path.len()] {
        assert!(rt;
            is_added(alloc, true, room, &text, &path)?
                && is_added(alloc, false, room, &written, &path)?
        );
    }
    let longer = format!(in alloc; "Path(9,200,{digits}AB)")?;
    let want =
        "invalid node at offset 0: expected a form that describes the whole node, of at most 65,535 bytes at \
offset 131076";
    let exact = "invalid node at offset 0: expected the exact printed form at offset 0";
    assert!(rt;
        refusal(alloc, true, &longer)?.as_deref() == Some(exact)
            && refusal(alloc, false, &longer)?.as_deref() == Some(want)
    );

    let ends = "7f010400".repeat(alloc, 50_000)?;
    let path = path_of(alloc, &bytes(alloc, &ends)?)?;
    let text = ",".repeat(alloc, 50_000)?;
    assert!(rt;
        is_added(alloc, true, path.len().saturating_sub(1), &text, &path)?
            && is_added(alloc, true, path.len() + 1, &text, &path)?
    );

    let mut node = Vec::from_slice(alloc, &[4, 4, 0xfe, 0xff, 0x5c, 0, 0x62, 0, 0x5c, 0])?;
    for _ in 0..32_761 {
        node.extend_from_slice(&[0x61, 0])?;
    }
    node.extend_from_slice(&[0, 0])?;
    let path = path_of(alloc, &node)?;
    let letters = "a".repeat(alloc, 32_761)?;
    let name = format!(in alloc; "b\\{letters}")?;
    let filed = format!(in alloc; "file({name})")?;
    assert!(rt;
        is_added(alloc, false, path.len(), &name, &path)?
            && is_added(alloc, false, path.len(), &filed, &path)?
    );
    let want = "invalid node at offset 0: expected the name of a file at offset 0";
    let longer = format!(in alloc; "{name}a")?;
    assert_eq!(rt; refusal(alloc, false, &longer)?.as_deref(), Some(want));
    Ok(())
}
