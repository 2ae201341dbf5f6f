//! Nodes that are checked one by one, in bytes that follow the UEFI Specification, section 10.3.1.
//! `from_bytes` of a path returns the same errors.

use for_tests::{bytes, says, split_row};
use std::alloc::Global;
use std::fmt::Write;
use std::test::Fail;
use uefi_device_path::{AllowShortcuts, CheckedNodes, DevicePath, DisplayOnly};

/// Bytes in hexadecimal, and what `CheckedNodes` returns: each node, an error, and how many bytes follow the
/// path.
const ROWS: &str = " device path has no end node at offset 0
7fff0400 0 more
7fff04007fff 2 more
01010600021f7fff04006f Pci(0x1F,0x2); 1 more
01010600021f7f0104000101060003007fff0400 Pci(0x1F,0x2); Path(127,1); Pci(0x0,0x3); 0 more
01010600021f010106000300 Pci(0x1F,0x2); Pci(0x0,0x3); device path has no end node at offset 12
01010600021f010103007fff0400 Pci(0x1F,0x2); device path node is shorter than its header at offset 8
01010600021f0101ff007fff0400 Pci(0x1F,0x2); \
    device path node extends past the end of the data at offset 8
01010600021f7f0004007fff0400 Pci(0x1F,0x2); \
    end node has an unknown sub-type at offset 7
01010600021f7fff05007fff0400 Pci(0x1F,0x2); end node has data at offset 8
01010600021f7fff04 Pci(0x1F,0x2); device path ends within a node header at offset 6
7f020000 end node has an unknown sub-type at offset 1
010100007fff0400 device path node is shorter than its header at offset 2
7f010001 end node has data at offset 2
010104000101ffff0000 Path(1,1); device path node extends past the end of the data at offset 6";

/// Returns the text of each node, the error and the number of bytes after the path.
fn told(alloc: Global, bytes: &[u8]) -> Result<String, Fail> {
    let mut text = String::new(alloc);
    let mut nodes = CheckedNodes::new(bytes);
    // No row has more nodes.
    for _ in 0..8 {
        let Some(checked) = nodes.next() else {
            break;
        };
        match checked {
            Ok(node) => {
                let shown = node.display(DisplayOnly(false), AllowShortcuts(false));
                write!(text, "{shown}; ")?;
            }
            Err(error) if DevicePath::from_bytes(bytes).err() == Some(error) => {
                let printed = error.to_string(alloc)?;
                text.push_str(if says(alloc, &error, &printed) {
                    &printed
                } else {
                    "?"
                })?;
            }
            Err(_) => text.push_str("another fault")?,
        }
        if nodes.rest().is_some() {
            return Err(Fail::from("no rest before the end"));
        }
    }
    if nodes.next().is_some() {
        return Err(Fail::from("no node after the end or a fault"));
    }
    if let Some(rest) = nodes.rest() {
        let len = rest.len();
        write!(text, "{len} more")?;
    }
    Ok(text)
}

#[test]
fn checked_nodes(rt: HostRuntime) -> Result<(), Fail> {
    for line in ROWS.split('\n') {
        let (digits, want) = split_row(line);
        let path = bytes(rt.alloc(), digits)?;
        assert!(rt; told(rt.alloc(), &path)?.as_str() == want, "{digits}");
    }
    Ok(())
}
