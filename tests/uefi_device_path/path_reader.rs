//! Device paths read from their texts: the bytes of each, by the layouts of the UEFI Specification 2.10,
//! section 10.3, and the offset of the fault in refused texts.

use crate::node_text::{REGULAR, sas_lines};
use for_tests::{bytes, split_row};
use std::alloc::Global;
use std::test::Fail;
use uefi_device_path::DevicePathBuf;

/// The bytes of nodes without the end node, and their text: devices as firmware prints them before a
/// partition, partitions, file names, and instances. The first line is the empty path.
pub(crate) const TEXTS: &str = "
02010c00d041030a0000000001010600021f PciRoot(0x0)/Pci(0x1F,0x2)
02010c00d041080a78563412 PcieRoot(0x12345678)
02010c00d041020c0a000000 Acpi(PNP0C02,0xA)
02010c00d141030a00000000 Acpi(0x0A0341D1,0x0)
030506000300 USB(0x3,0x0)
03120a000100ffff0000 Sata(0x1,0xFFFF,0x0)
03171000010000001c03b0715b382500 NVMe(0x1,00-25-38-5B-71-B0-03-1C)
01010500ab Path(1,1,AB)
09c80400 Path(9,200)
04012a0001000000000800000000000000001000000000000123456789abcdef0123456789abcdef0202 \
    HD(1,GPT,67452301-AB89-EFCD-0123-456789ABCDEF,0x800,0x100000)
04012a00020000003f000000000000000100000000000000d3c2b1a00000000000000000000000000101 \
    HD(2,MBR,0xA0B1C2D3,0x3F,0x1)
04041a005c004500460049005c00e90028003dd800de29000000 \\EFI\\é(😀)
0305060001007f0104007f01040004040a005c0061000000 USB(0x1,0x0),,\\a";

/// Returns whether a text is read as the path of these bytes, and that path prints the text.
fn is_read(alloc: Global, text: &str, nodes: &[u8]) -> Result<bool, Fail> {
    let path = DevicePathBuf::from_text(alloc, text)?;
    let path = path.as_device_path();
    let end: &[u8] = &[0x7f, 0xff, 4, 0];
    Ok(path.as_bytes().strip_prefix(nodes) == Some(end) && path.to_string(alloc)?.as_str() == text)
}

/// Returns the first line of a table whose text is not read as its bytes, or not printed again.
fn find_unread(alloc: Global, table: &str) -> Result<Option<&str>, Fail> {
    for line in table.split('\n') {
        let (nodes, text) = split_row(line);
        if !is_read(alloc, text, &bytes(alloc, nodes)?)? {
            return Ok(Some(line));
        }
    }
    Ok(None)
}

#[test]
fn texts(rt: HostRuntime) -> Result<(), Fail> {
    let sas = sas_lines(rt.alloc())?;
    for table in [TEXTS, REGULAR, sas.as_str()] {
        assert_eq!(rt; find_unread(rt.alloc(), table)?, None);
    }
    Ok(())
}

/// Refused texts, after the offset of the first node that cannot be read.
pub(crate) const REFUSED: &str = "\
13 PciRoot(0x0)/ | PciRoot(0x0)//Pci(0x0,0x0) | PciRoot(0x0)/Pci(0x0,0x0)  | PciRoot(0x0)/Pci(0x1f,0x2)
13 PciRoot(0x0)/Pci(0x1F,0x100) | USB(0x1,0x0),USB(0x1)
14 ,PciRoot(0x0),Pci(0x0,0x0)x,
0 PciRoot(0x0)Pci(0x0,0x0) | /Pci(0x0,0x0) | PciRoot(0x00) | Acpi(PNP0A03,0x0) | Acpi(0x0A0341D0,0x0)
0 Uart(0,8,N,1) | Uart(115200,8,N,1.6) | AcpiAdr(0x1,) | AcpiAdr() | Dns(8.8.8.8,) | Dns(8.8.8.256)
0 Dns(8.8.8.8,0001:0000:0000:0000:0000:0000:0000:0001) | Uri(a)b) | AcpiEx(@@@0000,0,0x0,,,) | EFI | \\a\r
0 SasEx(0x0000000000000001,0x0000000000000002,0x0,SAS,Internal,Direct,0x101) | \\\u{202e}fie.exe
0 UsbWwid(0x1,0x2,0x3,\"\u{e9}\") | UsbWwid(0x1,0x2,0x3,\"a\"b\") | HD(01,MBR,0xA0B1C2D3,0x3F,0x1)
0 Path(1,1,ABCD) | Path(127,1) | Path(256,0) | BBS(HD,disk) | BBS(0x2,disk,0x0) | BBS(HD,disk,0x01)
2 ,,/
6 \\a/\\b/c";
