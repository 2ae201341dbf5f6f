//! Device paths read from texts that people write. The bytes follow libefivar, which efibootmgr uses, and the
//! layouts of the UEFI Specification 2.10, section 10.3.

use crate::pasted_texts::{OMITTED, READ_BY_EDK2, READ_BY_PEOPLE, fault_words};
use for_tests::{bytes, split_row};
use std::alloc::Global;
use std::test::Fail;
use uefi_device_path::{DevicePathBuf, PathTextError};

/// Paths made by libefivar, without the end node, and the texts that it prints for them.
pub(crate) const BY_LIBEFIVAR: &str = "\
02010c00d041030a0000000001010600021f03120a000000ffff000004012a000100000000080000000000000040\
    0600000000001032547698badcfe01020304050607080202040430005c004500460049005c0042004f004f005400\
    5c0042004f004f0054005800360034002e004500460049000000 \
    PciRoot(0x0)/Pci(0x1f,0x2)/Sata(0,65535,0)\
    /HD(1,GPT,76543210-ba98-fedc-0102-030405060708,0x800,0x64000)/File(\\EFI\\BOOT\\BOOTX64.EFI)
02010c00d041030a0000000001010600021f03120a0003000100020004012a000100000000080000000000000040\
    0600000000001032547698badcfe01020304050607080202040446005c004500460049005c004d00690063007200\
    6f0073006f00660074005c0042006f006f0074005c0062006f006f0074006d006700660077002e00650066006900\
    0000 \
    PciRoot(0x0)/Pci(0x1f,0x2)/Sata(3,1,2)\
    /HD(1,GPT,76543210-ba98-fedc-0102-030405060708,0x800,0x64000)/File(\\EFI\\Microsoft\\Boot\\bootmgfw.efi)
04012a0001000000000800000000000000400600000000001032547698badcfe0102030405060708020204043400\
    5c004500460049005c00640065006200690061006e005c0067007200750062007800360034002e00650066006900\
    0000 \
    HD(1,GPT,76543210-ba98-fedc-0102-030405060708,0x800,0x64000)/File(\\EFI\\debian\\grubx64.efi)
040432005c004500460049005c0042004f004f0054005c0042004f004f00540041004100360034002e0045004600\
    49000000 \
    File(\\EFI\\BOOT\\BOOTAA64.EFI)
02010c00d041080a07000000 PcieRoot(0x7)
02010c00d041010404000000 Acpi(0x040141d0,0x4)
02010c00d0410c0c05000000 Acpi(0x0c0c41d0,0x5)
02010c007856341206000000 Acpi(0x12345678,0x6)
01041a0078563412bc9af0de341256789abcdef0525400abcdef \
    VenHw(12345678-9abc-def0-3412-56789abcdef0,525400abcdef)
030a140078563412bc9af0de341256789abcdef0 VenMsg(12345678-9abc-def0-3412-56789abcdef0)
0403150078563412bc9af0de341256789abcdef052 VenMedia(12345678-9abc-def0-3412-56789abcdef0,52)";

/// Texts that people write, and the bytes of their nodes.
pub(crate) const BY_PEOPLE: &str = "\
04012a00020000003f000000000000000000000010000000103254760000000000000000000000000101 \
    HD(2,MBR,0x76543210,0x3f,0x1000000000)
02010c00d041030a00000000 PciRoot(0)
02010c00d041030a00000000 acpi(pnp0a03,0)
01010600021f pci( 31 , 2 )
01010600021f Pci(0x01F,0x02)
03120a000000ffff0000 Sata(0x0)
03120a000100ffff0000 SATA(1,65535,0)
030506000100 USB(1,0)
030506000100 usb(0X1)
030f0b00ffffffff08ffff UsbClass(0xFFFF,0xffff,8)
030f0b00ffffffff080650 usbmassstorage(65535,0xffff,6,80)
031d050000 EMMC(0)
03110500ff unit(255)
031406006400 Vlan(0x64)
03171000010000001c03b0715b382500 nvme(1,00-25-38-5b-71-b0-03-1c)
030b2500525400abcdef000000000000000000000000000000000000000000000000000001 MAC(525400ABCDEF,0x1)
030b2500525400abcdef000000000000000000000000000000000000000000000000000001 mac(525400abcdef,1)
030e13000000000000c2010000000000080101 uart(115200,8,n,1)
030c1b000000000000000000000000000600000000000000000000 IPv4(0.0.0.0,tcp,dhcp,0.0.0.0,0.0.0.0,0.0.0.0)
04012a00010000000000000000000000000000000000000078563412bc9af0de123456789abcdef00202 \
    HD(1,GPT,12345678-9abc-def0-1234-56789abcdef0)
0406140078563412bc9af0de123456789abcdef0 fvfile(12345678-9abc-def0-1234-56789abcdef0)
0104160078563412bc9af0de123456789abcdef0aabb  VenHw(12345678-9ABC-DEF0-1234-56789ABCDEF0,aabb)
01010500ab path(1,1,ab)
09fa0500ab path(0x09, 0xfa, ab)
09fa0400 Path(009,250)
04041a005c004500460049005c0078002e006500660069000000 EFI\\x.efi
04041a005c004500460049005c0078002e006500660069000000 file(\\EFI\\x.efi)
04012a0002000000000000000000000000000000000000000df0ad0b0000000000000000000000000101 \
    hd(2,mbr,0x0badf00d)
04040e005c0061005c0062000000 a\\b
02010c00d041030a0000000001010600021f7f01040004040a005c0061000000 pciroot(0)/pci(0x1f,2),file(a)";

/// Texts that programs print and people paste, and the bytes of their nodes: by the layouts of the
/// specification and, if libefivar prints such a text, by the bytes that it prints so.
const PASTED: &str = "\
04071400c9bdb87cebf8344faaea3ee4af6516a1 FvVol(7cb8bdc9-f8eb-4f34-aaea-3ee4af6516a1)
030a14005347c1e0bef9d2119a0c0090273fc14d VenPcAnsi()
030a14006560a6df19b4d3119a2d0090273fc14d venvt100()
030a14000bc7ae7be057764c8e872f9e28088343 VenVt100Plus()
030a1400d6a015adec8bcf4aa073d01de77e2d88 VENUTF8()
030a1400d2e8a4eb5838ec41a2812647ba9660d0 DebugPort( )
030a18009d9a49372f54894ca02635da142094e401000000 uartflowctrl(hardware)
04012a000c0000003f0000000000000000200300000000007856340000000000000000000000000001\
    01 HD(12,MBR,0x345678,0x3f,0x32000)
04012a000100000000000000000000000000000000000000010000000000000000000000000000000101 hd(1,mbr,0x1)
030b2500525400abcdef000000000000000000000000000000000000000000000000000001 MAC(52:54:00:ab:cd:ef,1)
030b2500525400abcdef000000000000000000000000000000000000000000000000000000 mac(52-54-00-AB-CD-EF)
030b2500525400abcdef000000000000000000000000000000000000000000000000000000 MAC(525400ABCDEF)
030c1b0000000000c0a80001000000000000000000000000000000 IPv4(192.168.0.1)
03171000010000000000000000000000 NVMe(1)
031b0a00001122334455 Bluetooth(00:11:22:33:44:55)
031e0b0000112233445501 BluetoothLE(00:11:22:33:44:55,1)
0406140078563412bc9af0de123456789abcdef0 FvFile({12345678-9ABC-DEF0-1234-56789ABCDEF0})
0301080000000000 Ata(0x0)
0301080000000000 ata(primary,master)
0301080000010000 Ata(Primary,Slave)
0301080001000000 Ata(Secondary,Master)
0301080001010000 Ata(Secondary,Slave)
030d3c000000000000000000000000000000000020010db80000000000000000000000010000\
    00000000004000000000000000000000000000000000 \
    IPv6(2001:0DB8:0000:0000:0000:0000:0000:0001)
02010c00d041030a0000000001010600021f PciRoot(0x0) / Pci(0x1F,0x2)
02010c00d041030a0000000001010600021f7f01040004040a005c0061000000 PciRoot(0x0)/Pci(0x1F,0x2) , \\a
04042c005c004500460049005c00780020002800780038003600290029005c0061002e006500660069000000 \
    File(\\EFI\\x (x86))\\a.efi)
04041a005c004500460049005c0078002e006500660069000000  EFI\\x.efi
04041a005c004500460049005c0078002e006500660069000000  \\EFI\\x.efi
02010c00d041030a00000000010106000101 /PciRoot(0x0)/Pci(0x1,0x1)
01041400b9731de684a3cc4aaeab82e828f3628b031a050000\
    04012a0001000000000800000000000000100000000000007856341200000000000000000000000001\
    01 /VenHw(e61d73b9-a384-4acc-aeab-82e828f3628b)/SD(0)/HD(1,MBR,0x12345678,0x800,0x1000)
04041a005c004500460049005c0078002e006500660069000000 /\\EFI\\x.efi
04041a005c004500460049005c0078002e006500660069000000 \t /EFI\\x.efi
02010c00d041030a00000000010106000101  / PciRoot(0x0)/Pci(0x1,0x1)
02010c00d041030a00000000010106000101 \"PciRoot(0x0)/Pci(0x1,0x1)\"
02010c00d041030a00000000010106000101 \t\" PciRoot(0x0)/Pci(0x1,0x1)\t\"\t
02010c00d041030a00000000010106000101 '/PciRoot(0x0)/Pci(0x1,0x1)'
02010c00d041030a000000007f01040004040a005c0061000000 \" / PciRoot(0x0),\\a\"
04041a005c004500460049005c0078002e006500660069000000 '\\EFI\\x.efi'
04041a005c004500460049005c0078002e006500660069000000 \"EFI\\x.efi\"
040418005c0069007400270073002e006500660069000000 '\\it's.efi'";

/// A text with blanks and line ends around its nodes.
const AROUND: &str = "\r\n PciRoot(0x0)\t/\n  Pci(0x1F,\n0x2)\r\n";

#[test]
fn blanks_around(rt: HostRuntime) -> Result<(), Fail> {
    let nodes = [
        2, 1, 12, 0, 0xd0, 0x41, 3, 10, 0, 0, 0, 0, 1, 1, 6, 0, 2, 0x1f,
    ];
    let read = DevicePathBuf::from_lenient_text(rt.alloc(), AROUND);
    assert!(rt; is_read(rt.alloc(), read, &nodes)?);
    Ok(())
}

/// Nodes that only libefivar prints in this form: bytes, and their text.
const BY_LIBEFIVAR_ALONE: &str = "\
031710000c000000002538b391b04c5d NVMe(0xc,00-25-38-B3-91-B0-4C-5D)
03171000010000000025385b71b012f4 nvme(0x1, 00-25-38-5b-71-b0-12-f4)
0301080001000c00 Ata(1,0,12)";

/// Returns whether a text is read as the path of these bytes, and the text of that path is read as the same
/// path.
fn is_read(
    alloc: Global,
    read: Result<DevicePathBuf<Global>, PathTextError>,
    nodes: &[u8],
) -> Result<bool, Fail> {
    let path = read?;
    let path = path.as_device_path();
    let again = DevicePathBuf::from_text(alloc, path.to_string(alloc)?.as_str())?;
    let end: &[u8] = &[0x7f, 0xff, 4, 0];
    Ok(path.as_bytes().strip_prefix(nodes) == Some(end) && again.as_device_path() == path)
}

#[test]
fn texts(rt: HostRuntime) -> Result<(), Fail> {
    for table in [
        BY_LIBEFIVAR,
        BY_PEOPLE,
        PASTED,
        READ_BY_EDK2,
        READ_BY_PEOPLE,
        OMITTED,
    ] {
        for line in table.split('\n') {
            let (nodes, text) = split_row(line);
            let nodes = bytes(rt.alloc(), nodes)?;
            let read = DevicePathBuf::from_lenient_text(rt.alloc(), text);
            let is_right = is_read(rt.alloc(), read, &nodes)?;
            assert!(rt; is_right, "{line}");
        }
    }
    Ok(())
}

#[test]
fn texts_of_libefivar(rt: HostRuntime) -> Result<(), Fail> {
    for table in [BY_LIBEFIVAR, BY_LIBEFIVAR_ALONE] {
        for line in table.split('\n') {
            let (nodes, text) = split_row(line);
            let nodes = bytes(rt.alloc(), nodes)?;
            let read = DevicePathBuf::from_libefivar_text(rt.alloc(), text);
            let is_right = is_read(rt.alloc(), read, &nodes)?;
            assert!(rt; is_right, "{line}");
        }
    }
    Ok(())
}

/// Texts that libefivar prints for several different nodes, texts that it never prints, and the words of the
/// error.
const REFUSED_OF_LIBEFIVAR: &str = "\
SAS(5006016047273469,12,34,NoTopology): invalid node at offset 0: expected a form that describes \
    the whole node, of at most 65,535 bytes at offset 4
\\a/UsbClass(781,5583,255,18): invalid node at offset 3: expected a form that describes \
    the whole node, of at most 65,535 bytes at offset 12
Fibre(5,0): invalid node at offset 0: expected a form that describes the whole node, of at \
    most 65,535 bytes at offset 6
PciRoot(12): invalid node at offset 0: expected a number after `0x` at offset 8
pcieroot( ): invalid node at offset 0: expected a number after `0x` at offset 10
NVMe(1,00-25-38-5B-71-B0-03-1C): invalid node at offset 0: expected the exact printed form at offset 5
NVMe(0x1,00-25-38-5B-71-B0-03-1C)x: invalid node at offset 0: expected `/`, `,` or the end of \
    the text at offset 33
Pci(256,0): invalid node at offset 0: expected a number up to 0xFF at offset 4";

#[test]
fn refused_texts_of_libefivar(rt: HostRuntime) -> Result<(), Fail> {
    for line in REFUSED_OF_LIBEFIVAR.split('\n') {
        let Some((text, words)) = line.split_once(": ") else {
            return Err(Fail::from("a row without words"));
        };
        let read = DevicePathBuf::from_libefivar_text(rt.alloc(), text);
        assert_eq!(rt; fault_words(rt.alloc(), read)?.as_str(), words);
    }
    Ok(())
}

/// Refused texts. Each follows the offset of the node that cannot be read and the offset of the wrong byte,
/// and precedes what is expected there.
pub(crate) const REFUSED: &str = "\
11 11 PciRoot(0)/: the name of a node | 0 12 Uart(9600,8,Q,1): a parity (D, N, E, O, M, S or x) and `,` | \
0 0 PcRoot(0): the name of a node, such as `PciRoot(0x` | \
0 5 Uart(fast,8,N,1): DEFAULT or a number up to 0xFFFFFFFFFFFFFFFF | \
6 6 \\a/\\b//c: the name of a node | \
11 20 PciRoot(0)/Pci(0x1F,0x12345678901)/Sata(0x0): a number up to 0xFF | \
0 10 PciRoot(0)x: `/`, `,` or the end of the text | 0 11 Dns(1.1.1.1,1.1.1.256): the exact printed form | \
9 9 Unit(1) /a: the name of a file | 0 7 Unit(1) a: `/`, `,` or the end of the text | \
0 9 HD(1,GPT,1234,0x800,0x64000): 8 hexadecimal digits | \
0 9 PciRoot(0: `)` | 0 43 VenHw(12345678-9abc-def0-1234-56789abcdef0,): 2 hexadecimal digits | \
11 18 PciRoot(0)/Pci(1,2,3): `)` | \
0 14 Path(1,1,0102): a form that describes the whole node, of at most 65,535 bytes | \
0 7 Path(9,0x100): a number up to 0xFF | \
0 6 File(a: `)` | 0 7 NVMe(1,0025385b71b0031c): 16 hexadecimal digits in pairs, with dashes between them | \
2 2 ,,(: the name of a node | 0 38 wi-fi(a name of more than thirty-two bytes): `)` | \
0 45 VenHw(12345678-9abc-def0-1234-56789abcdef0,abc): `)` | \
0 17 IPv4(1.2.3.4,TCP,Dynamic,0.0.0.0): `DHCP` or `Static` | \
0 4 Pci(f,0): a number up to 0xFF | 0 14 Uart(9600,8,N,3): stop bits (D, 1, 1.5, 2 or x) and `)` | \
12 20 pci root(0)/pci( 31 ; 2 ): `,` | \
0 7 HD(128,0,1032547698badcfe0102030405060708,0x0,0x0): `GPT` or `MBR` | \
0 7 Sata(0,-1,0): a number up to 0xFFFF | 0 17 HD(1,GPT,12345678_9abc-def0-1234-56789abcdef0): `-` | \
0 12 Ata(Primary,Third,0): `Master` or `Slave` | 0 18 AcpiAdr(0x80010100,1): the exact printed form | \
0 23 SAS(0,0,0,SAS,Internal,Dirct,0,0): `Direct` or `Expanded` | \
11 15 PciRoot(0)/Pci(0x100,0): a number up to 0xFF | \
0 19 MAC(001122334455,2): a form that describes the whole node, of at most 65,535 bytes | 0 13 \
    Acpi(PNP0A03,0x): a number up to 0xFFFFFFFF | \
0 12 uri(http://a\u{7}): `)` | 0 5 file(a\u{7}b): the name of a file | \
0 0 a\u{202e}: the name of a file | 0 0 shim.efi: the name of a file | \
0 0 Pci 0x1F,0x2): the name of a file | 0 0 PciRoot/Pci(0x1,0x0): the name of a file | \
0 0 FS0:\\EFI\\x.efi: the name of a file | 7 7 \\EFI\\a,b.efi: the name of a file | 7 7 \
    \\EFI\\a,b\\c.efi: the name of a file | \
1 1 ,EFI\\a.efi: the name of a file | \
0 0 EFI\\x)\\y: the name of a file | \
0 9 HD(1,MBR,12345678,0x800,0x64000): a number after `0x` | \
0 5 Acpi(12345678,0): an ID such as `PNP0A03`, or `0x` and 8 digits | \
0 25 BluetoothLE(001122334455,10): a number after `0x` | \
0 6 Fibre(5006016047273469,0): a number after `0x` | \
0 11 Fibre(0x1, 5006016047273469): a number after `0x` | \
0 4 SAS(5000,0,0,NoTopology,0,0,0): a number after `0x` | \
0 9 UsbClass(781,5583,255,255): a number after `0x` | \
0 8 PciRoot(): a number after `0x` | 0 5 Sata(): a number after `0x` | \
0 0 /: the name of a node | 0 0 //PciRoot(0): the name of a node | 0 0 /,PciRoot(0): the name of a node | \
0 0 / : the name of a node | 0 0 / /PciRoot(0): the name of a node | \
1 1 /PcRoot(0): the name of a node, such as `PciRoot(0x` | \
1 5 /Pci(0x100,0): a number up to 0xFF | 1 1 /\"\\a\": the name of a file | \
11 11 PciRoot(0),/\\a: the name of a node | \
0 0 \": the name of a file | 0 0 \"\": the name of a file | 0 0 \" \": the name of a file | \
0 0 ': the name of a file | 0 0 '': the name of a file | 0 0  ' ': the name of a file | \
0 0 \"PciRoot(0): the name of a node, such as `PciRoot(0x` | \
0 0 'PciRoot(0)\": the name of a node, such as `PciRoot(0x` | \
0 0 \"PciRoot(0)\"x: the name of a node, such as `PciRoot(0x` | 0 0 \"\\a\",\\b: the name of a file | \
1 1 \"/\": the name of a node | 2 2  \"/,\\a\": the name of a node | 1 1 '//\\a': the name of a node | \
12 16 \"PciRoot(0)/Pci(0x100,0)\": a number up to 0xFF | 5 5 \"\\a\"/\"\\b\": the name of a file";
