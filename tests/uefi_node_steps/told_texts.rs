//! Nodes read from texts that people write. The bytes follow the layouts of the UEFI Specification 2.10, section
//! 10.3, and libefivar, which efibootmgr uses.

ghost use Rattle.std.specs.Prelude.{take};

use for_tests::{bytes, split_row};
use std::alloc::Global;
use std::test::Fail;
use uefi_node_steps::exact::exact_rest;
use uefi_node_steps::steps::{Expected, Form, Stop};
use uefi_node_steps::table;
use uefi_node_steps::texts::Sink;
use uefi_node_steps::told::{put_data, told_node};

/// The first bytes of data, and how many there are.
#[derive(Drop)]
pub(crate) struct Data {
    pub(crate) bytes: [u8; 256],
    pub(crate) len: usize,
}

impl Data {
    /// Returns no data.
    pub(crate) fn new() -> Self {
        Data {
            bytes: [0; 256],
            len: 0,
        }
    }
}

impl Sink for Data {
    ghost content = { λ it. take it.len it.bytes };

    fn put(&mut self, code: u8) {
        if let Some(byte) = self.bytes.get_mut(self.len) {
            *byte = code;
        }
        self.len += 1;
    }
}

/// Nodes in hexadecimal, with their headers, and texts of them.
const TOLD: &str = "\
02010c00d041030a00000000 PciRoot(0)
02010c00d041030a00000000 acpi(pnp0a03,0)
02010c00d041010404000000 Acpi(0x040141d0,0x4)
01010600021f pci( 31 , 2 )
01010600021f Pci(0x01F,0x02)
01010600001f Pci(0x1F)
03120a000000ffff0000 Sata(0x0)
03120a000100ffff0000 SATA(1,65535,0)
030f0b00ffffffff08ffff UsbClass(0xFFFF,0xffff,8)
03171000010000001c03b0715b382500 nvme(1,00-25-38-5b-71-b0-03-1c)
031406006400 Vlan(0x64)
030b2500525400abcdef000000000000000000000000000000000000000000000000000001 MAC(525400ABCDEF,0x1)
030b2500525400abcdef000000000000000000000000000000000000000000000000000001 mac(52:54:00:ab:cd:ef,1)
030e13000000000000c2010000000000080101 uart(115200,8,n,1)
030e13000000000000c201000000000008ffff Uart(115200,8,x,x)
030c1b000000000000000000000000000600000000000000000000 IPv4(0.0.0.0,tcp,dhcp,0.0.0.0,0.0.0.0,0.0.0.0)
030c1300c0a80064c0a8000100000000341201 IPv4(192.168.0.1,0x1234,static,192.168.0.100)
04012a00020000003f000000000000000000000010000000103254760000000000000000000000000101 HD(2,MBR,0x76543210,0x3f,0x1000000000)
01041a0078563412bc9af0de341256789abcdef0525400abcdef VenHw(12345678-9abc-def0-3412-56789abcdef0,525400abcdef)
030a14005347c1e0bef9d2119a0c0090273fc14d VenPcAnsi()
030a2c00b4dd87d48b00d911afdc001083ffca4d010000000102030405060708090a0b0c0d0e0f100201ffff \
    VenMsg(d487ddb4-008b-11d9-afdc-001083ffca4d,010000000102030405060708090a0b0c0d0e0f100201ffff)
031f2500000808080800000000000000000000000001010101000000000000000000000000 Dns(8.8.8.8,1.1.1.1)
02021e00d041080a10000000d041030a4143504930303034005531004300 AcpiEx(PNP0A08,PNP0A03,0x10,ACPI0004,C,U1)
02030c000004018000000000 AcpiAdr(0x80010400,0)
03100e0000000100020041004200 UsbWwid(1,2,0,\"AB\")
0318100068747470733a2f2f612e622f Uri(https://a.b/)
05010b0001000000484400 BBS(Floppy,HD,0)
05010b0008000000294400 BBS(8,)D,0)
030d3c00000000000000000000000000000000\
    00fe8000000000000000000000000000010000000006000240\
    00000000000000000000000000000000 IPv6(fe80::1,TCP,StatefulAutoConfigure)";

/// Texts that a form reads, and that do not describe their node completely.
const UNTOLD: &str = "\
MAC(525400ABCDEF,2)
VenMsg(d487ddb4-008b-11d9-afdc-001083ffca4d,010000000102030405060708090a0b0c0d0e0f100201ffff00)";

/// Returns all forms of the table.
pub(crate) fn forms(alloc: Global) -> Result<Vec<Form>, Fail> {
    let mut forms = Vec::new(alloc);
    for group in [
        table::HARDWARE,
        table::ACPI,
        table::SAS,
        table::SAS_IN_BAYS,
        table::SAS_EX,
        table::MESSAGING,
        table::IPV4,
        table::IPV6,
        table::IPV6_SHORT,
        table::USB_CLASSES,
        table::MEDIA,
        table::BOOT,
        table::TYPED_ACPI,
        table::TYPED_MESSAGING,
        table::TYPED_IPV6,
        table::TYPED_MEDIA,
        table::LIBEFIVAR,
    ] {
        forms.extend_from_slice(group)?;
    }
    Ok(forms)
}

/// Reads a text, and returns whether it is read as this node.
fn is_read_as(alloc: Global, forms: &[Form], node: &str, text: &str) -> Result<bool, Fail> {
    let node = bytes(alloc, node)?;
    let Ok(found) = told_node(forms, text.as_bytes()) else {
        return Ok(false);
    };
    let mut data = Data::new();
    put_data(&mut data, &found);
    Ok(
        node[..4] == [found.form.kind, found.form.sub_kind, found.len as u8 + 4, 0]
            && Some(&node[4..]) == data.bytes.get(..data.len)
            && found.len == data.len
            && found.rest.is_empty(),
    )
}

#[test]
fn told(rt: HostRuntime) -> Result<(), Fail> {
    let forms = forms(rt.alloc())?;
    for line in TOLD.lines() {
        let (node, text) = split_row(line);
        assert!(rt; is_read_as(rt.alloc(), &forms, node, text)?, "{text}");
    }
    Ok(())
}

/// Returns where a text stops being read.
fn stop_of(forms: &[Form], text: &str) -> Option<Stop> {
    told_node(forms, text.as_bytes()).err()
}

#[test]
fn untold(rt: HostRuntime) -> Result<(), Fail> {
    let forms = forms(rt.alloc())?;
    for text in UNTOLD.lines() {
        let stop = stop_of(&forms, text);
        assert!(rt;
            matches!(stop, Some(Stop { left, expected: Expected::Untold }) if left == text.len()),
            "{text}"
        );
    }
    Ok(())
}

/// A text stops where the form stops that reads it furthest, the first of them if there are several.
#[test]
fn stops(rt: HostRuntime) -> Result<(), Fail> {
    let forms = forms(rt.alloc())?;
    assert!(rt;
        matches!(
            stop_of(&forms, ""),
            Some(Stop {
                left: 0,
                expected: Expected::Letter(b'P')
            })
        )
    );
    assert!(rt;
        matches!(
            stop_of(&forms, "Foo"),
            Some(Stop {
                left: 2,
                expected: Expected::Letter(b'l')
            })
        )
    );
    assert!(rt;
        matches!(
            stop_of(&forms, "Pci("),
            Some(Stop {
                left: 0,
                expected: Expected::Number(255)
            })
        )
    );
    assert!(rt;
        matches!(
            stop_of(&forms, "Pci(0x100)"),
            Some(Stop {
                left: 6,
                expected: Expected::Number(255)
            })
        )
    );
    assert!(rt;
        matches!(
            stop_of(&forms, "Pci(0x1F,0x2"),
            Some(Stop {
                left: 0,
                expected: Expected::Letter(b')')
            })
        )
    );
    assert!(rt;
        matches!(
            stop_of(&forms, "Uart(9600,8,Q,1)"),
            Some(Stop {
                left: 4,
                expected: Expected::Word(_)
            })
        )
    );
    Ok(())
}

/// Returns how many letters are left after an exact text, or where a text stops being exact.
fn left_of(forms: &[Form], text: &str) -> Result<usize, Stop> {
    let found = told_node(forms, text.as_bytes())?;
    let mut data = Data::new();
    put_data(&mut data, &found);
    exact_rest(forms, &found, data.bytes.get(..data.len).unwrap_or(&[])).map(|rest| rest.len())
}

/// Texts of nodes as EDK II prints them.
const EXACT: &str = "\
Pci(0x1F,0x2)/
PciRoot(0x0)/
Sata(0x0,0xFFFF,0x0)/
Uri(https://a.b/c?d=e)/
VenHw(12345678-9ABC-DEF0-1234-56789ABCDEF0,00AB10)/
HD(1,GPT,76543210-BA98-FEDC-0102-030405060708,0x800,0x64000)/
MAC(525400ABCDEF,0x1)/
AcpiAdr(0x80010400,0x0,0xFFFFFFFF)/
UsbWwid(0x1,0x2,0x0,\"AB\")/";

#[test]
fn exact(rt: HostRuntime) -> Result<(), Fail> {
    let forms = forms(rt.alloc())?;
    for text in EXACT.lines() {
        assert!(rt; matches!(left_of(&forms, text), Ok(1)), "{text}");
    }
    Ok(())
}

/// A text that is not exact stops at the first letter that is printed differently.
#[test]
fn inexact(rt: HostRuntime) -> Result<(), Fail> {
    let forms = forms(rt.alloc())?;
    assert!(rt;
        matches!(
            left_of(&forms, "pci(0x1F,0x2)"),
            Err(Stop {
                left: 13,
                expected: Expected::Letter(b'P')
            })
        )
    );
    assert!(rt;
        matches!(
            left_of(&forms, "Pci(0x1f,0x2)"),
            Err(Stop {
                left: 6,
                expected: Expected::Letter(b'F')
            })
        )
    );
    assert!(rt;
        matches!(
            left_of(&forms, "Pci(31,0x2)"),
            Err(Stop {
                left: 7,
                expected: Expected::Letter(b'0')
            })
        )
    );
    assert!(rt;
        matches!(
            left_of(&forms, "Pci( 0x1F,0x2)"),
            Err(Stop {
                left: 10,
                expected: Expected::Letter(b'0')
            })
        )
    );
    assert!(rt;
        matches!(
            left_of(&forms, "VenPcAnsi()"),
            Err(Stop {
                left: 8,
                expected: Expected::Letter(b'M')
            })
        )
    );
    Ok(())
}
