//! Pairs of device paths: short forms of the UEFI Specification, section 3.1.2, and their expansions.

use for_tests::split_row;
use std::alloc::Global;
use std::test::Fail;
use uefi_device_path::DevicePathBuf;
use uefi_device_path::ShortForm::{self, File, HardDrive, Uri, UsbClass, UsbWwid};

/// Pairs of paths as texts. The first path is an expansion of the second.
const EXPANSIONS: &str = "\
PciRoot(0x0)/Pci(0x1,0x0)/HD(1,MBR,0x12345678,0x800,0x100)/\\a.efi HD(1,MBR,0x12345678,0x0,0x0)/\\a.efi
PciRoot(0x0)/\\EFI\\a.efi \\EFI\\a.efi
\\EFI\\a.efi \\EFI\\a.efi
MAC(0013720AB0FF,0x1)/Uri(http://a/b) Uri(http://a/b)";

/// Pairs of paths as texts. The first path is not an expansion of the second.
const OTHERS: &str = "\
PciRoot(0x0)/HD(2,MBR,0x12345678,0x800,0x100) HD(1,MBR,0x12345678,0x800,0x100)
PciRoot(0x0)/HD(1,MBR,0x12345679,0x800,0x100) HD(1,MBR,0x12345678,0x800,0x100)
PciRoot(0x0)/HD(1,GPT,78563412-0000-0000-0000-000000000000,0x800,0x100) HD(1,MBR,0x12345678,0x800,0x100)
PciRoot(0x0)/HD(1,MBR,0x12345678,0x0,0x0)/\\a.efi HD(1,MBR,0x12345678,0x0,0x0)/\\b.efi
PciRoot(0x0)/HD(1,MBR,0x12345678,0x0,0x0)/\\a.efi HD(1,MBR,0x12345678,0x0,0x0)
PciRoot(0x0)/\\EFI\\A.efi \\EFI\\a.efi
PciRoot(0x0)/UsbClass(0x1,0x2,0x5,0x4,0x5) UsbClass(0x1,0x2,0x5,0x4,0x5)
PciRoot(0x0)/Pci(0x1,0x0) Pci(0x1,0x0)
PciRoot(0x0)";

/// A path as a text, and its short form.
const SHORT_FORMS: &[(&str, Option<ShortForm>)] = &[
    ("HD(1,MBR,0x12345678,0x0,0x0)/\\a.efi", Some(HardDrive)),
    ("\\a.efi", Some(File)),
    ("UsbClass(0x1,0x2,0x5,0x4,0x5)", Some(UsbClass)),
    ("UsbWwid(0x1,0x2,0x3,\"a\")", Some(UsbWwid)),
    ("Uri(http://a/b)", Some(Uri)),
    ("PciRoot(0x0)/HD(1,MBR,0x12345678,0x0,0x0)", None),
    ("CDROM(0x0,0x1,0x2)", None),
    ("", None),
];

/// Returns whether one path is an expansion of another, both as texts.
fn is_expansion(alloc: Global, path: &str, short: &str) -> Result<bool, Fail> {
    let path = DevicePathBuf::from_text(alloc, path)?;
    let short = DevicePathBuf::from_text(alloc, short)?;
    Ok(
        path.as_device_path()
            .is_expansion_of(short.as_device_path()),
    )
}

#[test]
fn expansions(rt: HostRuntime) -> Result<(), Fail> {
    for (table, want) in [(EXPANSIONS, true), (OTHERS, false)] {
        for line in table.split('\n') {
            let (path, short) = split_row(line);
            assert!(rt; is_expansion(rt.alloc(), path, short)? == want, "{line}");
        }
    }
    Ok(())
}

#[test]
fn short_forms(rt: HostRuntime) -> Result<(), Fail> {
    for (text, want) in SHORT_FORMS {
        let path = DevicePathBuf::from_text(rt.alloc(), text)?;
        assert!(rt; path.as_device_path().short_form() == *want, "{text}");
    }
    Ok(())
}
