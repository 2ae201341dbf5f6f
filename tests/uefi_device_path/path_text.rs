//! The texts of paths and their instances, printed and written into buffers. A line has a path in
//! hexadecimal, then its text.

use for_tests::{bytes, shows, split_row};
use std::test::Fail;
use uefi_device_path::{
    AllowShortcuts, BufferTooSmall, DevicePath, DevicePathInstance, DevicePathNode, DisplayOnly,
    TEXT_UNITS_PER_BYTE,
};

/// Paths in the form that can be read back.
const PATHS: &str = "\
7fff0400
02010c00d041030a0000000001010600021f03120a000000ffff000004012a00010000000008000000000000004006000000\
    000028732ac11ff8d211ba4b00a0c93ec93b0202040430005c004500460049005c0042004f004f0054005c0042004f004f00\
    54005800360034002e0045004600490000007fff0400 \
    PciRoot(0x0)/Pci(0x1F,0x2)/Sata(0x0,0xFFFF,0x0)/HD(1,GPT,C12A7328-F81F-11D2-BA4B-00A0C93EC93B,0x800,\
    0x64000)/\\EFI\\BOOT\\BOOTX64.EFI
04071400c9bdb87cebf8344faaea3ee4af6516a10406140083a5047c3e9e1c4fad65e05268d0b4d17fff0400 \
    Fv(7CB8BDC9-F8EB-4F34-AAEA-3EE4AF6516A1)/FvFile(7C04A583-9E3E-4F1C-AD65-E05268D0B4D1)
7f0104007fff0400 ,
010104007f0104007f01040009020400090304007fff0400 Path(1,1),,Path(9,2)/Path(9,3)
040408006100000004040800620000007fff0400 a/b
04040e0061003dd800de3dd800007fff0400 a😀\u{fffd}";

/// A path in its display-only form.
const DISPLAY_ONLY: &str = "\
02010c00d041030a00000000010106000019030b25000013720ab0ff00000000000000000000000000000000000000000000\
    0000000001030c1300c0a80064c0a80001000050001100007fff0400 \
    PciRoot(0x0)/Pci(0x19,0x0)/MAC(0013720AB0FF,0x1)/IPv4(192.168.0.1)";

/// A path with two terminals, with shortcuts.
const SHORTCUTS: &str = "\
02010c00d041010500000000030a14005347c1e0bef9d2119a0c0090273fc14d7f0104000305060001007fff0400 \
    Serial(0x0)/VenPcAnsi(),USB(0x1,0x0)";

/// Returns the result of a call that writes a text and its NUL into the first `room` of 256 units, and the
/// units afterwards.
fn written(want: &str, room: usize) -> (Result<usize, BufferTooSmall>, [u16; 256]) {
    let mut places = [0xffff; 256];
    let mut len = 0usize;
    for (unit, place) in want.encode_utf16().zip(&mut places) {
        *place = unit;
        len = len.saturating_add(1);
    }
    if room <= len {
        return (Err(BufferTooSmall(len.saturating_add(1))), [0xffff; 256]);
    }
    if let Some(place) = places.get_mut(len) {
        *place = 0;
    }
    (Ok(len), places)
}

/// Returns how many units before the NUL a call borrows from a buffer.
fn counted(borrowed: Result<&[u16], BufferTooSmall>) -> Result<usize, BufferTooSmall> {
    match borrowed {
        Ok(units) => Ok(units.len().saturating_sub(1)),
        Err(error) => Err(error),
    }
}

/// Returns whether a path writes its text into each buffer with enough room, and leaves a shorter buffer
/// unchanged.
fn fills_buffers(
    path: DevicePath<'_>,
    display_only: DisplayOnly,
    shortcuts: AllowShortcuts,
    want: &str,
) -> bool {
    for room in 0..want.len().saturating_add(3) {
        let mut places = [0xffff; 256];
        let buffer = places.get_mut(..room).unwrap_or_default();
        let said = counted(path.text_in_buf(buffer, display_only, shortcuts));
        if (said, places) != written(want, room) {
            return false;
        }
    }
    true
}

/// Returns whether the path of each line prints its text, in memory and in buffers.
fn are_printed(
    rt: &HostRuntime,
    table: &str,
    display_only: bool,
    shortcuts: bool,
) -> Result<bool, Fail> {
    let (display_only, shortcuts) = (DisplayOnly(display_only), AllowShortcuts(shortcuts));
    for line in table.split('\n') {
        let (digits, want) = split_row(line);
        let bytes = bytes(rt.alloc(), digits)?;
        let path = DevicePath::from_bytes(&bytes)?;
        if !shows(rt.alloc(), &path.display(display_only, shortcuts), want)
            || !fills_buffers(path, display_only, shortcuts, want)
        {
            return Ok(false);
        }
    }
    Ok(true)
}

#[test]
fn paths(rt: HostRuntime) -> Result<(), Fail> {
    assert!(rt;
        are_printed(&rt, PATHS, false, false)?
            && are_printed(&rt, DISPLAY_ONLY, true, false)?
            && are_printed(&rt, SHORTCUTS, false, true)?
    );
    Ok(())
}

/// Returns whether an instance prints a text, and writes it into each buffer with enough room.
fn instance_prints(rt: &HostRuntime, instance: DevicePathInstance<'_>, want: &str) -> bool {
    let (display_only, shortcuts) = (DisplayOnly(true), AllowShortcuts(true));
    for room in 0..want.len().saturating_add(3) {
        let (mut places, mut others) = ([0xffff; 256], [0xffff; 256]);
        let buffer = places.get_mut(..room).unwrap_or_default();
        let said = instance.write_text(buffer, display_only, shortcuts);
        let other = others.get_mut(..room).unwrap_or_default();
        let also = counted(instance.text_in_buf(other, display_only, shortcuts));
        let (wanted, left) = written(want, room);
        if said != wanted || also != wanted || places != left || others != left {
            return false;
        }
    }
    shows(rt.alloc(), &instance.display(display_only, shortcuts), want)
}

/// Returns whether the instances of a path have these texts.
fn instances_print(rt: &HostRuntime, path: DevicePath<'_>, want: [&str; 2]) -> bool {
    let mut instances = path.instance_iter();
    for want in want {
        match instances.next() {
            Some(it) if instance_prints(rt, it, want) => {}
            _ => return false,
        }
    }
    instances.next().is_none()
}

#[test]
fn instances(rt: HostRuntime) -> Result<(), Fail> {
    let (terminals, _) = split_row(SHORTCUTS);
    let terminals = bytes(rt.alloc(), terminals)?;
    let want = ["Serial(0x0)/VenPcAnsi()", "USB(0x1,0x0)"];
    assert!(rt; instances_print(&rt, DevicePath::from_bytes(&terminals)?, want));
    let empty = DevicePath::from_bytes(&[0x7f, 1, 4, 0, 0x7f, 0xff, 4, 0])?;
    assert!(rt; instances_print(&rt, empty, ["", ""]));
    Ok(())
}

/// Paths in the style of libefivar 37.
const LIBEFIVAR: &str = "\
7fff0400
02010c00d041030a0000000001010600021f04012a00010000000008000000000000004006000000\
    000028732ac11ff8d211ba4b00a0c93ec93b0202040430005c004500460049005c0042004f004f0054005c0042004f004f00\
    54005800360034002e0045004600490000007fff0400 \
    PciRoot(0x0)/Pci(0x1F,0x2)/HD(1,GPT,c12a7328-f81f-11d2-ba4b-00a0c93ec93b,0x800,0x64000)\
    /File(\\EFI\\BOOT\\BOOTX64.EFI)
04012a00020000003f00000000000000c8000000000000001234abcd00000000000000000000000001017f0104000404080041000000\
    7fff0400 HD(2,MBR,0xcdab3412,0x3f,0xc8),File(A)
04010700abcdef04040700610062040404007fff0400 Path(4,1,ABCDEF)/Path(4,4,610062)/File()
03171000010000000025385b71b012f47fff0400 NVMe(0x1,00-25-38-5B-71-B0-12-F4)";

#[test]
fn libefivar(rt: HostRuntime) -> Result<(), Fail> {
    for line in LIBEFIVAR.split('\n') {
        let (digits, want) = split_row(line);
        let bytes = bytes(rt.alloc(), digits)?;
        let path = DevicePath::from_bytes(&bytes)?;
        assert!(rt; shows(rt.alloc(), &path.display_libefivar(), want));
        for room in 0..want.len().saturating_add(3) {
            let mut places = [0xffff; 256];
            let said = path.write_libefivar_text(places.get_mut(..room).unwrap_or_default());
            assert!(rt; (said, places) == written(want, room), "{room}");
        }
    }
    Ok(())
}

#[test]
fn nodes(rt: HostRuntime) -> Result<(), Fail> {
    let (node, _) = DevicePathNode::split_first(&[
        4, 4, 14, 0, 97, 0, 0x3d, 0xd8, 0, 0xde, 0x3d, 0xd8, 0, 0,
    ])?;
    for room in 0..8 {
        let mut places = [0xffff; 256];
        let buffer = places.get_mut(..room).unwrap_or_default();
        let said = node.write_text(buffer, DisplayOnly(false), AllowShortcuts(false));
        assert!(rt; (said, places) == written("a😀\u{fffd}", room), "{room}");
    }
    Ok(())
}

/// Nodes with long texts for their size. The text of the first, with its NUL, needs all the room that
/// `TEXT_UNITS_PER_BYTE` allows.
const LONG_TEXTS: &str = "\
030f0b00fffffffffe01ff UsbDeviceFirmwareUpdate(0xFFFF,0xFFFF,0xFF)
04040c002e202e202e202e20 \\u{202E}\\u{202E}\\u{202E}\\u{202E}";

#[test]
fn rooms(rt: HostRuntime) -> Result<(), Fail> {
    for line in LONG_TEXTS.split('\n') {
        let (digits, want) = split_row(line);
        let bytes = bytes(rt.alloc(), digits)?;
        let (node, _) = DevicePathNode::split_first(&bytes)?;
        let room = bytes.len().saturating_mul(TEXT_UNITS_PER_BYTE);
        let mut places = [0xffff; 256];
        let buffer = places.get_mut(..room).unwrap_or_default();
        let said = node.write_text(buffer, DisplayOnly(false), AllowShortcuts(false));
        assert!(rt; (said, places) == written(want, room), "{want}");
        assert!(rt;
            said.is_ok() && room <= want.len().saturating_add(16),
            "{want}"
        );
    }
    Ok(())
}
