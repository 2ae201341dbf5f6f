//! Names and orders of load options, with values from the UEFI Specification 2.10, sections 3.1.1, 3.1.3 and
//! 3.3.

use std::test::Fail;
use uefi_boot_variables::{
    LoadOptionKind, LoadOptionName, LoadOrder, NotTwoBytes, OddLength, OrderBuffer, OrderFull,
    order_edits, read_number,
};
use uefi_text::{BufferTooSmall, CStr16};

/// Names and their parts, or `None` for texts that are not names.
const NAMES: &[(&str, Option<(LoadOptionKind, u16)>)] = &[
    ("Boot0000", Some((LoadOptionKind::Boot, 0))),
    ("Boot001F", Some((LoadOptionKind::Boot, 0x1f))),
    ("BootFFFF", Some((LoadOptionKind::Boot, 0xffff))),
    ("Driver000A", Some((LoadOptionKind::Driver, 10))),
    ("SysPrep1234", Some((LoadOptionKind::SysPrep, 0x1234))),
    (
        "PlatformRecovery0001",
        Some((LoadOptionKind::PlatformRecovery, 1)),
    ),
    ("", None),
    ("Boot", None),
    ("Boot001f", None),
    ("Boot001", None),
    ("Boot00001", None),
    ("BootOrder", None),
    ("BootNext", None),
    ("Boot000G", None),
    ("Boot000/", None),
    ("Boot000:", None),
    ("Boot000@", None),
    ("boot0000", None),
    ("SysPrepOrder", None),
    ("Key0000", None),
    ("0000", None),
];

fn is_read(text: &str, wanted: Option<(LoadOptionKind, u16)>) -> bool {
    match (LoadOptionName::from_text(text), wanted) {
        (None, None) => true,
        (Some(name), Some((kind, number))) => name.kind == kind && name.number == number,
        _ => false,
    }
}

fn is_read_of_units(text: &str, wanted: Option<(LoadOptionKind, u16)>) -> bool {
    let mut units = [0; 32];
    let Ok(string) = CStr16::from_str_with_buf(text, &mut units) else {
        return false;
    };
    LoadOptionName::from_cstr16(string) == LoadOptionName::from_text(text) && is_read(text, wanted)
}

#[test]
fn names(rt: HostRuntime) {
    for (text, wanted) in NAMES {
        assert!(rt;
            is_read(text, *wanted) && is_read_of_units(text, *wanted),
            "{text}"
        );
    }
}

/// Returns whether a name is refused by each buffer without room for its text, which stays unchanged, and
/// is read again from a larger one.
fn is_written(name: LoadOptionName, len: usize) -> bool {
    let mut units = [0xffff; 32];
    for room in 0..=len {
        let short = name
            .to_cstr16(units.get_mut(..room).unwrap_or_default())
            .err();
        if short != Some(BufferTooSmall(len.saturating_add(1))) || units != [0xffff; 32] {
            return false;
        }
    }
    match name.to_cstr16(&mut units) {
        Ok(string) => LoadOptionName::from_cstr16(string) == Some(name),
        Err(_) => false,
    }
}

#[test]
fn names_are_written(rt: HostRuntime) -> Result<(), Fail> {
    for (text, wanted) in NAMES {
        if let Some((kind, number)) = *wanted {
            let name = LoadOptionName { kind, number };
            let printed = name.to_string(rt.alloc())?;
            assert!(rt;
                printed.as_str() == *text && is_written(name, text.len()),
                "{text}"
            );
        }
    }
    Ok(())
}

/// Returns whether an order of these bytes has these numbers.
fn has(bytes: &[u8], numbers: &[u16]) -> bool {
    match LoadOrder::from_bytes(bytes) {
        Ok(order) => order.iter().eq(numbers.iter().copied()),
        Err(OddLength) => false,
    }
}

/// Returns whether the number 3, which stands twice in an order, has one position, and others follow.
fn has_positions(order: LoadOrder<'_>) -> bool {
    order.position(3) == Some(0)
        && order.position(0) == Some(1)
        && order.position(1).is_none()
        && order.contains(0)
        && !order.contains(1)
}

#[test]
fn orders(rt: HostRuntime) -> Result<(), Fail> {
    assert!(rt; has(&[], &[]) && has(&[3, 0, 0, 0, 0x1f, 0x20], &[3, 0, 0x201f]));
    assert!(rt; LoadOrder::from_bytes(&[3, 0, 0]).is_err());
    assert!(rt; has_positions(LoadOrder::from_bytes(&[3, 0, 0, 0, 3, 0])?));
    Ok(())
}

#[test]
fn numbers(rt: HostRuntime) {
    let is_right = read_number(&[0x34, 0x12]) == Ok(0x1234)
        && read_number(&[1]) == Err(NotTwoBytes(1))
        && read_number(&[1, 0, 0, 0]) == Err(NotTwoBytes(4));
    assert!(rt; is_right);
}

/// Edits the order 3, 0, 7 in four places, and returns whether each edit has its result.
fn is_edited(order: &mut OrderBuffer<'_>) -> bool {
    order.as_slice() == [3, 0, 7].as_slice()
        && order.move_to_front(7)
        && !order.move_to_front(9)
        && order.as_slice() == [7, 3, 0].as_slice()
        && order.insert(9, 9) == Ok(())
        && order.insert(0, 8) == Err(OrderFull)
        && order.insert(1, 9) == Ok(())
        && order.as_slice() == [7, 9, 3, 0].as_slice()
        && order.remove(3)
        && !order.remove(3)
        && order.as_slice() == [7, 9, 0].as_slice()
}

/// Returns whether an order of three numbers is refused by two places, which stay unchanged, and can be
/// edited in four.
fn is_copied_and_edited(order: &LoadOrder<'_>) -> bool {
    let mut few = [0xffff; 2];
    let is_refused = OrderBuffer::new(&mut few).copy_from(order) == Err(OrderFull);
    let mut places = [0xffff; 4];
    let mut edited = OrderBuffer::new(&mut places);
    let mut bytes = [0xff; 7];
    is_refused
        && few == [0xffff; 2]
        && edited.copy_from(order) == Ok(())
        && is_edited(&mut edited)
        && edited.write_bytes(&mut bytes) == Ok(6)
        && bytes == [7, 0, 9, 0, 0, 0, 0xff]
}

#[test]
fn edits(rt: HostRuntime) -> Result<(), Fail> {
    assert!(rt; is_copied_and_edited(&LoadOrder::from_bytes(&[3, 0, 0, 0, 3, 0, 7, 0])?));
    Ok(())
}

/// Returns whether the numbers in five places can be found, removed, inserted and moved.
fn are_edited(places: &mut [u16; 5]) -> bool {
    order_edits::contains(places, 4, 7)
        && !order_edits::contains(places, 3, 7)
        && order_edits::contains(places, 9, 9)
        && order_edits::remove(places, 4, 3) == 2
        && *places == [0, 7, 3, 7, 9]
        && order_edits::insert(places, 2, 0, 5) == Ok(3)
        && *places == [5, 0, 7, 7, 9]
        && order_edits::insert(&mut places[..3], 3, 0, 8) == Err(OrderFull)
        && order_edits::insert(&mut places[..3], 9, 9, 5) == Ok(3)
        && *places == [0, 7, 5, 7, 9]
        && order_edits::move_to_front(places, 4, 7) == 3
        && *places == [7, 0, 5, 7, 9]
        && order_edits::move_to_front(places, 3, 9) == 3
        && *places == [7, 0, 5, 7, 9]
}

#[test]
fn edits_of_places(rt: HostRuntime) {
    assert!(rt; are_edited(&mut [3, 0, 3, 7, 9]));
}

/// The variables of three entries: their numbers and values.
const VARIABLES: &[(u16, &[u8])] = &[(0, &[10]), (1, &[11]), (3, &[13])];

/// Returns whether a step of a walk gives this number and this value.
fn is_step(found: Option<(u16, &[u8])>, number: u16, value: &[u8]) -> bool {
    matches!(found, Some((found, bytes)) if found == number && bytes == value)
}

#[test]
fn present(rt: HostRuntime) -> Result<(), Fail> {
    let order = LoadOrder::from_bytes(&[3, 0, 5, 0, 0, 0])?;
    let mut walk = order.present(VARIABLES);
    let is_right = is_step(walk.next(), 3, &[13])
        && is_step(walk.next(), 0, &[10])
        && walk.next().is_none();
    assert!(rt; is_right);
    Ok(())
}
