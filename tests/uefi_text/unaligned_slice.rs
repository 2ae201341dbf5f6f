//! Packed numbers: read in place, iterated and copied.

use std::alloc::AllocError;
use std::test::Fail;
use uefi_text::{Packed, UnalignedSlice, UnalignedSliceIter};

/// Three numbers of four bytes, packed and unpacked.
const BYTES: [u8; 12] = [
    0x10, 0x11, 0x12, 0x13, 0x20, 0x21, 0x22, 0x23, 0x30, 0x31, 0x32, 0x33,
];

const NUMBERS: [u32; 3] = [0x13121110, 0x23222120, 0x33323130];

/// The same bytes after one other, so that one of both lists begins at an odd address.
const BYTES_AFTER_ONE: [u8; 13] = [
    0xff, 0x10, 0x11, 0x12, 0x13, 0x20, 0x21, 0x22, 0x23, 0x30, 0x31, 0x32, 0x33,
];

/// Returns whether a view of the bytes returns exactly these numbers, one by one.
fn hold<T: Packed + PartialEq>(bytes: &[u8], numbers: &[T]) -> bool {
    let Some(items) = UnalignedSlice::<T>::try_new(bytes, numbers.len()) else {
        return false;
    };
    for (index, number) in numbers.iter().enumerate() {
        if items.get(index) != Some(*number) {
            return false;
        }
    }
    items.len() == numbers.len()
        && items.is_empty() == numbers.is_empty()
        && items.get(numbers.len()).is_none()
        && items.get(usize::MAX).is_none()
}

#[test]
fn items_at_any_place(rt: HostRuntime) {
    assert!(rt;
        hold(&BYTES, &NUMBERS)
            && hold(&BYTES_AFTER_ONE[1..], &NUMBERS)
            && hold(&BYTES_AFTER_ONE[1..], &NUMBERS[..0])
            && hold(&[0xff, 0], &[255u8, 0])
            && hold(&[0x10, 0x11, 0x12], &[0x1110u16])
            && hold(&[1, 2, 3, 4, 5, 6, 7, 8], &[0x0807060504030201u64])
    );
}

/// Bytes, a number of items, and whether they have room for that many items of two bytes, and of eight.
const ROOM: &[(&[u8], usize, bool, bool)] = &[
    (&[1, 2, 3], 1, true, false),
    (&[1, 2, 3], 2, false, false),
    (&[], 0, true, true),
    (&[], usize::MAX, false, false),
];

#[test]
fn room_for_items(rt: HostRuntime) {
    for (bytes, len, of_two, of_eight) in ROOM {
        let is_right = UnalignedSlice::<u16>::fits(bytes, *len) == *of_two
            && UnalignedSlice::<u64>::fits(bytes, *len) == *of_eight;
        assert!(rt; is_right, "{bytes:?}, {len} items");
    }
}

/// Returns whether an iterator returns exactly these numbers, with the right `size_hint` in between.
fn gives(mut items: UnalignedSliceIter<'_, u32>, want: &[u32; 3]) -> bool {
    items.size_hint() == (3, Some(3))
        && items.next() == Some(want[0])
        && items.next() == Some(want[1])
        && items.size_hint() == (1, Some(1))
        && items.next() == Some(want[2])
        && items.next().is_none()
        && items.next().is_none()
}

/// Returns whether a copy succeeded and has these numbers.
fn holds(copy: &Result<Vec<u32>, AllocError>, want: &[u32]) -> bool {
    matches!(copy, Ok(copy) if copy.as_slice() == want)
}

/// Returns whether each way to copy packed numbers gives `want`.
fn are_copied(rt: &HostRuntime, items: UnalignedSlice<'_, u32>, want: &[u32; 3]) -> bool {
    let mut copy = [0; 3];
    if items.len() != copy.len() {
        return false;
    }
    items.copy_to(&mut copy);
    let cloned: Result<_, _> = items.clone();
    copy == *want
        && holds(&items.to_vec(rt.alloc()), want)
        && holds(&items.iter().collect(rt.alloc()), want)
        && matches!(&cloned, Ok(items) if holds(&items.to_vec(rt.alloc()), want))
}

#[test]
fn items_in_turn_and_copied(rt: HostRuntime) {
    let items: UnalignedSlice<u32> = UnalignedSlice::new(&BYTES_AFTER_ONE[1..], 3);
    assert!(rt;
        gives(items.iter(), &NUMBERS)
            && items.into_iter().eq(NUMBERS)
            && are_copied(&rt, items, &NUMBERS)
    );
}

#[test]
fn printed_for_programmers(rt: HostRuntime) -> Result<(), Fail> {
    let items: UnalignedSlice<u8> = UnalignedSlice::new(&[0xff, 0], 2);
    let mut borrowed = items.iter();
    let is_first = borrowed.next() == Some(255);
    let printed = format!(in rt.alloc(); "{items:?} {borrowed:?} {:?}", items.into_iter())?;
    let want = "[255, 0] UnalignedSliceIter([0]) UnalignedSliceIntoIter([255, 0])";
    assert!(rt; is_first && printed.as_str() == want);
    Ok(())
}
