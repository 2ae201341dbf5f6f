//! Strings of packed code units, in buffers and owned.

use for_tests::{has_text, hostile_places};
use std::test::Fail;
use uefi_text::UnalignedCStr16Error::{BufferTooSmall, InteriorNul, InvalidChar, NotNulTerminated};
use uefi_text::{CStr16, CString16, UnalignedCStr16Error, UnalignedSlice};

/// One other byte, then `test` with its NUL.
const TEST_AFTER_ONE: [u8; 11] = [0xff, 0x74, 0, 0x65, 0, 0x73, 0, 0x74, 0, 0, 0];

/// Returns whether both calls create the string of this text from packed units.
fn are_copied(rt: &HostRuntime, bytes: &[u8], want: &str) -> Result<bool, Fail> {
    let Some(items) = UnalignedSlice::from_unit_bytes(bytes) else {
        return Ok(false);
    };
    let string = items.to_cstring16(rt.alloc())?;
    Ok(
        has_text(string.as_cstr16(), want)
            && CString16::try_from_unaligned(rt.alloc(), &items)? == string,
    )
}

#[test]
fn strings_in_memory_of_their_own(rt: HostRuntime) -> Result<(), Fail> {
    assert!(rt; are_copied(&rt, &TEST_AFTER_ONE[1..], "test")?);
    Ok(())
}

/// How to convert packed units to a string in a buffer.
#[derive(Clone, Copy)]
enum Way {
    Write,
    Borrow,
    FromSlice,
}

/// Returns whether an answer is the string with these units, including the NUL, or this error.
fn is_answer(
    answer: Result<CStr16<'_>, UnalignedCStr16Error>,
    units: Option<&[u16]>,
    want: Option<UnalignedCStr16Error>,
) -> bool {
    match answer {
        Ok(string) => want.is_none() && Some(string.to_u16_slice_with_nul()) == units,
        Err(error) => want == Some(error),
    }
}

/// Returns whether the items become the string of these units in a buffer, or are refused with this error.
fn is_answered(
    way: Way,
    items: &UnalignedSlice<'_, u16>,
    buffer: &mut [u16],
    units: Option<&[u16]>,
    want: Option<UnalignedCStr16Error>,
) -> bool {
    match way {
        Way::Write => items.write_cstr16(buffer).err() == want,
        Way::Borrow => is_answer(items.to_cstr16(buffer), units, want),
        Way::FromSlice => is_answer(CStr16::from_unaligned_slice(items, buffer), units, want),
    }
}

/// Returns whether each way makes the items a string in a buffer of nines, or refuses them with this error,
/// and leaves `after` in the buffer.
pub(crate) fn leaves(
    rt: &HostRuntime,
    items: &UnalignedSlice<'_, u16>,
    after: &[u16],
    want: Option<UnalignedCStr16Error>,
) -> Result<bool, Fail> {
    let units = after.get(..items.len());
    let mut buffer = vec![in rt.alloc(); 9u16; after.len()]?;
    for way in [Way::Write, Way::Borrow, Way::FromSlice] {
        buffer.fill(9);
        if !is_answered(way, items, &mut buffer, units, want) || buffer.as_slice() != after {
            return Ok(false);
        }
    }
    Ok(true)
}

/// Returns whether the packed units in these bytes leave `after` in a buffer of nines, with this error or
/// none.
fn are_buffered(
    rt: &HostRuntime,
    bytes: &[u8],
    after: &[u16],
    want: Option<UnalignedCStr16Error>,
) -> Result<bool, Fail> {
    match UnalignedSlice::<u16>::try_new(bytes, bytes.len() / 2) {
        Some(items) => leaves(rt, &items, after, want),
        None => Ok(false),
    }
}

/// Packed units, the buffer of nines after the call, and why they are refused, if they are.
const BUFFERED: &[(&[u8], &[u16], Option<UnalignedCStr16Error>)] = &[
    (b"t\0e\0s\0t\0\0\0", &[9, 9, 9, 9], Some(BufferTooSmall)),
    (b"t\0e\0s\0t\0\0\0", &[0x74, 0x65, 0x73, 0x74, 0], None),
    (b"t\0e\0s\0t\0\0\0", &[0x74, 0x65, 0x73, 0x74, 0, 9], None),
    (&[0, 0xd8, 0, 0], &[0xd800, 0, 9], Some(InvalidChar(0))),
    (&[0, 0xd8, 0, 0], &[9], Some(BufferTooSmall)),
    (b"A\0", &[65, 9], Some(NotNulTerminated)),
    (b"a\0\0\0b\0", &[97, 0, 98], Some(InteriorNul(1))),
    (b"", &[9], Some(NotNulTerminated)),
    (b"", &[], Some(NotNulTerminated)),
    (b"\0\0", &[0, 9], None),
];

/// The bytes begin at an even address, then at an odd one.
#[test]
fn strings_in_buffers(rt: HostRuntime) -> Result<(), Fail> {
    for (bytes, after, want) in BUFFERED {
        let mut moved = vec![in rt.alloc(); 0xffu8]?;
        moved.extend_from_slice(bytes)?;
        let is_right = are_buffered(&rt, bytes, after, *want)?
            && are_buffered(&rt, moved.get(1..).unwrap_or(&[]), after, *want)?;
        assert!(rt; is_right, "{bytes:?}");
    }
    Ok(())
}

/// Returns whether bytes are split after their first NUL into these units and these bytes, or have no NUL.
fn is_split(bytes: &[u8], want: Option<(&[u16], &[u8])>) -> bool {
    match (UnalignedSlice::split_until_nul(bytes), want) {
        (Some((string, after)), Some((units, rest))) => {
            string.len() == units.len() && string.iter().eq(units.iter().copied()) && after == rest
        }
        (None, None) => true,
        _ => false,
    }
}

/// Returns whether a NUL after `place` units of `a` is found, at an odd address.
fn is_found_at(rt: &HostRuntime, place: usize) -> Result<bool, Fail> {
    let mut bytes = vec![in rt.alloc(); 0xffu8]?;
    let mut units = Vec::new(rt.alloc());
    for _ in 0..place {
        bytes.extend_from_slice(&[0x61, 0])?;
        units.push(0x61u16)?;
    }
    bytes.extend_from_slice(&[0, 0, 5])?;
    units.push(0)?;
    Ok(is_split(bytes.get(1..).unwrap_or(&[]), Some((&units, &[5]))))
}

#[test]
fn units_up_to_a_nul_at_each_place(rt: HostRuntime) -> Result<(), Fail> {
    for (_, place) in &hostile_places(rt.alloc())? {
        assert!(rt; is_found_at(&rt, *place)?, "{place} units");
    }
    assert!(rt; is_found_at(&rt, 40_000)?);
    Ok(())
}
