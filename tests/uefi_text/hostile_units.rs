//! Code units, characters, bytes and packed units with one unit that no text contains, at each position, for
//! each constructor. The first such unit decides.

use crate::packed_strings::leaves;
use crate::strs::{are_strings, is_whole_owned};
use for_tests::hostile_places;
use std::alloc::Global;
use std::test::Fail;
use uefi_text::{
    CStr16, CString16, FromSliceUntilNulError as UntilNul, FromSliceWithNulError as WithNul,
    UnalignedCStr16Error as Packed, UnalignedSlice,
};

/// The kind of the first NUL or surrogate.
#[derive(Clone, Copy)]
pub(crate) enum Deciding {
    None,
    Nul,
    Surrogate,
}

/// Units in the middle, units at the end, how many of both precede the deciding unit, and the kind of that
/// unit.
type Row = (&'static [u16], &'static [u16], usize, Deciding);

const ROWS: &[Row] = &[
    (&[], &[0], 0, Deciding::Nul),
    (&[0xd7ff], &[0], 1, Deciding::Nul),
    (&[0xe000], &[0], 1, Deciding::Nul),
    (&[0xffff], &[0], 1, Deciding::Nul),
    // Two adjacent bytes are zero, but belong to two units.
    (&[0x100, 1], &[0], 2, Deciding::Nul),
    (&[0xd800], &[0], 0, Deciding::Surrogate),
    (&[0xdbff], &[0], 0, Deciding::Surrogate),
    (&[0xdc00], &[0], 0, Deciding::Surrogate),
    (&[0xdfff], &[0], 0, Deciding::Surrogate),
    // A surrogate pair is not a character, either.
    (&[0xd83d, 0xde00], &[0], 0, Deciding::Surrogate),
    (&[0xffff, 0xd83d], &[0], 1, Deciding::Surrogate),
    (&[0xd83d, 0], &[0], 0, Deciding::Surrogate),
    (&[0, 0xd800], &[0], 0, Deciding::Nul),
    (&[0], &[0], 0, Deciding::Nul),
    (&[0], &[], 0, Deciding::Nul),
    (&[0], &[0xdc00], 0, Deciding::Nul),
    (&[0xd800], &[], 0, Deciding::Surrogate),
    (&[0xd800], &[0xdc00], 0, Deciding::Surrogate),
    (&[], &[], 0, Deciding::None),
    (&[], &[0x100], 1, Deciding::None),
    (&[], &[0xdc00], 0, Deciding::Surrogate),
    (&[], &[0, 0], 0, Deciding::Nul),
    (&[], &[0xd83d, 0], 0, Deciding::Surrogate),
    (&[], &[0, 0xd83d], 0, Deciding::Nul),
];

/// Code units, and which unit decides whether they are a string.
#[derive(Drop)]
struct HostileUnits {
    units: Vec<u16>,
    /// One other byte, then the units as bytes, low byte first.
    bytes_after_one: Vec<u8>,
    /// How many units precede the deciding one.
    len: usize,
    deciding: Deciding,
}

impl HostileUnits {
    /// Returns the length of the string of all units, without its NUL, or why they are not a string.
    fn whole(&self) -> Result<usize, WithNul> {
        match self.deciding {
            Deciding::None => Err(WithNul::NotNulTerminated),
            Deciding::Surrogate => Err(WithNul::InvalidChar(self.len)),
            Deciding::Nul if self.len.saturating_add(1) == self.units.len() => Ok(self.len),
            Deciding::Nul => Err(WithNul::InteriorNul(self.len)),
        }
    }

    /// Returns how many units precede the first NUL, or why there is no string.
    fn front(&self) -> Result<usize, UntilNul> {
        match self.deciding {
            Deciding::None => Err(UntilNul::NoNul),
            Deciding::Surrogate => Err(UntilNul::InvalidChar(self.len)),
            Deciding::Nul => Ok(self.len),
        }
    }

    /// Returns why the units are not a string in a buffer with this much room, if they are not.
    fn refusal_in(&self, room: usize) -> Option<Packed> {
        match self.whole() {
            _ if room < self.units.len() => Some(Packed::BufferTooSmall),
            Ok(_) => None,
            Err(WithNul::InvalidChar(place)) => Some(Packed::InvalidChar(place)),
            Err(WithNul::InteriorNul(place)) => Some(Packed::InteriorNul(place)),
            Err(_) => Some(Packed::NotNulTerminated),
        }
    }
}

/// Returns a row's units at this position among `others` units of `A`.
fn list_of(alloc: Global, others: usize, place: usize, row: Row) -> Result<HostileUnits, Fail> {
    let (middle, end, rank, deciding) = row;
    let mut units = Vec::new(alloc);
    units.resize(place, 65)?;
    units.extend_from_slice(middle)?;
    units.resize(others.saturating_add(middle.len()), 65)?;
    units.extend_from_slice(end)?;
    let mut bytes_after_one = vec![in alloc; 0xffu8]?;
    for unit in &units {
        bytes_after_one.extend_from_slice(&unit.to_le_bytes())?;
    }
    let before = if rank < middle.len() { place } else { others };
    Ok(HostileUnits {
        units,
        bytes_after_one,
        len: rank.saturating_add(before),
        deciding,
    })
}

/// Returns whether the bytes of units become their string or are refused, and are refused without their last
/// byte. A missing NUL at the end decides before any unit.
fn are_read(rt: &HostRuntime, hostile: &HostileUnits, bytes: &[u8]) -> bool {
    let want = if hostile.units.ends_with(&[0]) {
        hostile.whole()
    } else {
        Err(WithNul::NotNulTerminated)
    };
    let others = bytes.get(..bytes.len().saturating_sub(1)).unwrap_or(&[]);
    let cut = CStr16::from_bytes_with_nul(rt.alloc(), others).err();
    is_whole_owned(
        &hostile.units,
        &CStr16::from_bytes_with_nul(rt.alloc(), bytes),
        want,
    ) && cut == Some(WithNul::NotNulTerminated)
}

/// Returns whether packed units become a string in a buffer of nines with this much room, or are refused. The
/// buffer then contains them if all fit.
fn are_buffered(
    rt: &HostRuntime,
    items: &UnalignedSlice<'_, u16>,
    hostile: &HostileUnits,
    room: usize,
) -> Result<bool, Fail> {
    let mut after = Vec::new(rt.alloc());
    if hostile.units.len() <= room {
        after.extend_from_slice(&hostile.units)?;
    }
    after.resize(room, 9)?;
    leaves(rt, items, &after, hostile.refusal_in(room))
}

/// Checks `are_buffered` with every room if the units are few, otherwise with exact room and one more or
/// less; and with a buffer that has more than a block of room after them.
fn are_buffered_in_each(
    rt: &HostRuntime,
    items: &UnalignedSlice<'_, u16>,
    hostile: &HostileUnits,
) -> Result<bool, Fail> {
    let len = hostile.units.len();
    let least = if len < 12 { 0 } else { len - 1 };
    for room in least..len.saturating_add(2) {
        if !are_buffered(rt, items, hostile, room)? {
            return Ok(false);
        }
    }
    are_buffered(rt, items, hostile, len.saturating_add(300))
}

/// Returns whether packed units become a string, owned and in buffers, or are refused.
fn are_unpacked(rt: &HostRuntime, hostile: &HostileUnits, bytes: &[u8]) -> Result<bool, Fail> {
    let Some(items) = UnalignedSlice::from_unit_bytes(bytes) else {
        return Ok(false);
    };
    let (units, want) = (&hostile.units, hostile.whole());
    Ok(
        is_whole_owned(units, &items.to_cstring16(rt.alloc()), want)
            && is_whole_owned(
                units,
                &CString16::try_from_unaligned(rt.alloc(), &items),
                want,
            )
            && are_buffered_in_each(rt, &items, hostile)?,
    )
}

/// Returns whether each constructor gives the expected result.
fn are_answered(rt: &HostRuntime, hostile: &HostileUnits) -> Result<bool, Fail> {
    let bytes = hostile.bytes_after_one.get(1..).unwrap_or(&[]);
    let (units, whole) = (&hostile.units, hostile.whole());
    Ok(
        are_strings(rt, units, whole, hostile.front())?
            && is_whole_owned(units, &CString16::try_from_vec(units.clone()?), whole)
            && are_read(rt, hostile, bytes)
            && are_unpacked(rt, hostile, bytes)?,
    )
}

#[test]
fn each_list_of_units(rt: HostRuntime) -> Result<(), Fail> {
    for (others, place) in &hostile_places(rt.alloc())? {
        for row in ROWS {
            let hostile = list_of(rt.alloc(), *others, *place, *row)?;
            assert!(rt; are_answered(&rt, &hostile)?, "{:?}", hostile.units);
        }
    }
    Ok(())
}
