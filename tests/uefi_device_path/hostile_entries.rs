//! Entries with one byte replaced, or increased or decreased by one, and all prefixes of entries: how many
//! are load options, and a checksum over the causes and offsets of the others. The values come from a reader
//! in Python that was written from the UEFI Specification only.

use crate::entries;
use for_tests::bytes;
use std::alloc::{AllocError, Global};
use std::test::Fail;
use uefi_device_path::{LoadOption, LoadOptionCause, NodeError};

/// How many byte strings were accepted, and a checksum of the others.
type Seen = (u64, u64);

/// Returns a number for each cause. Zero means accepted.
fn number_of(cause: LoadOptionCause) -> u64 {
    match cause {
        LoadOptionCause::TooShort => 1,
        LoadOptionCause::DescriptionWithoutEnd => 2,
        LoadOptionCause::ListBeyondEnd => 3,
        LoadOptionCause::EmptyList => 4,
        LoadOptionCause::FilePathList(NodeError::Missing) => 10,
        LoadOptionCause::FilePathList(NodeError::TruncatedHeader) => 11,
        LoadOptionCause::FilePathList(NodeError::UnknownEnd) => 12,
        LoadOptionCause::FilePathList(NodeError::LengthBelowHeader) => 13,
        LoadOptionCause::FilePathList(NodeError::EndWithData) => 14,
        LoadOptionCause::FilePathList(NodeError::BeyondEnd) => 15,
    }
}

/// Adds the result for one byte string.
fn see(seen: Seen, bytes: &[u8]) -> Seen {
    let (number, offset) = match LoadOption::from_bytes(bytes) {
        Ok(_) => (0, 0),
        Err(error) => (number_of(error.cause), error.offset as u64),
    };
    let accepted = seen.0.wrapping_add(u64::from(number == 0));
    let sum = seen.1.wrapping_mul(31).wrapping_add(number);
    (accepted, sum.wrapping_mul(31).wrapping_add(offset))
}

/// Bytes that readers are known to handle wrongly: zero, the shortest lengths, and the type and sub-types of
/// end nodes.
const HOSTILE: &[u8] = &[0, 1, 3, 4, 0x7f, 0xff];

/// Returns the results for an entry with each byte, including length bytes, increased and decreased by one,
/// or replaced by each hostile byte.
fn see_changed(alloc: Global, entry: &[u8], is_nudged: bool) -> Result<Seen, AllocError> {
    let mut bytes = Vec::from_slice(alloc, entry)?;
    let mut seen = (0, 0);
    for (place, byte) in entry.iter().enumerate() {
        let nudged = [byte.wrapping_add(1), byte.wrapping_sub(1)];
        let others: &[u8] = if is_nudged { &nudged } else { HOSTILE };
        for other in others {
            if let Some(changed) = bytes.get_mut(place) {
                *changed = *other;
            }
            seen = see(seen, &bytes);
        }
        if let Some(changed) = bytes.get_mut(place) {
            *changed = *byte;
        }
    }
    Ok(seen)
}

/// Returns the results for each prefix of an entry, from empty to whole.
fn see_prefixes(entry: &[u8]) -> Seen {
    let mut seen = (0, 0);
    for len in 0..=entry.len() {
        seen = see(seen, &entry[..len]);
    }
    seen
}

/// Returns whether this many byte strings made from an entry are load options, and the three checksums of
/// the others combine to `sum`.
fn gives(alloc: Global, entry: &[u8], accepted: u64, sum: u64) -> Result<bool, AllocError> {
    let (some, replaced) = see_changed(alloc, entry, false)?;
    let (others, nudged) = see_changed(alloc, entry, true)?;
    let (whole, cut) = see_prefixes(entry);
    let sums = replaced.wrapping_mul(31).wrapping_add(nudged);
    let all = some.wrapping_add(others).wrapping_add(whole);
    Ok(all == accepted && sums.wrapping_mul(31).wrapping_add(cut) == sum)
}

/// Entries, how many load options their changed bytes and prefixes form, and the checksum of the others.
pub(crate) const ROWS: &[(&str, u64, u64)] = &[
    (entries::BOOT0001, 850, 0xe8a5_870b_a828_fbcc),
    (entries::BOOT0002, 951, 0xbe19_ef21_c7b3_9a32),
    (entries::BOOT0003, 292, 0xb488_3b7a_5f0f_4057),
    (entries::BOOT000A, 334, 0x3f5e_4b56_f5d8_2815),
    (entries::BOOT0010, 542, 0xc583_0edc_93ae_4b40),
    (entries::BOOT0011, 841, 0xff5f_d346_c1e4_14bb),
    (entries::BOOT0013, 754, 0xf431_4d43_9c01_e62c),
    (entries::BOOT0014, 675, 0x5823_f2cb_d0cc_2659),
    (entries::BOOT0024, 525, 0x1271_ce77_1b8e_6821),
    (entries::BOOT0031, 536, 0x2f0c_012d_dfb6_5cf0),
];

#[test]
fn hostile_entries(rt: HostRuntime) -> Result<(), Fail> {
    for (entry, accepted, sum) in ROWS {
        let entry = bytes(rt.alloc(), entry)?;
        assert!(rt; gives(rt.alloc(), &entry, *accepted, *sum)?, "{entry:?}");
    }
    Ok(())
}
