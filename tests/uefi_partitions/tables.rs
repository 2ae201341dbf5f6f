//! Partition tables that sgdisk and sfdisk made, with the partitions that they list, and changed ones.

use crate::disks::{CHECKSUMS, EXTENTS, GUID_DISKS, GuidDisk, HEADERS, MBR_DISKS};
use for_tests::{bytes, shows};
use std::alloc::Global;
use std::test::Fail;
use uefi_partitions::{
    GptEntries, GptEntry, GptError, GptHeader, Mbr, MbrError, Partition, PartitionError,
    PartitionTable, crc32,
};

/// The type of an EFI system partition.
const SYSTEM: &str = "C12A7328-F81F-11D2-BA4B-00A0C93EC93B";

/// Writes runs of bytes into a block, each to the offset before it.
fn fill(alloc: Global, block: &mut Vec<u8>, runs: &str) -> Result<(), Fail> {
    for run in runs.split_ascii_whitespace() {
        let (offset, digits) = run.split_once(':').ok_or("an offset")?;
        let offset: usize = offset.parse()?;
        for (place, byte) in bytes(alloc, digits)?.iter().enumerate() {
            let place = offset.saturating_add(place);
            *block.get_mut(place).ok_or("a block that is long enough")? = *byte;
        }
    }
    Ok(())
}

/// Returns a block of `len` bytes with these runs.
fn block(alloc: Global, len: usize, runs: &str) -> Result<Vec<u8>, Fail> {
    let mut block = vec![in alloc; 0u8; len]?;
    fill(alloc, &mut block, runs)?;
    Ok(block)
}

/// Returns the partition as a table gives it, except for its signature.
fn without_signature(it: Partition) -> (u32, u64, u64, PartitionTable, bool) {
    (it.number, it.start, it.size, it.table, it.is_system)
}

/// Returns whether an entry has the fields that sfdisk lists.
fn is_entry(alloc: Global, entry: &GptEntry<'_>, want: &(u32, u64, u64, &str, &str, &str)) -> bool {
    let (_, start, size, unique, kind, name) = *want;
    let mut units = entry.name().into_iter();
    let has_name = name
        .chars()
        .all(|c| units.next() == u16::try_from(c as u32).ok())
        && units.next().unwrap_or(0) == 0;
    has_name
        && entry.first_block() == start
        && entry.last_block().wrapping_sub(start).wrapping_add(1) == size
        && shows(alloc, &entry.unique_guid(), unique)
        && shows(alloc, &entry.type_guid(), kind)
        && entry.attributes() == 0
        && !entry.is_unused()
}

/// Returns whether each number has the partition that is listed for it, or none.
fn has_partitions(alloc: Global, entries: &GptEntries<'_>, disk: &GuidDisk) -> bool {
    for number in 0..entries.len().saturating_add(2) {
        let listed = disk.partitions.iter().find(|it| it.0 == number);
        let found = entries.partition(number);
        let is_right = match (listed, entries.entry(number)) {
            (Some(it), Some(entry)) => {
                let want = (number, it.1, it.2, PartitionTable::Gpt, it.4 == SYSTEM);
                is_entry(alloc, &entry, it)
                    && found.map(without_signature) == Ok(want)
                    && found.map(|it| it.signature) == Ok(entry.unique_guid().to_bytes())
            }
            (None, Some(entry)) => entry.is_unused() && found == Err(PartitionError::Unused),
            (Some(_), None) => false,
            (None, None) => {
                (number == 0 || number > disk.count) && found == Err(PartitionError::NoEntry)
            }
        };
        if !is_right {
            return false;
        }
    }
    true
}

/// Returns whether a header describes the entries of a disk: as they are, with more bytes, and neither with
/// fewer nor with another byte.
fn describes(alloc: Global, header: &GptHeader<'_>, disk: &GuidDisk) -> Result<bool, Fail> {
    let len = header.entries_len() as usize;
    let mut array = block(alloc, len.saturating_add(512), disk.entries)?;
    let whole = array.get(..len).unwrap_or(&[]);
    let short = array.get(..len.saturating_sub(1)).unwrap_or(&[]);
    let mut is_right = len == disk.count as usize * 128
        && (header.entry_count(), header.entry_size()) == (disk.count, 128)
        && has_partitions(alloc, &GptEntries::new(header, &array)?, disk)
        && has_partitions(alloc, &GptEntries::new(header, whole)?, disk)
        && GptEntries::new(header, short).err() == Some(GptError::ShortEntries);
    for place in [0, 55, 127, len.saturating_sub(1)] {
        let byte = array.get_mut(place).ok_or("a byte")?;
        *byte ^= 1;
        let refused = GptEntries::new(header, &array).err();
        is_right = is_right && refused == Some(GptError::EntriesChecksum);
        *array.get_mut(place).ok_or("a byte")? ^= 1;
    }
    Ok(is_right)
}

/// Returns whether a disk has this MBR, and these two headers.
fn is_disk(alloc: Global, disk: &GuidDisk) -> Result<bool, Fail> {
    let first = block(alloc, 512, disk.mbr)?;
    let mbr = Mbr::from_block(&first)?;
    let second = block(alloc, 512, disk.header)?;
    let header = GptHeader::from_block(&second, 1)?;
    let last = block(alloc, 512, disk.other)?;
    let other = GptHeader::from_block(&last, disk.other_block)?;
    Ok(
        mbr.is_protective()
            && mbr.partition(1) == Err(PartitionError::Protective)
            && (header.entries_block(), header.other_block()) == (2, disk.other_block)
            && other.other_block() == 1
            && other.last_usable() == header.last_usable()
            && other.last_usable() < other.entries_block()
            && header.first_usable() > 1
            && other.disk_guid() == header.disk_guid()
            && shows(
                alloc,
                &other.disk_guid(),
                "01234567-89AB-CDEF-0123-456789ABCDEF",
            )
            && header.as_bytes() == second.as_slice()
            && header.entries_checksum() == other.entries_checksum()
            && describes(alloc, &header, disk)?
            && describes(alloc, &other, disk)?,
    )
}

#[test]
fn guid_disks(rt: HostRuntime) -> Result<(), Fail> {
    for disk in GUID_DISKS {
        assert!(rt; is_disk(rt.alloc(), disk)?, "{}", disk.name);
    }
    Ok(())
}

/// Returns whether a record of an MBR has the partition that is listed for it, or none.
fn has_record(mbr: &Mbr<'_>, disk: u32, number: u32, listed: Option<&(u32, u64, u64, u8)>) -> bool {
    let found = mbr.partition(number);
    let Some((_, start, size, kind)) = listed else {
        let is_number = number != 0 && number <= 4;
        return found == Err(PartitionError::Unused) && is_number
            || found == Err(PartitionError::NoEntry) && !is_number;
    };
    let want = (number, *start, *size, PartitionTable::Mbr, *kind == 0xef);
    let [a, b, c, d] = disk.to_le_bytes();
    let signature = [a, b, c, d, 0, 0, 0, 0, 0, 0, 0, 0, 0, 0, 0, 0];
    found.map(without_signature) == Ok(want) && found.map(|it| it.signature) == Ok(signature)
}

/// Returns whether a block with another byte at this offset is no MBR.
fn needs_byte(alloc: Global, first: &[u8], place: usize) -> Result<bool, Fail> {
    let mut changed = Vec::from_slice(alloc, first)?;
    *changed.get_mut(place).ok_or("a byte")? ^= 1;
    Ok(Mbr::from_block(&changed).err() == Some(MbrError::NoSignature))
}

#[test]
fn mbr_disks(rt: HostRuntime) -> Result<(), Fail> {
    for (name, runs, disk, partitions) in MBR_DISKS {
        let first = block(rt.alloc(), 512, runs)?;
        let mbr = Mbr::from_block(&first)?;
        assert!(rt;
            !mbr.is_protective() && mbr.disk_signature() == *disk,
            "{name}"
        );
        for number in 0..6 {
            let listed = partitions.iter().find(|it| it.0 == number);
            assert!(rt; has_record(&mbr, *disk, number, listed), "{name} {number}");
        }
        let short = Mbr::from_block(first.get(..511).unwrap_or(&[])).err();
        assert!(rt;
            short == Some(MbrError::ShortBlock)
                && needs_byte(rt.alloc(), &first, 510)?
                && needs_byte(rt.alloc(), &first, 511)?
        );
    }
    Ok(())
}

#[test]
fn changed_headers(rt: HostRuntime) -> Result<(), Fail> {
    let alloc = rt.alloc();
    let disk = GUID_DISKS.first().ok_or("a disk")?;
    for (runs, len, number, want) in HEADERS {
        let mut changed = block(alloc, 512, disk.header)?;
        fill(alloc, &mut changed, runs)?;
        let found = GptHeader::from_block(changed.get(..*len).unwrap_or(&[]), *number).err();
        assert_eq!(rt; found, *want, "{runs} {len} {number}");
    }
    Ok(())
}

#[test]
fn extents(rt: HostRuntime) -> Result<(), Fail> {
    let alloc = rt.alloc();
    let disk = GUID_DISKS.first().ok_or("a disk")?;
    for (header_runs, entry_runs, want) in EXTENTS {
        let mut changed = block(alloc, 512, disk.header)?;
        fill(alloc, &mut changed, header_runs)?;
        let mut array = block(alloc, 16_384, disk.entries)?;
        fill(alloc, &mut array, entry_runs)?;
        let header = GptHeader::from_block(&changed, 1)?;
        let found = GptEntries::new(&header, &array)?.partition(1);
        assert_eq!(rt;
            found.map(|it| (it.start, it.size)),
            *want,
            "{header_runs} {entry_runs}"
        );
    }
    Ok(())
}

#[test]
fn checksums(rt: HostRuntime) -> Result<(), Fail> {
    for (digits, want) in CHECKSUMS {
        assert_eq!(rt; crc32(&bytes(rt.alloc(), digits)?), *want, "{digits}");
    }
    Ok(())
}
