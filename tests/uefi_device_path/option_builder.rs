//! Writing load options: the sample entries again, and each refused field.

use crate::hostile_entries::ROWS;
use for_tests::{BufferCall, END, bytes, writes_whole};
use std::test::Fail;
use uefi_device_path::OptionBuildError::{EmptyList, ListTooLong, NulInDescription};
use uefi_device_path::{DevicePath, LoadOption, LoadOptionBuilder, OptionBuildError};

/// Returns how many bytes were written, or are needed.
pub(crate) fn needed(written: Result<usize, OptionBuildError>) -> Result<usize, usize> {
    match written {
        Ok(count) => Ok(count),
        Err(OptionBuildError::BufferTooSmall(count)) => Err(count),
        Err(_) => Err(0),
    }
}

/// The fields of a load option to write.
#[derive(Clone, Copy)]
struct Written<'a>(LoadOptionBuilder<'a>);

impl BufferCall<u8> for Written<'_> {
    fn write(&self, room: &mut [u8]) -> Result<usize, usize> {
        needed(self.0.write(room))
    }
}

/// Returns whether the fields of an entry are written as the same entry.
fn is_written_again(rt: &HostRuntime, entry: &[u8]) -> Result<bool, Fail> {
    let option = LoadOption::from_bytes(entry)?;
    let units = option.description_units().to_vec(rt.alloc())?;
    let text = units.get(..units.len() - 1).ok_or("a NUL")?;
    let mut paths = Vec::new(rt.alloc());
    for path in option.device_paths() {
        paths.push(path)?;
    }
    let fields = LoadOptionBuilder::new(option.attributes(), text, &paths, option.optional_data());
    Ok(
        writes_whole(rt.alloc(), entry, 9, &Written(fields))?
            && fields.to_vec(rt.alloc())?.as_slice() == entry,
    )
}

#[test]
fn written_again(rt: HostRuntime) -> Result<(), Fail> {
    for (digits, _, _) in ROWS {
        let entry = bytes(rt.alloc(), digits)?;
        assert!(rt; is_written_again(&rt, &entry)?, "{digits}");
    }
    Ok(())
}

/// Returns whether a description and `count` empty paths are refused with this error, in memory and in an
/// empty buffer. If nothing else is wrong, only the empty buffer is refused.
fn are_refused(
    rt: &HostRuntime,
    description: &[u16],
    count: usize,
    want: Option<OptionBuildError>,
) -> Result<bool, Fail> {
    let paths = vec![in rt.alloc(); DevicePath::from_bytes(END)?; count]?;
    let fields = LoadOptionBuilder::new(1, description, &paths, &[1]);
    let needed = count.saturating_mul(4).saturating_add(9);
    Ok(
        fields.write(&mut []).err() == want.or(Some(OptionBuildError::BufferTooSmall(needed)))
            && fields.to_vec(rt.alloc()).err() == want,
    )
}

/// Descriptions, the number of paths, and why each is refused.
const REFUSED: &[(&[u16], usize, Option<OptionBuildError>)] = &[
    (&[0], 1, Some(NulInDescription(0))),
    (&[0x61, 0xd800, 0], 0, Some(NulInDescription(2))),
    (&[], 0, Some(EmptyList)),
    (&[0xd800], 16_384, Some(ListTooLong)),
    (&[], 16_383, None),
];

#[test]
fn refused(rt: HostRuntime) -> Result<(), Fail> {
    for (description, count, want) in REFUSED {
        assert!(rt; are_refused(&rt, description, *count, *want)?, "{count}");
    }
    Ok(())
}
