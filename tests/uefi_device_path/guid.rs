//! GUIDs, their bytes and their texts. The values come from the UEFI Specification, sections 3.3 and 5.3.3,
//! from EDK II's headers, and from Linux's partition tables.

use for_tests::{bytes, shows, split_row};
use std::test::Fail;
use uefi_device_path::Guid;

/// GUIDs as bytes in memory, and as EDK II prints them. `efivarfs` names files by the same texts in lower
/// case.
const ROWS: &str = "\
61dfe48bca93d211aa0d00e098032b8c 8BE4DF61-93CA-11D2-AA0D-00E098032B8C
28732ac11ff8d211ba4b00a0c93ec93b C12A7328-F81F-11D2-BA4B-00A0C93EC93B
af3dc60f838472478e793d69d8477de4 0FC63DAF-8483-4772-8E79-3D69D8477DE4
00000000000000000000000000000000 00000000-0000-0000-0000-000000000000";

/// Returns whether bytes are a GUID with these two texts.
fn says(rt: &HostRuntime, bytes: &[u8], upper: &str, lower: &str) -> bool {
    let mut given = [0; 16];
    if bytes.len() != given.len() {
        return false;
    }
    given.copy_from_slice(bytes);
    let guid = Guid::from_bytes(given);
    guid.to_bytes() == given
        && shows(rt.alloc(), &guid, upper)
        && Guid::try_parse(upper) == Some(guid)
        && Guid::try_parse(lower) == Some(guid)
}

#[test]
fn texts(rt: HostRuntime) -> Result<(), Fail> {
    for line in ROWS.split('\n') {
        let (digits, upper) = split_row(line);
        let lower = upper.to_ascii_lowercase(rt.alloc())?;
        let is_right = says(&rt, &bytes(rt.alloc(), digits)?, upper, lower.as_str());
        assert!(rt; is_right, "{line}");
    }
    Ok(())
}
