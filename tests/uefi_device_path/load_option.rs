//! Load options: the fields of accepted entries; and the errors of refused ones, their offsets, and the parts
//! before the fault. The layout is in the UEFI Specification, section 3.1.3.

use crate::entries;
use for_tests::{bytes, says, split_row};
use std::alloc::Global;
use std::fmt::Write;
use std::test::Fail;
use uefi_device_path::{AllowShortcuts, DisplayOnly, LoadOption};

/// An entry, its attributes, the length of its description in units with the NUL, its first unit, the size of
/// the file path list in bytes, the number of nodes in the only path, and the optional data.
type Row = (&'static str, u32, usize, u16, usize, usize, &'static [u8]);

const ROWS: &[Row] = &[
    (entries::BOOT0001, 1, 7, 0x64, 98, 2, b""),
    (entries::BOOT0002, 0, 14, 0xdc, 94, 2, b"odd"),
    (entries::BOOT0003, 1, 1, 0, 42, 3, b""),
    (entries::BOOT000A, 0x101, 11, 0x55, 24, 1, b""),
];

/// Returns whether an option has one path, with this many nodes.
fn has_nodes(option: &LoadOption<'_>, want: usize) -> bool {
    let mut paths = option.device_paths();
    matches!(paths.next(), Some(path) if path.node_iter().count() == want) && paths.next().is_none()
}

/// Returns whether an entry has the fields of a row.
fn has_fields(entry: &[u8], row: &Row) -> bool {
    let Ok(option) = LoadOption::from_bytes(entry) else {
        return false;
    };
    let units = option.description_units();
    option.attributes() == row.1
        && units.len() == row.2
        && units.get(0) == Some(row.3)
        && option.file_path_list().len() == row.4
        && has_nodes(&option, row.5)
        && option.optional_data() == row.6
        && option.as_bytes() == entry
        && LoadOption::from_bytes(entry) == Ok(option)
}

#[test]
fn fields(rt: HostRuntime) -> Result<(), Fail> {
    for row in ROWS {
        assert!(rt; has_fields(&bytes(rt.alloc(), row.0)?, row), "{}", row.0);
    }
    Ok(())
}

/// Attributes with one bit set, and their meaning: active, force reconnect, hidden, and the category.
const ATTRIBUTES: &[(u32, bool, bool, bool, u32)] = &[
    (0x1, true, false, false, 0),
    (0x2, false, true, false, 0),
    (0x4, false, false, false, 0),
    (0x8, false, false, true, 0),
    (0x10, false, false, false, 0),
    (0x80, false, false, false, 0),
    (0x100, false, false, false, 1),
    (0x200, false, false, false, 2),
    (0x400, false, false, false, 4),
    (0x800, false, false, false, 8),
    (0x1000, false, false, false, 0x10),
    (0x2000, false, false, false, 0),
    (0x8000_0000, false, false, false, 0),
];

#[test]
fn attributes_of_one_bit(rt: HostRuntime) -> Result<(), Fail> {
    for (attributes, active, reconnect, hidden, category) in ATTRIBUTES {
        let mut entry = Vec::from_slice(rt.alloc(), &attributes.to_le_bytes())?;
        entry.extend_from_slice(&bytes(rt.alloc(), "040000007fff0400")?)?;
        let option = LoadOption::from_bytes(&entry)?;
        let is_right = option.is_active() == *active
            && option.is_force_reconnect() == *reconnect
            && option.is_hidden() == *hidden
            && option.category() == *category;
        assert!(rt;
            is_right && option.attributes() == *attributes,
            "{attributes:x}"
        );
    }
    Ok(())
}

/// An entry in hexadecimal, and its parts before the fault: attributes, the length of the description in
/// units with the NUL, each whole device path, and the nodes before the fault; then the fault and its offset.
const PARTS: &str = " load option ends before its description at offset 0
0100000004 load option ends before its description at offset 5
0100000004006400 1; description is not null-terminated at offset 8
01000000040064000000 1; 2 units; \
    file path list extends past the end of the load option at offset 4
09000000000064000000 9; 2 units; file path list is empty at offset 10
01000000080064000000010106000200017f 1; 2 units; nodes Pci(0x0,0x2); \
    device path ends within a node header at offset 16
010000001400000001010600021f7fff0400010106000300010203006f 1; 1 units; path Pci(0x1F,0x2); \
    nodes Pci(0x0,0x3); device path node is shorter than its header at offset 26
010000000f00000001010600021f7fff040001010600037fff0400 1; 1 units; path Pci(0x1F,0x2); \
    device path node extends past the end of the data at offset 20
010000000400000001010400 1; 1 units; nodes Path(1,1); device path has no end node at offset 12
01000000040000007f000400 1; 1 units; end node has an unknown sub-type at offset 9
01000000050000007fff050000 1; 1 units; end node has data at offset 10
01000000060000007fff04007fff 1; 1 units; path ; device path ends within a node header at offset 12";

/// Returns the parts of an entry before its fault, and the fault, which `from_bytes` also returns.
fn parts_of(alloc: Global, entry: &[u8]) -> Result<String, Fail> {
    let mut text = String::new(alloc);
    let parts = LoadOption::read_parts(entry).err().ok_or("a fault")?;
    if let Some(attributes) = parts.attributes() {
        write!(text, "{attributes}; ")?;
    }
    if let Some(units) = parts.description_units() {
        let len = units.len();
        write!(text, "{len} units; ")?;
    }
    for path in parts.device_paths() {
        write!(text, "path {path}; ")?;
    }
    if parts.node_iter().next().is_some() {
        let nodes = parts.display_nodes(DisplayOnly(false), AllowShortcuts(false));
        write!(text, "nodes {nodes}; ")?;
    }
    let error = parts.error();
    write!(text, "{error}")?;
    let printed = error.to_string(alloc)?;
    if LoadOption::from_bytes(entry).err() != Some(error) || !says(alloc, &error, &printed) {
        return Err(Fail::from("another fault"));
    }
    Ok(text)
}

#[test]
fn parts_before_a_fault(rt: HostRuntime) -> Result<(), Fail> {
    for line in PARTS.split('\n') {
        let (digits, want) = split_row(line);
        let text = parts_of(rt.alloc(), &bytes(rt.alloc(), digits)?)?;
        assert!(rt; text.as_str() == want, "{digits}: {text}");
    }
    Ok(())
}
