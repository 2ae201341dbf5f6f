//! Names of files on FAT volumes, with the results of EDK II's FAT driver and its collation for English,
//! except where `docs/DIFFERENCES.md` says otherwise.

use for_tests::string;
use std::alloc::Global;
use std::test::Fail;
use uefi_fat::{
    FatBytes, FatNameError, check_fat_name, fat_to_str, is_fat_name, is_short_name, same_fat_file,
    str_to_fat, trimmed,
};
use uefi_text::{BufferTooSmall, Char16};

/// Names, and the trimmed part of each.
const TRIMMED: &[(&str, &str)] = &[
    ("boot.efi", "boot.efi"),
    ("  boot.efi", "boot.efi"),
    ("boot. .", "boot"),
    (" a b.c ", "a b.c"),
    (".boot", ".boot"),
    ("...", ""),
    (" ", ""),
    ("", ""),
];

/// Names, and whether files have them.
const NAMES: &[(&str, bool)] = &[
    ("BOOTX64.EFI", true),
    ("a+b,c;d=[e]", true),
    (" \u{e9} ", true),
    ("\u{7f}", true),
    (".", false),
    ("..", false),
    (" . ", false),
    ("a:b", false),
    ("a\\b", false),
    ("\u{1f}", false),
];

/// Two names, and whether they are of one file.
const PAIRS: &[(&str, &str, bool)] = &[
    ("BOOT", "boot", true),
    ("boot.", " BOOT ", true),
    ("boot.efi", "boot", false),
    (" .a", ".A", true),
    ("\u{e9}", "\u{c9}", true),
    ("\u{ff}", "\u{178}", false),
];

/// Names, and whether they are 8.3 names.
const SHORT: &[(&str, bool)] = &[
    ("BOOTX64.EFI", true),
    ("A", true),
    ("LONGNA~1.TXT", true),
    ("~!#%&-{}", true),
    ("\u{c9}", true),
    ("bootx64.efi", false),
    ("BOOT.", false),
    (".EFI", false),
    ("A.B.C", false),
    ("123456789", false),
    ("A.EFIX", false),
    ("A B", false),
    ("A+B", false),
    ("\u{d7}", false),
    ("", false),
];

/// Names, their bytes, and whether a character is replaced.
const BYTES: &[(&str, &[u8], bool)] = &[
    ("boot x64.efi", b"BOOTX64EFI", false),
    ("boot+", b"BOOT_", true),
    ("a\\b", b"A_B", true),
    ("\u{e9}\u{df}", b"\xc9_", true),
    (". .", b"", false),
];

fn is_trimmed(alloc: Global, name: &str, part: &str) -> Result<bool, Fail> {
    let name = string(alloc, name)?;
    let part = string(alloc, part)?;
    Ok(trimmed(name.as_cstr16().as_slice()) == part.as_cstr16().as_slice())
}

#[test]
fn trims(rt: HostRuntime) -> Result<(), Fail> {
    for (name, part) in TRIMMED {
        assert!(rt; is_trimmed(rt.alloc(), name, part)?, "{name}");
    }
    Ok(())
}

fn is_name(alloc: Global, name: &str) -> Result<bool, Fail> {
    let name = string(alloc, name)?;
    Ok(is_fat_name(name.as_cstr16().as_slice()))
}

#[test]
fn names_of_files(rt: HostRuntime) -> Result<(), Fail> {
    for (name, is_so) in NAMES {
        assert!(rt; is_name(rt.alloc(), name)? == *is_so, "{name}");
    }
    Ok(())
}

fn are_same(alloc: Global, first: &str, second: &str) -> Result<bool, Fail> {
    let first = string(alloc, first)?;
    let second = string(alloc, second)?;
    Ok(same_fat_file(first.as_cstr16().as_slice(), second.as_cstr16().as_slice()))
}

#[test]
fn one_file(rt: HostRuntime) -> Result<(), Fail> {
    for (first, second, is_so) in PAIRS {
        assert!(rt;
            are_same(rt.alloc(), first, second)? == *is_so,
            "{first} and {second}"
        );
    }
    Ok(())
}

fn is_short(alloc: Global, name: &str) -> Result<bool, Fail> {
    let name = string(alloc, name)?;
    Ok(is_short_name(name.as_cstr16().as_slice()))
}

#[test]
fn short_names(rt: HostRuntime) -> Result<(), Fail> {
    for (name, is_so) in SHORT {
        assert!(rt; is_short(rt.alloc(), name)? == *is_so, "{name}");
    }
    Ok(())
}

fn refusal(alloc: Global, name: &str) -> Result<Option<FatNameError>, Fail> {
    let name = string(alloc, name)?;
    Ok(check_fat_name(name.as_cstr16().as_slice()).err())
}

/// The first illegal character is reported, but a length that is too great is reported before any.
#[test]
fn refusals(rt: HostRuntime) -> Result<(), Fail> {
    let mut long = String::from_str(rt.alloc(), "a?*")?;
    for _ in 0..252 {
        long.push_str("a")?;
    }
    let character = Char16::try_from_char('?')?;
    let is_illegal = refusal(rt.alloc(), &long)? == Some(FatNameError::IllegalChar(character));
    long.push_str("a")?;
    let is_long = refusal(rt.alloc(), &long)? == Some(FatNameError::TooLong);
    let is_empty = refusal(rt.alloc(), " .")? == Some(FatNameError::Empty);
    assert!(rt;
        is_illegal && is_long && is_empty,
        "{is_illegal} {is_long} {is_empty}"
    );
    Ok(())
}

/// Returns whether a name has these bytes in a buffer of `room` places, whose other places are
/// unchanged.
fn has_bytes(
    alloc: Global,
    name: &str,
    room: usize,
    bytes: &[u8],
    is_replaced: bool,
) -> Result<bool, Fail> {
    let name = string(alloc, name)?;
    let mut buffer = [7; 12];
    if buffer.len() < room || room < bytes.len() {
        return Ok(false);
    }
    let len = bytes.len();
    let written = str_to_fat(name.as_cstr16().as_slice(), &mut buffer[..room]);
    Ok(
        written == FatBytes { len, is_replaced }
            && &buffer[..len] == bytes
            && buffer[len..].iter().all(|byte| *byte == 7),
    )
}

#[test]
fn bytes_of_names(rt: HostRuntime) -> Result<(), Fail> {
    for (name, bytes, is_replaced) in BYTES {
        assert!(rt;
            has_bytes(rt.alloc(), name, 12, bytes, *is_replaced)?,
            "{name}"
        );
    }
    assert!(rt; has_bytes(rt.alloc(), "boot+", 4, b"BOOT", false)?);
    Ok(())
}

/// Returns whether bytes become these units before a NUL in a buffer of `room` places, or how many
/// they are.
fn has_units(bytes: &[u8], room: usize, units: &[u16]) -> bool {
    let mut buffer = [7; 6];
    if buffer.len() < room || buffer.len() <= units.len() {
        return false;
    }
    match fat_to_str(bytes, &mut buffer[..room]) {
        Ok(len) => len == units.len() && &buffer[..len] == units && buffer[len] == 0,
        Err(BufferTooSmall(needed)) => room < needed
            && needed == units.len() + 1
            && buffer == [7; 6],
    }
}

/// Bytes, how much room the buffer has, and the units of their string.
const UNITS: &[(&[u8], usize, &[u16])] = &[
    (b"BOOT", 6, &[66, 79, 79, 84]),
    (b"BOOT", 5, &[66, 79, 79, 84]),
    (b"BOOT", 4, &[66, 79, 79, 84]),
    (b"A\0B", 6, &[65]),
    (b"\xc9", 6, &[0xc9]),
    (b"", 1, &[]),
];

#[test]
fn strings_of_bytes(rt: HostRuntime) {
    for (bytes, room, units) in UNITS {
        assert!(rt; has_units(bytes, *room, units), "{bytes:?} {room}");
    }
}
