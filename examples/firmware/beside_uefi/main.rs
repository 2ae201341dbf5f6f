//! Lists the boot entries of the firmware, and the files that they name, with the crate `uefi` for strings and paths and this
//! library for boot entries and device paths.
#![no_std]
#![no_main]

extern crate alloc;

#[path = "../template/src/firmware.rs"]
mod firmware;

use core::ffi::c_void;
use core::fmt::{self, Write};
use firmware::SystemTable;
use nardcorbel::proto::device_path::LoadOption;
use nardcorbel::{order_numbers, CStr16, DevicePath, LoadOptionKind, LoadOptionName};
use uefi::fs::PathBuf;
use uefi::CString16;

/// The path of the file that a device path names, as the crate `uefi` has it.
fn file_of(path: &DevicePath) -> Result<PathBuf, nardcorbel::Error> {
    let file = path.file_path()?.normalize()?.into_cstring16();
    Ok(PathBuf::from(CString16::from(file)))
}

/// Prints an entry.
fn print_entry(mut table: &SystemTable, number: u16) -> fmt::Result {
    let kind = LoadOptionKind::Boot;
    let name = alloc::format!("{}", LoadOptionName { kind, number });
    let string = CString16::try_from(name.as_str()).map_err(|_| fmt::Error)?;
    let bytes = table
        .variable(<&CStr16>::from(&*string))
        .unwrap_or_default();
    match LoadOption::from_bytes(&bytes) {
        Err(error) => write!(table, "{string} is malformed: {error}\r\n"),
        Ok(option) => {
            write!(table, "{string}: {}\r\n", option.description())?;
            option
                .device_paths()
                .take(1)
                .try_for_each(|path| match file_of(path) {
                    Ok(file) => write!(
                        table,
                        "    file {file}, {} components\r\n",
                        file.components().count()
                    ),
                    Err(error) => write!(table, "    no file: {error}\r\n"),
                })
        }
    }
}

/// Prints all entries.
fn print_entries(mut table: &SystemTable) -> fmt::Result {
    let order = CString16::try_from("BootOrder").map_err(|_| fmt::Error)?;
    let order = table.variable(<&CStr16>::from(&*order)).unwrap_or_default();
    match order_numbers(&order) {
        Ok(mut numbers) => numbers.try_for_each(|it| print_entry(table, it))?,
        Err(error) => write!(table, "BootOrder: {error}\r\n")?,
    }
    table.write_str("entries end\r\n")
}

/// The function that the firmware starts.
#[no_mangle]
pub extern "efiapi" fn efi_main(_image: *const c_void, table: &SystemTable) -> usize {
    table.start();
    usize::from(print_entries(table).is_err())
}
