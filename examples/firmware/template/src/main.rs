//! Lists the boot entries of the firmware, in their order: of each its description, its device path and the files that it names.
//!
//! Copy this directory to begin a program of your own: `cargo build --target x86_64-unknown-uefi` builds it.
#![no_std]
#![no_main]

extern crate alloc;

mod firmware;

use core::ffi::c_void;
use core::fmt::{self, Write};
use firmware::SystemTable;
use nardcorbel::proto::device_path::build::DevicePathBuilder;
use nardcorbel::proto::device_path::{DevicePathInstance, DevicePathNodeEnum, LoadOption};
use nardcorbel::{cstr16, order_numbers, CString16, LoadOptionKind, LoadOptionName};

/// Prints an instance of a device path, and the file that it names.
fn print_instance(mut table: &SystemTable, instance: &DevicePathInstance) -> fmt::Result {
    let mut bytes = alloc::vec::Vec::new();
    let mut builder = Ok(DevicePathBuilder::with_vec(&mut bytes));
    for node in instance {
        builder = builder.and_then(|it| it.push(&node));
    }
    let path = match builder.and_then(DevicePathBuilder::finalize) {
        Ok(path) => path,
        Err(error) => return write!(table, "    no path: {error}\r\n"),
    };
    write!(table, "    on {path}\r\n")?;
    let names = |it| matches!(it, Ok(DevicePathNodeEnum::MediaFilePath(_)));
    if !path.node_iter().any(|it| names(it.as_enum())) {
        return write!(table, "    names no file\r\n");
    }
    match path.file_path() {
        Ok(file) => {
            write!(table, "    path {file}\r\n")?;
            match file.normalize() {
                Ok(file) => write!(table, "    file {file}\r\n"),
                Err(error) => write!(table, "    no file: {error}\r\n"),
            }
        }
        Err(error) => write!(table, "    no file: {error}\r\n"),
    }
}

/// Prints an entry.
fn print_entry(mut table: &SystemTable, number: u16) -> fmt::Result {
    let kind = LoadOptionKind::Boot;
    let name = LoadOptionName { kind, number };
    let mut string = CString16::new();
    write!(string, "{name}")?;
    let Some(bytes) = table.variable(&string) else {
        return write!(table, "{name} cannot be read\r\n");
    };
    match LoadOption::from_bytes(&bytes) {
        Err(error) => write!(table, "{name} is malformed: {error}\r\n"),
        Ok(option) => {
            let active = if option.is_active() {
                ""
            } else {
                " not active"
            };
            write!(table, "{name}{active}: {}\r\n", option.description())?;
            // The first path leads to what the firmware starts.
            let mut paths = option.device_paths().take(1);
            paths.try_for_each(|path| {
                path.instance_iter()
                    .try_for_each(|it| print_instance(table, it))
            })
        }
    }
}

/// Prints all entries.
fn print_entries(mut table: &SystemTable) -> fmt::Result {
    let order = table.variable(cstr16!("BootOrder")).unwrap_or_default();
    match order_numbers(&order) {
        Ok(mut numbers) => numbers.try_for_each(|it| print_entry(table, it))?,
        Err(error) => write!(table, "BootOrder: {error}\r\n")?,
    }
    table.write_str("entries end\r\n")
}

/// The function that the firmware starts.
#[no_mangle]
pub extern "efiapi" fn efi_main(_image: *const c_void, table: &SystemTable) -> usize {
    table.start();
    usize::from(print_entries(table).is_err())
}
