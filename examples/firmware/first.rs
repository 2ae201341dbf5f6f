//! A first program for firmware in Rust: prints a path in its normal form. docs/FIRMWARE.md has the commands that build it.
#![no_std]
#![no_main]

use core::ffi::c_void;
use nardcorbel::{cstr16, Error, Path};

/// The firmware's system table up to the console for output (UEFI Specification 2.10, section 4.3).
#[repr(C)]
pub struct SystemTable {
    others: [*const c_void; 8],
    console: *mut Console,
}

/// The first two calls of a console (UEFI Specification 2.10, section 12.4).
#[repr(C)]
pub struct Console {
    reset: *const c_void,
    output_string: unsafe extern "efiapi" fn(*mut Console, *const u16) -> usize,
}

/// Makes a path normal, and prints it.
fn print_normal(console: *mut Console) -> Result<(), Error> {
    let mut normal = [0; 48];
    let file = Path::new(cstr16!(r"\EFI\debian\..\BOOT\.\BOOTX64.EFI"));
    let path = file.normalize_in_buf(&mut normal)?;
    for string in [path.to_cstr16(), cstr16!("\r\n")] {
        // SAFETY: the firmware gave its console, and a string ends in a NUL.
        unsafe { ((*console).output_string)(console, string.as_ptr().cast()) };
    }
    Ok(())
}

/// The function that the firmware starts.
#[no_mangle]
pub extern "efiapi" fn efi_main(_image: *const c_void, table: &SystemTable) -> usize {
    usize::from(print_normal(table.console).is_err())
}

#[panic_handler]
fn panic(_: &core::panic::PanicInfo<'_>) -> ! {
    loop {}
}
