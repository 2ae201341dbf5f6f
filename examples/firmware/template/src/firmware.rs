//! What the program needs of the firmware: its console, its variables and its memory.

use alloc::vec;
use alloc::vec::Vec;
use core::alloc::{GlobalAlloc, Layout};
use core::ffi::c_void;
use core::fmt::{self, Write};
use core::panic::PanicInfo;
use core::ptr;
use core::sync::atomic::{AtomicPtr, Ordering};
use nardcorbel::{guid, CStr16, Guid};

/// The firmware's system table (UEFI Specification 2.10, section 4.3).
#[repr(C)]
pub struct SystemTable {
    head: [*const c_void; 8],
    console: *mut Console,
    errors: [*const c_void; 2],
    runtime: *const Runtime,
    boot: *mut Boot,
}

/// The first two calls of a console (section 12.4).
#[repr(C)]
struct Console {
    reset: *const c_void,
    output_string: unsafe extern "efiapi" fn(*mut Console, *const u16) -> usize,
}

/// The runtime services up to the one that reads variables (section 4.5).
#[repr(C)]
struct Runtime {
    head: [*const c_void; 9],
    get_variable:
        unsafe extern "efiapi" fn(*const u16, *const Guid, *mut u32, *mut usize, *mut u8) -> usize,
}

/// The boot services up to those of memory (section 4.4).
#[repr(C)]
struct Boot {
    head: [*const c_void; 8],
    allocate_pool: unsafe extern "efiapi" fn(u32, usize, *mut *mut u8) -> usize,
    free_pool: unsafe extern "efiapi" fn(*mut u8) -> usize,
}

/// The owner of the boot variables.
const GLOBAL: Guid = guid!("8be4df61-93ca-11d2-aa0d-00e098032b8c");
/// The type of memory that a program takes.
const LOADER_DATA: u32 = 2;
const BUFFER_TOO_SMALL: usize = 5 | 1 << (usize::BITS - 1);

/// The boot services, once the program has started.
static BOOT: AtomicPtr<Boot> = AtomicPtr::new(ptr::null_mut());

impl SystemTable {
    /// Makes memory available. Call it first.
    pub fn start(&self) {
        BOOT.store(self.boot, Ordering::Relaxed);
    }

    /// Reads a boot variable.
    pub fn variable(&self, name: &CStr16) -> Option<Vec<u8>> {
        let (mut bytes, mut size, mut attributes) = (Vec::new(), 0, 0);
        loop {
            let data = bytes.as_mut_ptr();
            let name = name.as_ptr().cast();
            // SAFETY: the firmware gave its runtime services; the name ends in a NUL, and the buffer has the size.
            let status = unsafe {
                ((*self.runtime).get_variable)(name, &GLOBAL, &mut attributes, &mut size, data)
            };
            match status {
                0 => {
                    bytes.truncate(size);
                    return Some(bytes);
                }
                BUFFER_TOO_SMALL => bytes = vec![0; size],
                _ => return None,
            }
        }
    }
}

impl Write for &SystemTable {
    fn write_str(&mut self, text: &str) -> fmt::Result {
        let units: Vec<u16> = text.encode_utf16().chain([0]).collect();
        // SAFETY: the firmware gave its console, and the units end in a NUL.
        unsafe { ((*self.console).output_string)(self.console, units.as_ptr()) };
        Ok(())
    }
}

/// Takes memory from the firmware.
struct Pool;

#[global_allocator]
static POOL: Pool = Pool;

// SAFETY: the firmware's pool has memory of its own for each call, aligned to 8 bytes.
unsafe impl GlobalAlloc for Pool {
    unsafe fn alloc(&self, layout: Layout) -> *mut u8 {
        let (boot, mut memory) = (BOOT.load(Ordering::Relaxed), ptr::null_mut());
        if boot.is_null() || layout.align() > 8 {
            return ptr::null_mut();
        }
        // SAFETY: the firmware gave its boot services.
        unsafe { ((*boot).allocate_pool)(LOADER_DATA, layout.size(), &mut memory) };
        memory
    }

    unsafe fn dealloc(&self, memory: *mut u8, _: Layout) {
        // SAFETY: the memory was allocated here, so the boot services are known.
        unsafe { ((*BOOT.load(Ordering::Relaxed)).free_pool)(memory) };
    }
}

#[panic_handler]
fn panic(_: &PanicInfo<'_>) -> ! {
    loop {}
}
