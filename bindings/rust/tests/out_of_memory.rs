//! What strings and paths hold after an allocator unwinds. The hook that unwinds is not stable, so only the repository's check
//! compiles these tests.
#![cfg(all(out_of_memory, feature = "alloc"))]
#![feature(alloc_error_hook)]

use nardcorbel::{char16, cstr16, CString16, PathBuf};
use std::alloc::{set_alloc_error_hook, GlobalAlloc, Layout, System};
use std::cell::Cell;
use std::fmt::Write;
use std::panic::{catch_unwind, AssertUnwindSafe};

thread_local! {
    static NO_MEMORY: Cell<bool> = const { Cell::new(false) };
}

/// An allocator that has no memory if a test says so.
struct Sometimes;

// SAFETY: the system's allocator does all, or the call returns a null pointer.
unsafe impl GlobalAlloc for Sometimes {
    unsafe fn alloc(&self, layout: Layout) -> *mut u8 {
        if NO_MEMORY.get() {
            return std::ptr::null_mut();
        }
        // SAFETY: the caller's.
        unsafe { System.alloc(layout) }
    }

    unsafe fn dealloc(&self, memory: *mut u8, layout: Layout) {
        // SAFETY: the caller's.
        unsafe { System.dealloc(memory, layout) }
    }
}

#[global_allocator]
static ALLOCATOR: Sometimes = Sometimes;

#[test]
fn nothing_changes() {
    set_alloc_error_hook(|_| {
        NO_MEMORY.set(false);
        panic!("out of memory");
    });
    type Change = fn(&mut CString16);
    let changes: [Change; 4] = [
        |it| it.push(char16!('c')),
        |it| it.push_str(cstr16!("cd")),
        |it| it.extend(cstr16!("cd").as_slice()),
        |it| it.write_str("cd").unwrap(),
    ];
    for change in changes {
        // The vector has no spare capacity.
        let mut string = CString16::try_from(vec![0x61, 0x62, 0]).unwrap();
        NO_MEMORY.set(true);
        assert!(catch_unwind(AssertUnwindSafe(|| change(&mut string))).is_err());
        assert_eq!(string.to_u16_slice_with_nul(), [0x61, 0x62, 0]);
    }
    let mut path = PathBuf::from(CString16::try_from(vec![0x61, 0]).unwrap());
    NO_MEMORY.set(true);
    assert!(catch_unwind(AssertUnwindSafe(|| path.push(cstr16!("b")))).is_err());
    assert_eq!(path.to_cstr16().to_u16_slice_with_nul(), [0x61, 0]);
}
