//! A stand-in for the crate `uefi`, so that the crate `nardcorbel` is built and tested where cargo reaches no registry: the items
//! that its feature `uefi` uses, with the same signatures and layouts. Only builds of `nardcorbel` by itself use it; your program
//! gets the crate `uefi`.
#![no_std]

extern crate alloc;

mod guid;
pub mod proto;
mod strings;

pub use guid::Guid;
pub use strings::CString16;

/// A string with its NUL.
#[derive(Debug, PartialEq, Eq)]
#[repr(transparent)]
pub struct CStr16([u16]);

impl CStr16 {
    /// Creates a string from units without a test.
    ///
    /// # Safety
    ///
    /// The last unit, and only that, is 0, and none is a surrogate.
    pub const unsafe fn from_u16_with_nul_unchecked(units: &[u16]) -> &Self {
        // SAFETY: the string is a transparent wrapper.
        unsafe { &*(core::ptr::from_ref(units) as *const Self) }
    }

    /// Returns the units and the NUL.
    pub const fn to_u16_slice_with_nul(&self) -> &[u16] {
        &self.0
    }
}
