//! Owned strings.

use crate::CStr16;
use alloc::vec::Vec;
use core::ops::Deref;

/// A string that owns its units.
#[derive(Debug, PartialEq, Eq)]
pub struct CString16(Vec<u16>);

impl From<&CStr16> for CString16 {
    fn from(string: &CStr16) -> Self {
        Self(string.to_u16_slice_with_nul().to_vec())
    }
}

impl TryFrom<Vec<u16>> for CString16 {
    type Error = ();

    fn try_from(units: Vec<u16>) -> Result<Self, ()> {
        Ok(Self(units))
    }
}

impl Deref for CString16 {
    type Target = CStr16;

    fn deref(&self) -> &CStr16 {
        // SAFETY: only the conversions of `nardcorbel` make one, from strings.
        unsafe { CStr16::from_u16_with_nul_unchecked(&self.0) }
    }
}
