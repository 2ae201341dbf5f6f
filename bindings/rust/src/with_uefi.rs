//! Conversions between this crate and the crate `uefi`, which the feature `uefi` adds, so that a program keeps its boot services and
//! reads texts, paths and device paths with this crate.
//!
//! References are converted without a copy where both types have the same layout.
//!
//! ```
//! use nardcorbel::{cstr16, CStr16, Guid};
//!
//! let theirs: &uefi::CStr16 = cstr16!("boot").into();
//! let ours: &CStr16 = theirs.into();
//! assert_eq!(ours, "boot");
//! let guid = Guid::from(uefi::Guid::from_bytes([7; 16]));
//! assert_eq!(guid, Guid::from_bytes([7; 16]));
//! ```

use crate::{CStr16, CString16, DevicePath, Error, Guid, Path};
use core::mem::transmute;
use core::ptr;
use core::slice;
use uefi::proto::device_path::DevicePath as TheirPath;

// What the conversions rely on.
const _: () = {
    assert!(size_of::<&uefi::CStr16>() == size_of::<&CStr16>());
    assert!(size_of::<&TheirPath>() == size_of::<&DevicePath>());
    assert!(size_of::<uefi::Guid>() == size_of::<Guid>());
    assert!(align_of::<uefi::Guid>() >= align_of::<Guid>());
    let (bytes, mut index) = (*b"0123456789abcdef", 0);
    // SAFETY: any bytes are a GUID.
    let stored: [u8; 16] = unsafe { transmute(uefi::Guid::from_bytes(bytes)) };
    while index < 16 {
        assert!(stored[index] == bytes[index]);
        index += 1;
    }
};

impl<'a> From<&'a uefi::CStr16> for &'a CStr16 {
    fn from(string: &'a uefi::CStr16) -> Self {
        CStr16::of(string.to_u16_slice_with_nul())
    }
}

impl<'a> From<&'a CStr16> for &'a uefi::CStr16 {
    fn from(string: &'a CStr16) -> Self {
        // SAFETY: both crates have the same strings.
        unsafe { uefi::CStr16::from_u16_with_nul_unchecked(string.to_u16_slice_with_nul()) }
    }
}

impl AsRef<CStr16> for uefi::CStr16 {
    fn as_ref(&self) -> &CStr16 {
        self.into()
    }
}

impl AsRef<uefi::CStr16> for CStr16 {
    fn as_ref(&self) -> &uefi::CStr16 {
        self.into()
    }
}

impl AsRef<Path> for uefi::CStr16 {
    fn as_ref(&self) -> &Path {
        Path::new(self)
    }
}

/// Copies the string.
impl From<uefi::CString16> for CString16 {
    fn from(string: uefi::CString16) -> Self {
        Self::from(<&CStr16>::from(&*string))
    }
}

/// Keeps the memory.
impl From<CString16> for uefi::CString16 {
    fn from(mut string: CString16) -> Self {
        match Self::try_from(core::mem::take(string.units_mut())) {
            Ok(it) => it,
            Err(_) => unreachable!("both crates have the same strings"),
        }
    }
}

/// Fails if the path is malformed, which the crate `uefi` does not check.
impl<'a> TryFrom<&'a TheirPath> for &'a DevicePath {
    type Error = Error;

    fn try_from(path: &'a TheirPath) -> Result<Self, Error> {
        let (start, length) = (ptr::from_ref(path).cast(), size_of_val(path));
        // SAFETY: the bytes of the path.
        DevicePath::from_bytes(unsafe { slice::from_raw_parts(start, length) })
    }
}

impl<'a> From<&'a DevicePath> for &'a TheirPath {
    fn from(path: &'a DevicePath) -> Self {
        // SAFETY: the path is well-formed, and borrowed as long.
        unsafe { TheirPath::from_ffi_ptr(path.as_ffi_ptr().cast()) }
    }
}

impl From<uefi::Guid> for Guid {
    fn from(guid: uefi::Guid) -> Self {
        Self::from_bytes(guid.to_bytes())
    }
}

impl From<Guid> for uefi::Guid {
    fn from(guid: Guid) -> Self {
        Self::from_bytes(guid.to_bytes())
    }
}

impl<'a> From<&'a uefi::Guid> for &'a Guid {
    fn from(guid: &'a uefi::Guid) -> Self {
        // SAFETY: a GUID of the crate `uefi` has the same bytes, at an address that suits both.
        unsafe { &*ptr::from_ref(guid).cast() }
    }
}
