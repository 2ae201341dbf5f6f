//! Device paths.

/// The protocol.
pub mod device_path {
    /// The bytes of a device path at an address.
    #[repr(C)]
    pub struct FfiDevicePath([u8; 0]);

    /// A device path.
    #[derive(Debug, PartialEq, Eq)]
    #[repr(transparent)]
    pub struct DevicePath([u8]);

    impl DevicePath {
        /// Borrows the device path at an address.
        ///
        /// # Safety
        ///
        /// There are nodes at the address, up to the end node, and they are unchanged while the path is used.
        pub unsafe fn from_ffi_ptr<'a>(ptr: *const FfiDevicePath) -> &'a Self {
            // SAFETY: the caller's, for each header and for the slice of all.
            unsafe {
                let (first, mut length) = (ptr.cast::<u8>(), 0);
                loop {
                    let [kind, sub_type, low, high] = *first.add(length).cast::<[u8; 4]>();
                    length += usize::from(u16::from_le_bytes([low, high]));
                    if (kind, sub_type) == (0x7f, 0xff) {
                        let bytes = core::slice::from_raw_parts(first, length);
                        return &*(core::ptr::from_ref(bytes) as *const Self);
                    }
                }
            }
        }

        /// Returns the address of the first node.
        pub const fn as_ffi_ptr(&self) -> *const FfiDevicePath {
            self.0.as_ptr().cast()
        }
    }
}
