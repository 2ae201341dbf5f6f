//! Nodes of device paths.

use super::node_fields::full_type;
use super::text;
use super::BuildNode;
use crate::error::{Error, Reason};
use crate::fields;
use crate::sys;
use core::fmt;
use core::marker::{PhantomData, PhantomPinned};

/// The type of a node.
///
/// ```
/// use nardcorbel::proto::device_path::DeviceType;
///
/// assert_eq!(DeviceType::MEDIA, DeviceType(4));
/// ```
#[derive(Clone, Copy, Debug, PartialEq, Eq, PartialOrd, Ord, Hash)]
#[repr(transparent)]
pub struct DeviceType(pub u8);

#[allow(missing_docs)]
impl DeviceType {
    pub const HARDWARE: Self = full_type(fields::HARDWARE_VENDOR).0;
    pub const ACPI: Self = full_type(fields::ACPI).0;
    pub const MESSAGING: Self = full_type(fields::MESSAGING_VENDOR).0;
    pub const MEDIA: Self = full_type(fields::MEDIA_VENDOR).0;
    pub const BIOS_BOOT_SPEC: Self = full_type(fields::BOOT_SPECIFICATION).0;
    pub const END: Self = full_type(fields::END_INSTANCE).0;
}

/// The sub-type of a node, which means something together with its type.
///
/// ```
/// use nardcorbel::proto::device_path::DeviceSubType;
///
/// assert_eq!(DeviceSubType::MEDIA_FILE_PATH, DeviceSubType(4));
/// ```
#[derive(Clone, Copy, Debug, PartialEq, Eq, PartialOrd, Ord, Hash)]
#[repr(transparent)]
pub struct DeviceSubType(pub u8);

/// The node is not of the requested kind, or of no kind that this crate knows.
///
/// ```
/// use nardcorbel::proto::device_path::{hardware::Bmc, DevicePathNode, NodeConversionError};
///
/// let node = <&DevicePathNode>::try_from(&[1, 1, 6, 0, 2, 0x1f][..])?;
/// assert_eq!(<&Bmc>::try_from(node), Err(NodeConversionError::DifferentType));
/// # Ok::<(), nardcorbel::Error>(())
/// ```
#[derive(Clone, Copy, Debug, PartialEq, Eq)]
#[non_exhaustive]
pub enum NodeConversionError {
    /// It is of another kind.
    DifferentType,
    /// It has fewer bytes than its kind needs.
    InvalidLength,
    /// It is of no kind that this crate knows.
    UnsupportedType,
}

impl fmt::Display for NodeConversionError {
    fn fmt(&self, f: &mut fmt::Formatter<'_>) -> fmt::Result {
        f.write_str(match self {
            Self::DifferentType => "device path node has a different type or sub-type",
            Self::InvalidLength => "device path node has an invalid length",
            Self::UnsupportedType => "unknown device path node type",
        })
    }
}

impl core::error::Error for NodeConversionError {}

/// The bytes of a device path at the address that firmware gives, of unknown length.
///
/// ```
/// use nardcorbel::proto::device_path::{DevicePath, FfiDevicePath};
///
/// let bytes = [0x7f, 0xff, 4, 0];
/// let pointer: *const FfiDevicePath = bytes.as_ptr().cast();
/// // SAFETY: the bytes are a device path.
/// assert_eq!(unsafe { DevicePath::from_ffi_ptr(pointer) }.as_bytes(), bytes);
/// ```
#[derive(Debug)]
#[repr(C)]
pub struct FfiDevicePath {
    bytes: [u8; 0],
    _address: PhantomData<(*mut u8, PhantomPinned)>,
}

/// The header of a node, as firmware stores it at any address.
///
/// ```
/// use nardcorbel::proto::device_path::{DevicePathHeader, DeviceSubType, DeviceType};
///
/// let header = <&DevicePathHeader>::try_from(&[1, 1, 6, 0, 2, 0x1f][..])?;
/// assert_eq!((header.device_type, header.sub_type), (DeviceType::HARDWARE, DeviceSubType::HARDWARE_PCI));
/// assert_eq!({ header.length }, 6);
/// # Ok::<(), nardcorbel::Error>(())
/// ```
#[derive(Clone, Copy, Debug, PartialEq, Eq)]
#[repr(C, packed)]
pub struct DevicePathHeader {
    /// The type of the node.
    pub device_type: DeviceType,
    /// Its sub-type.
    pub sub_type: DeviceSubType,
    /// The number of bytes of the node, including the header.
    pub length: u16,
}

impl<'a> TryFrom<&'a [u8]> for &'a DevicePathHeader {
    type Error = Error;

    /// Reads the first four bytes, whatever they say. Fails if there are fewer.
    fn try_from(bytes: &'a [u8]) -> Result<Self, Error> {
        match bytes.len() {
            0..=3 => Err(Error::new(Reason::TruncatedHeader, 0)),
            // SAFETY: the header is four bytes of any value, at any address.
            _ => Ok(unsafe { &*bytes.as_ptr().cast() }),
        }
    }
}

/// A node of a device path: its type, its sub-type, its length and its data.
///
/// ```
/// use nardcorbel::proto::device_path::{DevicePathNode, DeviceType, DeviceSubType};
///
/// let node = <&DevicePathNode>::try_from(&[1, 1, 6, 0, 2, 0x1f][..])?;
/// assert_eq!(node.full_type(), (DeviceType::HARDWARE, DeviceSubType::HARDWARE_PCI));
/// assert_eq!(format!("{node}"), "Pci(0x1F,0x2)");
/// # Ok::<(), nardcorbel::Error>(())
/// ```
#[derive(PartialEq, Eq, Hash)]
#[repr(transparent)]
pub struct DevicePathNode([u8]);

impl DevicePathNode {
    /// The bytes of one node, of at least 4 bytes.
    pub(super) fn of(bytes: &[u8]) -> &Self {
        debug_assert!(bytes.len() >= 4);
        // SAFETY: `DevicePathNode` is a transparent wrapper.
        unsafe { &*(core::ptr::from_ref(bytes) as *const Self) }
    }

    /// Borrows the node at an address, as firmware gives it.
    ///
    /// # Safety
    ///
    /// A header is at the address, and as many bytes as it says, at least 4, and they are unchanged while the node is used.
    ///
    /// ```
    /// use nardcorbel::proto::device_path::{DevicePathNode, };
    ///
    /// let node = <&DevicePathNode>::try_from(&[1, 1, 6, 0, 2, 0x1f][..])?;
    /// // SAFETY: the pointer is that of a node.
    /// let again: &DevicePathNode = unsafe { DevicePathNode::from_ffi_ptr(node.as_ffi_ptr()) };
    /// assert_eq!(again, node);
    /// # Ok::<(), nardcorbel::Error>(())
    /// ```
    #[must_use]
    pub unsafe fn from_ffi_ptr<'a>(ptr: *const FfiDevicePath) -> &'a Self {
        // SAFETY: the caller's, for the header and for the slice of all.
        unsafe {
            let length = usize::from((*ptr.cast::<DevicePathHeader>()).length);
            Self::of(core::slice::from_raw_parts(ptr.cast(), length))
        }
    }

    /// Returns the address of the node, for the firmware.
    ///
    /// ```
    /// use nardcorbel::proto::device_path::DevicePathNode;
    ///
    /// let node = <&DevicePathNode>::try_from(&[1, 1, 6, 0, 2, 0x1f][..])?;
    /// assert_eq!(node.as_ffi_ptr().cast(), node.as_bytes().as_ptr());
    /// # Ok::<(), nardcorbel::Error>(())
    /// ```
    #[must_use]
    pub const fn as_ffi_ptr(&self) -> *const FfiDevicePath {
        self.0.as_ptr().cast()
    }

    /// Returns the type.
    ///
    /// ```
    /// use nardcorbel::proto::device_path::{DevicePathNode, DeviceType};
    ///
    /// let node = <&DevicePathNode>::try_from(&[1, 1, 6, 0, 2, 0x1f][..])?;
    /// assert_eq!(node.device_type(), DeviceType::HARDWARE);
    /// # Ok::<(), nardcorbel::Error>(())
    /// ```
    #[must_use]
    pub fn device_type(&self) -> DeviceType {
        DeviceType(self.0[0])
    }

    /// Returns the sub-type.
    ///
    /// ```
    /// use nardcorbel::proto::device_path::{DevicePathNode, DeviceSubType};
    ///
    /// let node = <&DevicePathNode>::try_from(&[1, 1, 6, 0, 2, 0x1f][..])?;
    /// assert_eq!(node.sub_type(), DeviceSubType::HARDWARE_PCI);
    /// # Ok::<(), nardcorbel::Error>(())
    /// ```
    #[must_use]
    pub fn sub_type(&self) -> DeviceSubType {
        DeviceSubType(self.0[1])
    }

    /// Returns the type and the sub-type.
    ///
    /// ```
    /// use nardcorbel::proto::device_path::{DevicePathNode, DeviceSubType, DeviceType};
    ///
    /// let node = <&DevicePathNode>::try_from(&[1, 1, 6, 0, 2, 0x1f][..])?;
    /// assert_eq!(node.full_type(), (DeviceType::HARDWARE, DeviceSubType::HARDWARE_PCI));
    /// # Ok::<(), nardcorbel::Error>(())
    /// ```
    #[must_use]
    pub fn full_type(&self) -> (DeviceType, DeviceSubType) {
        (self.device_type(), self.sub_type())
    }

    /// Returns the number of bytes of the node, including its header.
    ///
    /// ```
    /// use nardcorbel::proto::device_path::DevicePathNode;
    ///
    /// let node = <&DevicePathNode>::try_from(&[1, 1, 6, 0, 2, 0x1f][..])?;
    /// assert_eq!(node.length(), 6);
    /// # Ok::<(), nardcorbel::Error>(())
    /// ```
    #[must_use]
    pub fn length(&self) -> u16 {
        u16::from_le_bytes([self.0[2], self.0[3]])
    }

    /// Returns whether the node ends a path.
    ///
    /// ```
    /// use nardcorbel::proto::device_path::DevicePathNode;
    ///
    /// let node = <&DevicePathNode>::try_from(&[1, 1, 6, 0, 2, 0x1f][..])?;
    /// assert!(!node.is_end_entire());
    /// # Ok::<(), nardcorbel::Error>(())
    /// ```
    #[must_use]
    pub fn is_end_entire(&self) -> bool {
        self.full_type() == (DeviceType::END, DeviceSubType::END_ENTIRE)
    }

    /// Returns the bytes after the header.
    ///
    /// ```
    /// use nardcorbel::proto::device_path::DevicePathNode;
    ///
    /// let node = <&DevicePathNode>::try_from(&[1, 1, 6, 0, 2, 0x1f][..])?;
    /// assert_eq!(node.data(), [2, 0x1f]);
    /// # Ok::<(), nardcorbel::Error>(())
    /// ```
    #[must_use]
    pub fn data(&self) -> &[u8] {
        &self.0[4..]
    }

    /// Returns all bytes.
    ///
    /// ```
    /// use nardcorbel::proto::device_path::DevicePathNode;
    ///
    /// let node = <&DevicePathNode>::try_from(&[1, 1, 6, 0, 2, 0x1f][..])?;
    /// assert_eq!(node.as_bytes(), [1, 1, 6, 0, 2, 0x1f]);
    /// # Ok::<(), nardcorbel::Error>(())
    /// ```
    #[must_use]
    pub const fn as_bytes(&self) -> &[u8] {
        &self.0
    }

    /// Returns whether the node is of a kind of [`fields`](crate::fields), such as `HARD_DRIVE`.
    ///
    /// ```
    /// use nardcorbel::proto::device_path::DevicePathNode;
    ///
    /// let node = <&DevicePathNode>::try_from(&[1, 1, 6, 0, 2, 0x1f][..])?;
    /// assert!(node.is(nardcorbel::fields::PCI));
    /// # Ok::<(), nardcorbel::Error>(())
    /// ```
    #[must_use]
    pub fn is(&self, kind: u16) -> bool {
        self.node_type() == kind
    }

    /// The type * 256 + the sub-type.
    pub(super) fn node_type(&self) -> u16 {
        u16::from_be_bytes([self.0[0], self.0[1]])
    }

    /// Returns a number of the data, such as `HARD_DRIVE_PARTITION_START` of [`fields`](crate::fields), or `None` if the data ends
    /// before it or the field is not a number.
    ///
    /// ```
    /// use nardcorbel::{fields, DevicePathNode};
    ///
    /// let node = <&DevicePathNode>::try_from(&[1, 1, 6, 0, 2, 0x1f][..])?;
    /// assert_eq!(node.number(fields::PCI_DEVICE), Some(0x1f));
    /// # Ok::<(), nardcorbel::Error>(())
    /// ```
    #[must_use]
    pub fn number(&self, field: u32) -> Option<u64> {
        let mut number = 0;
        (sys::nard_node_number(self.data(), field, &mut number) == sys::OK).then_some(number)
    }

    /// Returns the bytes of a field, or `None` if the data ends before it.
    ///
    /// ```
    /// use nardcorbel::proto::device_path::DevicePathNode;
    ///
    /// let node = <&DevicePathNode>::try_from(&[1, 1, 6, 0, 2, 0x1f][..])?;
    /// assert_eq!(node.bytes(nardcorbel::fields::PCI_DEVICE), Some(&[0x1f][..]));
    /// # Ok::<(), nardcorbel::Error>(())
    /// ```
    #[must_use]
    pub fn bytes(&self, field: u32) -> Option<&[u8]> {
        let rest = self.data().get(fields::offset(field)..)?;
        match fields::size(field) {
            0 => Some(rest),
            size => rest.get(..size),
        }
    }

    /// Tests the conditions of a view.
    pub(super) fn check_kind(&self, kind: u16, least: usize) -> Result<(), NodeConversionError> {
        match self.data().len() {
            _ if !self.is(kind) => Err(NodeConversionError::DifferentType),
            it if it < least => Err(NodeConversionError::InvalidLength),
            _ => Ok(()),
        }
    }

    /// Formats the node as text, such as `Pci(0x1F,0x2)`, into a buffer, and returns its UTF-16 without the NUL.
    ///
    /// ```
    /// use nardcorbel::proto::device_path::DevicePathNode;
    ///
    /// let node = <&DevicePathNode>::try_from(&[1, 1, 6, 0, 2, 0x1f][..])?;
    /// let mut units = [0; 32];
    /// let text = node.text_in_buf(false, false, &mut units)?;
    /// assert_eq!(String::from_utf16_lossy(text), "Pci(0x1F,0x2)");
    /// # Ok::<(), nardcorbel::Error>(())
    /// ```
    pub fn text_in_buf<'b>(
        &self,
        display_only: bool,
        allow_shortcuts: bool,
        buffer: &'b mut [u16],
    ) -> Result<&'b [u16], Error> {
        let style = text::style(display_only, allow_shortcuts);
        let length = sys::nard_node_format_utf16(&self.0, style, buffer)?;
        Ok(&buffer[..length])
    }
}

impl<'a> TryFrom<&'a [u8]> for &'a DevicePathNode {
    type Error = Error;

    /// Reads the node at the start of bytes. Bytes after it are ignored.
    fn try_from(bytes: &'a [u8]) -> Result<Self, Error> {
        let (mut offset, mut node) = (0, sys::DeviceNode::default());
        sys::nard_device_path_next_node(bytes, &mut offset, &mut node)?;
        Ok(DevicePathNode::of(&bytes[..offset]))
    }
}

impl BuildNode for &DevicePathNode {
    fn full_type(&self) -> (DeviceType, DeviceSubType) {
        DevicePathNode::full_type(self)
    }

    fn parts(&self, write: &mut dyn FnMut(usize, &[u8])) {
        write(0, self.data());
    }
}

impl fmt::Display for DevicePathNode {
    fn fmt(&self, f: &mut fmt::Formatter<'_>) -> fmt::Result {
        text::display_node(self, f)
    }
}

impl fmt::Debug for DevicePathNode {
    fn fmt(&self, f: &mut fmt::Formatter<'_>) -> fmt::Result {
        write!(f, "DevicePathNode({self})")
    }
}
