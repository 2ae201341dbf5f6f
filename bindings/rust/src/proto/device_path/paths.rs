//! Device paths in borrowed and in owned bytes.

use super::{fields, text, DevicePathNode, FfiDevicePath};
use crate::data_types::CStr16;
use crate::error::Error;
use crate::fs::Path;
use crate::sys;
#[cfg(feature = "alloc")]
use alloc::{borrow::ToOwned, boxed::Box, vec, vec::Vec};
use core::fmt;
use core::iter::FusedIterator;

/// A device path: nodes one after the other, and the end node.
///
/// ```
/// use nardcorbel::DevicePath;
///
/// let path = DevicePath::from_bytes(&[1, 1, 6, 0, 2, 0x1f, 0x7f, 0xff, 4, 0])?;
/// assert_eq!(format!("{path}"), "Pci(0x1F,0x2)");
/// for node in path {
///     println!("{node}: {} bytes", node.length());
/// }
/// # Ok::<(), nardcorbel::Error>(())
/// ```
#[derive(PartialEq, Eq, Hash)]
#[repr(transparent)]
pub struct DevicePath([u8]);

impl DevicePath {
    /// Borrows the bytes of a whole path.
    pub(super) fn of(bytes: &[u8]) -> &Self {
        // SAFETY: `DevicePath` is a transparent wrapper.
        unsafe { &*(core::ptr::from_ref(bytes) as *const Self) }
    }

    /// Reads the device path at the start of bytes, and ignores the bytes after it.
    ///
    /// Fails for the first malformed node. The error's place is the offset of the bytes at fault.
    ///
    /// ```
    /// use nardcorbel::DevicePath;
    ///
    /// let error = DevicePath::from_bytes(&[1, 1, 3, 0]).unwrap_err();
    /// assert_eq!(error.to_string(), "device path node is shorter than its header at offset 2");
    /// ```
    pub fn from_bytes(bytes: &[u8]) -> Result<&Self, Error> {
        let size = sys::nard_device_path_check(bytes)?;
        Ok(Self::of(&bytes[..size]))
    }

    /// Borrows the device path at an address, as firmware gives it.
    ///
    /// # Safety
    ///
    /// There are nodes at the address, up to the end node, and they are unchanged while the path is used.
    ///
    /// ```
    /// use nardcorbel::DevicePath;
    ///
    /// let path: Box<DevicePath> = r"Pci(0x1F,0x2)/\a".parse()?;
    /// // SAFETY: the pointer is that of a path.
    /// assert_eq!(unsafe { DevicePath::from_ffi_ptr(path.as_ffi_ptr()) }, &*path);
    /// # Ok::<(), nardcorbel::Error>(())
    /// ```
    #[must_use]
    pub unsafe fn from_ffi_ptr<'a>(ptr: *const FfiDevicePath) -> &'a Self {
        let ptr: *const u8 = ptr.cast();
        // SAFETY: the caller's, for each header up to the end node's and for the slice of all.
        unsafe {
            let mut length = 0;
            loop {
                let [kind, sub_type, low, high] = *ptr.add(length).cast::<[u8; 4]>();
                length += usize::from(u16::from_le_bytes([low, high])).max(4);
                if (kind, sub_type) == (0x7f, 0xff) {
                    break Self::of(core::slice::from_raw_parts(ptr, length));
                }
            }
        }
    }

    /// Reads the device path at an address, if it has at most `limit` bytes.
    ///
    /// Reads no byte that a well-formed path at the address would not contain. Fails as [`DevicePath::from_bytes`] does for the
    /// first `limit` bytes.
    ///
    /// ```
    /// use nardcorbel::{DevicePath, Reason};
    ///
    /// let bytes = [1, 1, 6, 0, 2, 0x1f, 0x7f, 0xff, 4, 0];
    /// // SAFETY: these bytes are a path.
    /// let path = unsafe { DevicePath::try_from_ffi_ptr(bytes.as_ptr().cast(), 4096)? };
    /// assert_eq!(path.as_bytes(), bytes);
    /// // SAFETY: the first nine bytes can be read.
    /// let error = unsafe { DevicePath::try_from_ffi_ptr(bytes.as_ptr().cast(), 9) }.unwrap_err();
    /// assert_eq!((error.reason, error.place), (Reason::TruncatedHeader, 6));
    /// # Ok::<(), nardcorbel::Error>(())
    /// ```
    ///
    /// # Safety
    ///
    /// The bytes up to the end of the path, or `limit` bytes if there is no well-formed path, can be read, and are unchanged while
    /// the path is used.
    pub unsafe fn try_from_ffi_ptr<'a>(
        ptr: *const FfiDevicePath,
        limit: usize,
    ) -> Result<&'a Self, Error> {
        let (mut offset, mut needed) = (0, 4);
        loop {
            let count = needed.min(limit);
            // SAFETY: the caller's, since a well-formed path that begins with the bytes read so far has `needed` bytes or more.
            let bytes = unsafe { core::slice::from_raw_parts(ptr.cast(), count) };
            if count < needed {
                return Self::from_bytes(bytes);
            }
            sys::nard_device_path_needs(bytes, &mut offset, &mut needed)?;
            if needed <= count {
                return Ok(Self::of(&bytes[..needed]));
            }
        }
    }

    /// Returns the address of the first node, for the firmware.
    ///
    /// ```
    /// use nardcorbel::DevicePath;
    ///
    /// let path: Box<DevicePath> = r"Pci(0x1F,0x2)/\a".parse()?;
    /// assert_eq!(path.as_ffi_ptr().cast(), path.as_bytes().as_ptr());
    /// # Ok::<(), nardcorbel::Error>(())
    /// ```
    #[must_use]
    pub const fn as_ffi_ptr(&self) -> *const FfiDevicePath {
        self.0.as_ptr().cast()
    }

    /// Returns all bytes of the path, including its end node.
    ///
    /// ```
    /// use nardcorbel::DevicePath;
    ///
    /// let path: Box<DevicePath> = r"Pci(0x1F,0x2)/\a".parse()?;
    /// assert_eq!(path.as_bytes()[..6], [1, 1, 6, 0, 2, 0x1f]);
    /// # Ok::<(), nardcorbel::Error>(())
    /// ```
    #[must_use]
    pub const fn as_bytes(&self) -> &[u8] {
        &self.0
    }

    /// Iterates over the nodes, without the end node.
    ///
    /// ```
    /// use nardcorbel::DevicePath;
    ///
    /// let path: Box<DevicePath> = r"Pci(0x1F,0x2)/\a".parse()?;
    /// assert_eq!(path.node_iter().count(), 2);
    /// # Ok::<(), nardcorbel::Error>(())
    /// ```
    #[must_use]
    pub fn node_iter(&self) -> DevicePathNodeIterator<'_> {
        DevicePathNodeIterator {
            rest: &self.0,
            of_instance: false,
        }
    }

    /// Iterates over the instances.
    ///
    /// ```
    /// use nardcorbel::DevicePath;
    ///
    /// let path: Box<DevicePath> = "Pci(0x1,0x0)/Pci(0x2,0x0),Pci(0x3,0x0)".parse()?;
    /// assert!(path.instance_iter().map(|it| it.node_iter().count()).eq([2, 1]));
    /// # Ok::<(), nardcorbel::Error>(())
    /// ```
    #[must_use]
    pub fn instance_iter(&self) -> DevicePathInstanceIterator<'_> {
        DevicePathInstanceIterator { rest: &self.0 }
    }

    /// Writes the names of all nodes that name files to the start of a buffer, as one path, and returns it.
    ///
    /// Fails if one of these names is not a string, or if the buffer is too small.
    ///
    /// ```
    /// use nardcorbel::DevicePath;
    ///
    /// let path: Box<DevicePath> = r"Pci(0x1F,0x2)/\a".parse()?;
    /// assert_eq!(path.file_path_in_buf(&mut [0; 8])?, r"\a");
    /// # Ok::<(), nardcorbel::Error>(())
    /// ```
    pub fn file_path_in_buf<'b>(&self, buffer: &'b mut [u16]) -> Result<&'b Path, Error> {
        let length = sys::nard_device_path_file_path_utf16(&self.0, buffer)?;
        Ok(Path::new(CStr16::of(&buffer[..=length])))
    }

    /// Formats the path as text, such as `PciRoot(0x0)/Pci(0x1F,0x2)`, into a buffer, and returns its UTF-16 without the NUL.
    ///
    /// `display_only` asks for shorter forms that cannot be read back, `allow_shortcuts` for names such as `VenPcAnsi()`.
    ///
    /// A buffer of four units for each byte of the path always has room.
    ///
    /// ```
    /// use nardcorbel::DevicePath;
    ///
    /// let path: Box<DevicePath> = r"Pci(0x1F,0x2)/\a".parse()?;
    /// let mut units = [0; 64];
    /// let text = path.text_in_buf(true, false, &mut units)?;
    /// assert_eq!(String::from_utf16_lossy(text), r"Pci(0x1F,0x2)/\a");
    /// # Ok::<(), nardcorbel::Error>(())
    /// ```
    pub fn text_in_buf<'b>(
        &self,
        display_only: bool,
        allow_shortcuts: bool,
        buffer: &'b mut [u16],
    ) -> Result<&'b [u16], Error> {
        let style = text::style(display_only, allow_shortcuts);
        let length = sys::nard_device_path_format_utf16(&self.0, style, buffer)?;
        Ok(&buffer[..length])
    }

    /// Formats the path as libefivar and efibootmgr do, into a buffer, and returns its UTF-16 without the NUL.
    ///
    /// ```
    /// # use nardcorbel::proto::device_path::DevicePath;
    /// let path: &DevicePath = (&[4, 4, 8, 0, b'a', 0, 0, 0, 0x7f, 0xff, 4, 0][..]).try_into()?;
    /// let mut buffer = [0; 8];
    /// assert!(path.libefivar_text_in_buf(&mut buffer)?.iter().copied().eq("File(a)".encode_utf16()));
    /// # Ok::<(), Box<dyn std::error::Error>>(())
    /// ```
    pub fn libefivar_text_in_buf<'b>(&self, buffer: &'b mut [u16]) -> Result<&'b [u16], Error> {
        let style = sys::STYLE_LIBEFIVAR;
        let length = sys::nard_device_path_format_utf16(&self.0, style, buffer)?;
        Ok(&buffer[..length])
    }

    /// Returns the path without the nodes of another one at its start, or `None` if it does not begin with them.
    ///
    /// ```
    /// use nardcorbel::DevicePath;
    ///
    /// let path: Box<DevicePath> = r"Pci(0x1F,0x2)/\a".parse()?;
    /// let device: Box<DevicePath> = "Pci(0x1F,0x2)".parse()?;
    /// assert_eq!(format!("{}", path.strip_prefix(&device).unwrap()), r"\a");
    /// # Ok::<(), nardcorbel::Error>(())
    /// ```
    #[must_use]
    pub fn strip_prefix(&self, prefix: &DevicePath) -> Option<&DevicePath> {
        let mut offset = 0;
        sys::nard_device_path_strip_prefix(&self.0, &prefix.0, &mut offset)
            .then(|| Self::of(&self.0[offset..]))
    }

    /// Returns whether a short form, such as `HD(..)/\file`, stands for this full path.
    ///
    /// ```
    /// use nardcorbel::DevicePath;
    ///
    /// let short: Box<DevicePath> = r"HD(1,MBR,0xA0021243,0x800,0x1000)/\a".parse()?;
    /// let full: Box<DevicePath> = format!("PciRoot(0x0)/Pci(0x1F,0x2)/{short}").parse()?;
    /// assert!(full.is_expansion_of(&short));
    /// # Ok::<(), nardcorbel::Error>(())
    /// ```
    #[must_use]
    pub fn is_expansion_of(&self, short: &DevicePath) -> bool {
        sys::nard_device_path_is_expansion(&self.0, &short.0)
    }
}

/// Calls that allocate.
#[cfg(feature = "alloc")]
impl DevicePath {
    /// Returns the path of bytes, which a proved call wrote.
    fn boxed(bytes: Vec<u8>) -> Box<Self> {
        // SAFETY: `DevicePath` is a transparent wrapper.
        unsafe { Box::from_raw(Box::into_raw(bytes.into_boxed_slice()) as *mut Self) }
    }

    /// Copies the path.
    ///
    /// ```
    /// use nardcorbel::DevicePath;
    ///
    /// let path: Box<DevicePath> = r"Pci(0x1F,0x2)/\a".parse()?;
    /// assert_eq!(path.to_boxed(), path);
    /// # Ok::<(), nardcorbel::Error>(())
    /// ```
    #[must_use]
    pub fn to_boxed(&self) -> Box<Self> {
        Self::boxed(self.0.to_vec())
    }

    /// Copies the nodes of this path, followed by those of another.
    ///
    /// ```
    /// use nardcorbel::DevicePath;
    ///
    /// let device: Box<DevicePath> = "PciRoot(0x0)".parse()?;
    /// let file: Box<DevicePath> = r"\a".parse()?;
    /// assert_eq!(format!("{}", device.append_path(&file)?), r"PciRoot(0x0)/\a");
    /// # Ok::<(), nardcorbel::Error>(())
    /// ```
    pub fn append_path(&self, right: &Self) -> Result<Box<Self>, Error> {
        let mut bytes = self.0.to_vec();
        bytes.resize(bytes.len() + right.0.len(), 0);
        let size = sys::nard_device_path_append(&mut bytes, self.0.len(), &right.0)?;
        bytes.truncate(size);
        Ok(Self::boxed(bytes))
    }

    /// Copies the nodes of this path, followed by another node.
    ///
    /// ```
    /// use nardcorbel::DevicePath;
    ///
    /// let path: Box<DevicePath> = r"Pci(0x1F,0x2)/\a".parse()?;
    /// let node = path.node_iter().next().unwrap();
    /// assert_eq!(path.append_node(node)?.node_iter().count(), 3);
    /// # Ok::<(), nardcorbel::Error>(())
    /// ```
    pub fn append_node(&self, right: &DevicePathNode) -> Result<Box<Self>, Error> {
        let mut bytes = self.0.to_vec();
        bytes.resize(bytes.len() + right.as_bytes().len(), 0);
        let (size, kind) = (self.0.len(), right.node_type().into());
        let size = sys::nard_device_path_push(&mut bytes, size, kind, right.data())?;
        bytes.truncate(size);
        Ok(Self::boxed(bytes))
    }

    /// Copies the names of all nodes that name files, as one path. Fails if one of these names is not a string.
    ///
    /// ```
    /// use nardcorbel::DevicePath;
    ///
    /// let path: Box<DevicePath> = r"PciRoot(0x0)/\EFI\a.efi".parse()?;
    /// assert_eq!(path.file_path()?, r"\EFI\a.efi");
    /// # Ok::<(), nardcorbel::Error>(())
    /// ```
    pub fn file_path(&self) -> Result<crate::PathBuf, Error> {
        // No name has more units than its node has bytes.
        let mut units = vec![0; self.0.len()];
        Ok(self.file_path_in_buf(&mut units)?.to_path_buf())
    }
}

#[cfg(feature = "alloc")]
impl ToOwned for DevicePath {
    type Owned = Box<Self>;

    fn to_owned(&self) -> Box<Self> {
        self.to_boxed()
    }
}

#[cfg(feature = "alloc")]
impl Clone for Box<DevicePath> {
    fn clone(&self) -> Self {
        self.to_boxed()
    }
}

#[cfg(feature = "alloc")]
impl core::str::FromStr for Box<DevicePath> {
    type Err = Error;

    /// Reads the text of a device path, as it is displayed. Fails with the offset at which a node must begin and none does.
    fn from_str(text: &str) -> Result<Self, Error> {
        let mut bytes = Vec::new();
        let path = super::build::DevicePathBuilder::with_vec(&mut bytes)
            .push_text(text)?
            .finalize()?;
        Ok(path.to_boxed())
    }
}

impl<'a> TryFrom<&'a [u8]> for &'a DevicePath {
    type Error = Error;

    fn try_from(bytes: &'a [u8]) -> Result<Self, Error> {
        DevicePath::from_bytes(bytes)
    }
}

impl<'a> IntoIterator for &'a DevicePath {
    type Item = &'a DevicePathNode;
    type IntoIter = DevicePathNodeIterator<'a>;

    fn into_iter(self) -> Self::IntoIter {
        self.node_iter()
    }
}

impl fmt::Display for DevicePath {
    fn fmt(&self, f: &mut fmt::Formatter<'_>) -> fmt::Result {
        text::display_path(self, f)
    }
}

impl fmt::Debug for DevicePath {
    fn fmt(&self, f: &mut fmt::Formatter<'_>) -> fmt::Result {
        write!(f, "DevicePath({self})")
    }
}

/// An instance of a device path: some of its nodes, and the node that ends the instance or the path.
///
/// ```
/// use nardcorbel::DevicePath;
///
/// let path: Box<DevicePath> = r"Pci(0x1F,0x2)/\a".parse()?;
/// let instance = path.instance_iter().next().unwrap();
/// assert_eq!(instance.to_string(), r"Pci(0x1F,0x2)/\a");
/// # Ok::<(), nardcorbel::Error>(())
/// ```
#[derive(PartialEq, Eq, Hash)]
#[repr(transparent)]
pub struct DevicePathInstance([u8]);

impl DevicePathInstance {
    /// Iterates over the nodes, without the node that ends the instance.
    ///
    /// ```
    /// use nardcorbel::DevicePath;
    ///
    /// let path: Box<DevicePath> = r"Pci(0x1F,0x2)/\a".parse()?;
    /// let instance = path.instance_iter().next().unwrap();
    /// assert_eq!(instance.node_iter().count(), 2);
    /// # Ok::<(), nardcorbel::Error>(())
    /// ```
    #[must_use]
    pub fn node_iter(&self) -> DevicePathNodeIterator<'_> {
        DevicePathNodeIterator {
            rest: &self.0,
            of_instance: true,
        }
    }

    /// Returns all bytes, including the node that ends the instance.
    ///
    /// ```
    /// use nardcorbel::DevicePath;
    ///
    /// let path: Box<DevicePath> = r"Pci(0x1F,0x2)/\a".parse()?;
    /// let instance = path.instance_iter().next().unwrap();
    /// assert_eq!(instance.as_bytes(), path.as_bytes());
    /// # Ok::<(), nardcorbel::Error>(())
    /// ```
    #[must_use]
    pub const fn as_bytes(&self) -> &[u8] {
        &self.0
    }

    /// Copies the instance.
    ///
    /// ```
    /// use nardcorbel::DevicePath;
    ///
    /// let path: Box<DevicePath> = r"Pci(0x1F,0x2)/\a".parse()?;
    /// let instance = path.instance_iter().next().unwrap().to_boxed();
    /// assert_eq!(instance.as_bytes(), path.as_bytes());
    /// # Ok::<(), nardcorbel::Error>(())
    /// ```
    #[cfg(feature = "alloc")]
    #[must_use]
    pub fn to_boxed(&self) -> Box<Self> {
        // SAFETY: `DevicePathInstance` is a transparent wrapper.
        unsafe { Box::from_raw(Box::into_raw(Box::<[u8]>::from(&self.0)) as *mut Self) }
    }
}

#[cfg(feature = "alloc")]
impl ToOwned for DevicePathInstance {
    type Owned = Box<Self>;

    fn to_owned(&self) -> Box<Self> {
        self.to_boxed()
    }
}

#[cfg(feature = "alloc")]
impl Clone for Box<DevicePathInstance> {
    fn clone(&self) -> Self {
        self.to_boxed()
    }
}

impl<'a> IntoIterator for &'a DevicePathInstance {
    type Item = &'a DevicePathNode;
    type IntoIter = DevicePathNodeIterator<'a>;

    fn into_iter(self) -> Self::IntoIter {
        self.node_iter()
    }
}

impl fmt::Display for DevicePathInstance {
    fn fmt(&self, f: &mut fmt::Formatter<'_>) -> fmt::Result {
        text::display_instance(self, f)
    }
}

impl fmt::Debug for DevicePathInstance {
    fn fmt(&self, f: &mut fmt::Formatter<'_>) -> fmt::Result {
        write!(f, "DevicePathInstance({self})")
    }
}

/// Iterates over the nodes of a path or an instance, first to last.
///
/// ```
/// use nardcorbel::DevicePath;
///
/// let path: Box<DevicePath> = r"Pci(0x1F,0x2)/\a".parse()?;
/// let mut nodes = path.node_iter();
/// assert_eq!(nodes.next().unwrap().length(), 6);
/// # Ok::<(), nardcorbel::Error>(())
/// ```
#[derive(Clone, Debug)]
pub struct DevicePathNodeIterator<'a> {
    rest: &'a [u8],
    of_instance: bool,
}

impl<'a> Iterator for DevicePathNodeIterator<'a> {
    type Item = &'a DevicePathNode;

    fn next(&mut self) -> Option<&'a DevicePathNode> {
        let (mut offset, mut node) = (0, sys::DeviceNode::default());
        let status = sys::nard_device_path_next_node(self.rest, &mut offset, &mut node);
        let is_end = self.of_instance && node.node_type == fields::END_INSTANCE.into();
        if status != Ok(sys::OK) || is_end {
            self.rest = &[];
            return None;
        }
        let (bytes, rest) = self.rest.split_at(offset);
        self.rest = rest;
        Some(DevicePathNode::of(bytes))
    }
}

impl FusedIterator for DevicePathNodeIterator<'_> {}

/// Iterates over the instances of a path, first to last.
///
/// ```
/// use nardcorbel::DevicePath;
///
/// let path: Box<DevicePath> = r"Pci(0x1F,0x2)/\a".parse()?;
/// let mut instances = path.instance_iter();
/// assert!(instances.next().is_some() && instances.next().is_none());
/// # Ok::<(), nardcorbel::Error>(())
/// ```
#[derive(Clone, Debug)]
pub struct DevicePathInstanceIterator<'a> {
    rest: &'a [u8],
}

impl<'a> Iterator for DevicePathInstanceIterator<'a> {
    type Item = &'a DevicePathInstance;

    fn next(&mut self) -> Option<&'a DevicePathInstance> {
        if self.rest.is_empty() {
            return None;
        }
        let nodes = DevicePathNodeIterator {
            rest: self.rest,
            of_instance: true,
        };
        // And the node that ends them.
        let length: usize = nodes.map(|it| it.as_bytes().len()).sum();
        let (bytes, rest) = self.rest.split_at(length + 4);
        self.rest = rest;
        // SAFETY: `DevicePathInstance` is a transparent wrapper.
        Some(unsafe { &*(core::ptr::from_ref(bytes) as *const DevicePathInstance) })
    }
}

impl FusedIterator for DevicePathInstanceIterator<'_> {}
