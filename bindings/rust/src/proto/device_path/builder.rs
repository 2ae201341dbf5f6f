//! Device paths that are built node by node.

use super::{DevicePath, DeviceSubType, DeviceType};
use crate::error::{Error, Reason};
use crate::sys;
#[cfg(feature = "alloc")]
use alloc::vec::Vec;
use core::fmt;
use core::mem::MaybeUninit;

/// Why a device path cannot be built.
///
/// ```
/// use nardcorbel::proto::device_path::build::{BuildError, DevicePathBuilder};
///
/// let mut buffer = [0; 2];
/// let path = DevicePathBuilder::with_buf(&mut buffer).finalize();
/// assert_eq!(path.err(), Some(BuildError::BufferTooSmall));
/// ```
#[derive(Clone, Copy, Debug, PartialEq, Eq)]
#[non_exhaustive]
pub enum BuildError {
    /// The buffer is too small for the path.
    BufferTooSmall,
    /// A node would have more than 65,535 bytes.
    NodeTooBig,
    /// A node follows the end of the path, or is an end node with data or of another sub-type.
    EndNode,
}

impl fmt::Display for BuildError {
    fn fmt(&self, f: &mut fmt::Formatter<'_>) -> fmt::Result {
        f.write_str(match self {
            Self::BufferTooSmall => "buffer too small",
            Self::NodeTooBig => "device path node is longer than 65,535 bytes",
            Self::EndNode => "end node is only allowed at the end of a device path",
        })
    }
}

impl core::error::Error for BuildError {}

impl From<BuildError> for Error {
    fn from(error: BuildError) -> Self {
        let reason = match error {
            BuildError::BufferTooSmall => Reason::BufferTooSmall,
            BuildError::NodeTooBig => Reason::NodeTooLong,
            BuildError::EndNode => Reason::NodeOfEnd,
        };
        Self::new(reason, 0)
    }
}

/// A node that can be built: the structs of [`build`](super::build), and nodes of other paths.
///
/// ```
/// use nardcorbel::proto::device_path::{build::DevicePathBuilder, BuildNode, DeviceSubType, DeviceType};
///
/// /// A node of a kind of its own.
/// struct Lamp(u8);
///
/// impl BuildNode for Lamp {
///     fn full_type(&self) -> (DeviceType, DeviceSubType) {
///         (DeviceType::MESSAGING, DeviceSubType(0x28))
///     }
///
///     fn parts(&self, write: &mut dyn FnMut(usize, &[u8])) {
///         write(0, &[self.0]);
///     }
/// }
///
/// let mut buffer = [0; 16];
/// let path = DevicePathBuilder::with_buf(&mut buffer).push(&Lamp(7))?.finalize()?;
/// assert_eq!(format!("{path}"), "Path(3,40,07)");
/// # Ok::<(), nardcorbel::proto::device_path::BuildError>(())
/// ```
pub trait BuildNode {
    /// Returns the type and the sub-type.
    ///
    /// ```
    /// use nardcorbel::proto::device_path::{build, BuildNode, DeviceSubType, DeviceType};
    ///
    /// let pci = build::hardware::Pci { function: 2, device: 0x1f };
    /// assert_eq!(pci.full_type(), (DeviceType::HARDWARE, DeviceSubType::HARDWARE_PCI));
    /// ```
    fn full_type(&self) -> (DeviceType, DeviceSubType);

    /// Writes the data in pieces, each with its place. The node ends with the last piece; bytes
    /// that no piece covers are zero.
    ///
    /// ```
    /// use nardcorbel::proto::device_path::{build, BuildNode};
    ///
    /// let (mut data, pci) = ([0; 2], build::hardware::Pci { function: 2, device: 0x1f });
    /// pci.parts(&mut |place, part| data[place..place + part.len()].copy_from_slice(part));
    /// assert_eq!(data, [2, 0x1f]);
    /// ```
    fn parts(&self, write: &mut dyn FnMut(usize, &[u8]));
}

/// Builds a device path.
///
/// ```
/// use nardcorbel::proto::device_path::build::{self, DevicePathBuilder};
///
/// let mut bytes = Vec::new();
/// let path = DevicePathBuilder::with_vec(&mut bytes)
///     .push(&build::hardware::Pci { function: 2, device: 0x1f })?
///     .push_text(r"Sata(0x0,0xFFFF,0x0)/\a")?
///     .finalize()?;
/// assert_eq!(format!("{path}"), r"Pci(0x1F,0x2)/Sata(0x0,0xFFFF,0x0)/\a");
/// # Ok::<(), nardcorbel::Error>(())
/// ```
#[derive(Debug)]
pub struct DevicePathBuilder<'a> {
    room: Room<'a>,
    /// The bytes of the path with its end node: 0 if the buffer has no room for that.
    length: usize,
    /// Whether the end node was pushed.
    is_ended: bool,
}

#[derive(Debug)]
enum Room<'a> {
    Buffer(&'a mut [u8]),
    #[cfg(feature = "alloc")]
    Vec(&'a mut Vec<u8>),
}

/// A buffer of bytes, initialized or not.
///
/// ```
/// use nardcorbel::proto::device_path::build::DevicePathBuilder;
/// use std::mem::MaybeUninit;
///
/// let mut buffer = [MaybeUninit::uninit(); 16];
/// let path = DevicePathBuilder::with_buf(&mut buffer).finalize()?;
/// assert_eq!(path.as_bytes(), [0x7f, 0xff, 4, 0]);
/// # Ok::<(), nardcorbel::proto::device_path::BuildError>(())
/// ```
pub trait Buffer {
    /// Returns the bytes; those that were not initialized become zero.
    #[doc(hidden)]
    fn initialized(&mut self) -> &mut [u8];
}

impl Buffer for [u8] {
    fn initialized(&mut self) -> &mut [u8] {
        self
    }
}

impl Buffer for [MaybeUninit<u8>] {
    fn initialized(&mut self) -> &mut [u8] {
        self.fill(MaybeUninit::new(0));
        // SAFETY: each byte was just written.
        unsafe { &mut *(core::ptr::from_mut(self) as *mut [u8]) }
    }
}

impl<T, const N: usize> Buffer for [T; N]
where
    [T]: Buffer,
{
    fn initialized(&mut self) -> &mut [u8] {
        self.as_mut_slice().initialized()
    }
}

impl<'a> DevicePathBuilder<'a> {
    /// Starts a path without nodes in a buffer. It needs 4 bytes for the end node.
    ///
    /// ```
    /// use nardcorbel::proto::device_path::build::DevicePathBuilder;
    ///
    /// let mut buffer = [0; 16];
    /// assert!(DevicePathBuilder::with_buf(&mut buffer).finalize().is_ok());
    /// ```
    pub fn with_buf<B: Buffer + ?Sized>(buffer: &'a mut B) -> Self {
        let buffer = buffer.initialized();
        Self {
            length: sys::nard_device_path_init(buffer).unwrap_or(0),
            room: Room::Buffer(buffer),
            is_ended: false,
        }
    }

    /// Starts a path without nodes in a vector, which loses its content and grows as needed.
    ///
    /// ```
    /// use nardcorbel::proto::device_path::build::DevicePathBuilder;
    ///
    /// let mut bytes = vec![7];
    /// let path = DevicePathBuilder::with_vec(&mut bytes).push_text("Pci(0x1F,0x2)")?.finalize()?;
    /// assert_eq!(path.as_bytes()[..6], [1, 1, 6, 0, 2, 0x1f]);
    /// # Ok::<(), nardcorbel::Error>(())
    /// ```
    #[cfg(feature = "alloc")]
    pub fn with_vec(vector: &'a mut Vec<u8>) -> Self {
        vector.clear();
        vector.extend([0x7f, 0xff, 4, 0]);
        Self {
            room: Room::Vec(vector),
            length: 4,
            is_ended: false,
        }
    }

    /// Makes room for more bytes, and returns all.
    fn room(&mut self, more: usize) -> Result<&mut [u8], BuildError> {
        let needed = self
            .length
            .checked_add(more)
            .ok_or(BuildError::BufferTooSmall)?;
        match &mut self.room {
            Room::Buffer(buffer) if self.length == 0 || buffer.len() < needed => {
                Err(BuildError::BufferTooSmall)
            }
            Room::Buffer(buffer) => Ok(buffer),
            #[cfg(feature = "alloc")]
            Room::Vec(vector) => {
                vector.resize(needed, 0);
                Ok(vector)
            }
        }
    }

    /// Adds a node.
    ///
    /// Fails if the node has more than 65,535 bytes, follows the end of the path, or is an end node with data or of an unknown
    /// sub-type; or if the buffer is too small.
    ///
    /// ```
    /// use nardcorbel::proto::device_path::build::{messaging, DevicePathBuilder};
    ///
    /// let mut buffer = [0; 16];
    /// let usb = messaging::Usb { parent_port_number: 1, interface: 0 };
    /// let path = DevicePathBuilder::with_buf(&mut buffer).push(&usb)?.finalize()?;
    /// assert_eq!(format!("{path}"), "USB(0x1,0x0)");
    /// # Ok::<(), nardcorbel::proto::device_path::BuildError>(())
    /// ```
    pub fn push(mut self, node: &dyn BuildNode) -> Result<Self, BuildError> {
        let mut size = 4;
        node.parts(&mut |place, bytes| {
            size = size.max(place.saturating_add(bytes.len()).saturating_add(4));
        });
        let header = u16::try_from(size)
            .map_err(|_| BuildError::NodeTooBig)?
            .to_le_bytes();
        let (DeviceType(kind), DeviceSubType(sub_type)) = node.full_type();
        let is_end = kind == 0x7f;
        if self.is_ended || is_end && (size > 4 || !matches!(sub_type, 1 | 0xff)) {
            return Err(BuildError::EndNode);
        }
        if is_end && sub_type == 0xff {
            self.is_ended = true;
            return Ok(self);
        }
        let start = self.length.saturating_sub(4);
        let bytes = &mut self.room(size)?[start..];
        bytes[..4].copy_from_slice(&[kind, sub_type, header[0], header[1]]);
        let data = &mut bytes[4..size];
        data.fill(0);
        node.parts(&mut |place, part| data[place..place + part.len()].copy_from_slice(part));
        bytes[size..size + 4].copy_from_slice(&[0x7f, 0xff, 4, 0]);
        self.length += size;
        Ok(self)
    }

    /// Calls the library with a buffer, and again with a larger one if the buffer can grow.
    fn add(
        mut self,
        call: impl Fn(&mut [u8], usize) -> Result<usize, Error>,
    ) -> Result<Self, Error> {
        if self.is_ended {
            return Err(BuildError::EndNode.into());
        }
        let length = self.length;
        let mut added = call(self.room(0)?, length);
        if let Err(Error {
            reason: Reason::BufferTooSmall,
            place: needed,
            ..
        }) = added
        {
            if let Ok(room) = self.room(needed - length) {
                added = call(room, length);
            }
        }
        self.length = added?;
        Ok(self)
    }

    fn add_text(self, text: &str, style: u32) -> Result<Self, Error> {
        self.add(|room, length| {
            sys::nard_device_path_push_text(room, length, text.as_bytes(), style)
        })
    }

    fn add_units(self, units: &[u16], style: u32) -> Result<Self, Error> {
        self.add(|room, length| sys::nard_device_path_push_text_utf16(room, length, units, style))
    }

    /// Adds all nodes of another path.
    ///
    /// ```
    /// use nardcorbel::{proto::device_path::build::DevicePathBuilder, DevicePath};
    ///
    /// let device: Box<DevicePath> = "PciRoot(0x0)/Pci(0x1F,0x2)".parse()?;
    /// let mut bytes = Vec::new();
    /// let builder = DevicePathBuilder::with_vec(&mut bytes).push_path(&device)?;
    /// let path = builder.push_text("Sata(0x0,0xFFFF,0x0)")?.finalize()?;
    /// assert_eq!(path.node_iter().count(), 3);
    /// # Ok::<(), nardcorbel::Error>(())
    /// ```
    pub fn push_path(self, path: &DevicePath) -> Result<Self, Error> {
        self.add(|room, length| sys::nard_device_path_append(room, length, path.as_bytes()))
    }

    /// Adds the nodes of a text, such as `PciRoot(0x0)/Pci(0x1F,0x2)`. A comma ends an instance.
    ///
    /// Fails with [`Reason::NoNode`] at the byte where a node should begin, but does not.
    ///
    /// ```
    /// use nardcorbel::proto::device_path::build::DevicePathBuilder;
    ///
    /// let mut bytes = Vec::new();
    /// let error = DevicePathBuilder::with_vec(&mut bytes).push_text("Pci(x)").unwrap_err();
    /// assert_eq!(error.to_string(), "not a device path at offset 0");
    /// ```
    pub fn push_text(self, text: &str) -> Result<Self, Error> {
        self.add_text(text, sys::STYLE_UEFI)
    }

    /// Adds the nodes of a text as people write it, such as `pciroot(0)/pci(31,2)/File(a)`: names and digits in either case,
    /// numbers in decimal or after `0x`, numbers left out at the end of a call, and a file's name in `File(..)` or without its
    /// first backslash. A comma ends an instance. Quotation marks around the whole text and one `/` before the first node are
    /// ignored.
    ///
    /// Fails with [`Reason::NoNode`] at the wrong byte of the first node that can't be read.
    ///
    /// ```
    /// use nardcorbel::proto::device_path::build::DevicePathBuilder;
    ///
    /// let mut bytes = Vec::new();
    /// let builder = DevicePathBuilder::with_vec(&mut bytes);
    /// let path = builder.push_lenient_text("pci(31, 2)/File(a)")?.finalize()?;
    /// assert_eq!(format!("{path}"), r"Pci(0x1F,0x2)/\a");
    /// # Ok::<(), nardcorbel::Error>(())
    /// ```
    pub fn push_lenient_text(self, text: &str) -> Result<Self, Error> {
        self.add_text(text, sys::STYLE_TYPED)
    }

    /// Adds the nodes of a text in UTF-16, which [`push_text`](Self::push_text) reads in UTF-8. The text is the units before their
    /// first NUL, or all of them if there is none.
    ///
    /// Fails with [`Reason::InvalidChar`] at a surrogate without a partner, and with [`Reason::NoNode`] at the unit where a node
    /// should begin, but does not.
    ///
    /// ```
    /// use nardcorbel::proto::device_path::build::DevicePathBuilder;
    ///
    /// let mut bytes = Vec::new();
    /// let units: Vec<u16> = "Pci(0x1F,0x2)/\\\u{1F600}".encode_utf16().collect();
    /// let path = DevicePathBuilder::with_vec(&mut bytes).push_units(&units)?.finalize()?;
    /// assert_eq!(path.node_iter().count(), 2);
    /// # Ok::<(), nardcorbel::Error>(())
    /// ```
    pub fn push_units(self, units: &[u16]) -> Result<Self, Error> {
        self.add_units(units, sys::STYLE_UEFI)
    }

    /// Adds the nodes of a text in UTF-16 as people write it, which [`push_lenient_text`](Self::push_lenient_text) reads in UTF-8.
    ///
    /// Fails as [`push_units`](Self::push_units) does, but with [`Reason::NoNode`] at the wrong unit.
    ///
    /// ```
    /// use nardcorbel::proto::device_path::build::DevicePathBuilder;
    ///
    /// let mut bytes = Vec::new();
    /// let units: Vec<u16> = "pci(31, 2)".encode_utf16().collect();
    /// let path = DevicePathBuilder::with_vec(&mut bytes).push_lenient_units(&units)?.finalize()?;
    /// assert_eq!(format!("{path}"), "Pci(0x1F,0x2)");
    /// # Ok::<(), nardcorbel::Error>(())
    /// ```
    pub fn push_lenient_units(self, units: &[u16]) -> Result<Self, Error> {
        self.add_units(units, sys::STYLE_TYPED)
    }

    /// Adds the nodes of a text that libefivar and efibootmgr print. libefivar prints the identifier of an NVMe node from
    /// its first byte on, and `Ata` with three numbers; `Fibre(..)`, `SAS(..)`, `UsbClass(..)` and a `PciRoot(..)` without `0x` are
    /// refused. Other nodes are read, and the call fails, as by [`push_lenient_text`](Self::push_lenient_text).
    ///
    /// ```
    /// use nardcorbel::proto::device_path::build::DevicePathBuilder;
    ///
    /// let mut bytes = Vec::new();
    /// let builder = DevicePathBuilder::with_vec(&mut bytes);
    /// let text = "NVMe(0x1,00-25-38-5B-71-B0-03-1C)";
    /// let path = builder.push_libefivar_text(text)?.finalize()?;
    /// assert_eq!(format!("{path}"), "NVMe(0x1,1C-03-B0-71-5B-38-25-00)");
    /// # Ok::<(), nardcorbel::Error>(())
    /// ```
    pub fn push_libefivar_text(self, text: &str) -> Result<Self, Error> {
        self.add_text(text, sys::STYLE_LIBEFIVAR)
    }

    /// Returns the number of bytes at the start of a text that are a path, as [`push_lenient_text`](Self::push_lenient_text) reads
    /// it, if something else may follow: efibootmgr prints optional data directly after a path.
    ///
    /// ```
    /// use nardcorbel::proto::device_path::build::DevicePathBuilder;
    ///
    /// let text = r"PciRoot(0x0)/File(\a.efi)RC";
    /// let end = DevicePathBuilder::lenient_text_extent(text)?;
    /// assert_eq!(&text[end..], "RC");
    /// # Ok::<(), nardcorbel::Error>(())
    /// ```
    pub fn lenient_text_extent(text: &str) -> Result<usize, Error> {
        sys::nard_device_path_text_extent(text.as_bytes(), sys::STYLE_TYPED)
    }

    /// Returns the number of bytes at the start of a text that are a path, as [`push_libefivar_text`](Self::push_libefivar_text)
    /// reads it.
    ///
    /// ```
    /// use nardcorbel::proto::device_path::build::DevicePathBuilder;
    ///
    /// let text = r"PciRoot(0x0)/File(\a.efi)RC";
    /// assert_eq!(&text[DevicePathBuilder::libefivar_text_extent(text)?..], "RC");
    /// # Ok::<(), nardcorbel::Error>(())
    /// ```
    pub fn libefivar_text_extent(text: &str) -> Result<usize, Error> {
        sys::nard_device_path_text_extent(text.as_bytes(), sys::STYLE_LIBEFIVAR)
    }

    /// Writes in words why [`push_lenient_text`](Self::push_lenient_text) fails with [`Reason::NoNode`] for a text, into a buffer,
    /// and returns their UTF-16 without the NUL: none if it reads the text.
    ///
    /// ```
    /// use nardcorbel::proto::device_path::build::DevicePathBuilder;
    ///
    /// let mut units = [0; 128];
    /// let words = DevicePathBuilder::lenient_text_fault("Pci(x)", &mut units)?;
    /// let words = String::from_utf16_lossy(words);
    /// assert_eq!(words, "invalid node at offset 0: expected a number up to 0xFF at offset 4");
    /// # Ok::<(), nardcorbel::Error>(())
    /// ```
    pub fn lenient_text_fault<'b>(text: &str, buffer: &'b mut [u16]) -> Result<&'b [u16], Error> {
        // The words are ASCII, and fewer than these.
        let mut words = [0; 256];
        let size = sys::nard_device_path_explain(text.as_bytes(), sys::STYLE_TYPED, &mut words)?;
        let room = buffer.get_mut(..=size);
        let units = room.ok_or(Error::new(Reason::BufferTooSmall, size + 1))?;
        units
            .iter_mut()
            .zip(words)
            .for_each(|(unit, it)| *unit = it.into());
        Ok(&units[..size])
    }

    /// Writes in words why [`push_lenient_units`](Self::push_lenient_units) fails with [`Reason::NoNode`] for a text, as
    /// [`lenient_text_fault`](Self::lenient_text_fault) does for a text in UTF-8. Offsets in the words count units.
    ///
    /// ```
    /// use nardcorbel::proto::device_path::build::DevicePathBuilder;
    ///
    /// let (text, mut units) = ("Pci(x)".encode_utf16().collect::<Vec<u16>>(), [0; 128]);
    /// let words = String::from_utf16_lossy(DevicePathBuilder::lenient_units_fault(&text, &mut units)?);
    /// assert_eq!(words, "invalid node at offset 0: expected a number up to 0xFF at offset 4");
    /// # Ok::<(), nardcorbel::Error>(())
    /// ```
    pub fn lenient_units_fault<'b>(
        units: &[u16],
        buffer: &'b mut [u16],
    ) -> Result<&'b [u16], Error> {
        let length = sys::nard_device_path_explain_utf16(units, sys::STYLE_TYPED, buffer)?;
        Ok(&buffer[..length])
    }

    /// Returns the path.
    ///
    /// ```
    /// use nardcorbel::proto::device_path::build::DevicePathBuilder;
    ///
    /// let mut buffer = [0; 16];
    /// let path = DevicePathBuilder::with_buf(&mut buffer).finalize()?;
    /// assert_eq!(path.node_iter().count(), 0);
    /// # Ok::<(), nardcorbel::proto::device_path::BuildError>(())
    /// ```
    pub fn finalize(mut self) -> Result<&'a DevicePath, BuildError> {
        self.room(0)?;
        let bytes: &'a [u8] = match self.room {
            Room::Buffer(buffer) => &buffer[..self.length],
            #[cfg(feature = "alloc")]
            Room::Vec(vector) => vector,
        };
        DevicePath::from_bytes(bytes).map_err(|_| BuildError::EndNode)
    }
}
