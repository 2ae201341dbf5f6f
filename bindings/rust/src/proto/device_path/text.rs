//! Device paths as texts.

use super::{DevicePath, DevicePathInstance, DevicePathNode};
use crate::error::Error;
use crate::sys;
#[cfg(feature = "alloc")]
use crate::{
    data_types::{CString16, FromSliceWithNulError},
    Reason,
};
use core::fmt::{self, Write};

/// Whether a text may have shorter forms that cannot be read back.
///
/// ```
/// use nardcorbel::proto::device_path::{AllowShortcuts, DevicePath, DisplayOnly};
///
/// let path: Box<DevicePath> = r"PciRoot(0x0)/\a".parse()?;
/// assert_eq!(path.to_text(DisplayOnly(true), AllowShortcuts(false)), r"PciRoot(0x0)/\a");
/// # Ok::<(), nardcorbel::Error>(())
/// ```
#[derive(Clone, Copy, Debug, Default, PartialEq, Eq)]
pub struct DisplayOnly(pub bool);

/// Whether a text may have names such as `VenPcAnsi()`.
///
/// ```
/// use nardcorbel::proto::device_path::{AllowShortcuts, DevicePath, DisplayOnly};
///
/// let path: Box<DevicePath> = r"PciRoot(0x0)/\a".parse()?;
/// assert_eq!(path.to_text(DisplayOnly(false), AllowShortcuts(true)), r"PciRoot(0x0)/\a");
/// # Ok::<(), nardcorbel::Error>(())
/// ```
#[derive(Clone, Copy, Debug, Default, PartialEq, Eq)]
pub struct AllowShortcuts(pub bool);

/// The style of the specification with these options.
pub(super) fn style(display_only: bool, allow_shortcuts: bool) -> u32 {
    sys::STYLE_UEFI
        + u32::from(display_only) * sys::DISPLAY_ONLY
        + u32::from(allow_shortcuts) * sys::ALLOW_SHORTCUTS
}

/// The number of units of a text that are kept on the stack.
const ROOM: usize = 256;

/// Writes the text that a call gives, or `Err` with the error of the call, if the text is too long for the stack and there is no
/// other memory.
fn written(
    f: &mut fmt::Formatter<'_>,
    call: impl for<'b> Fn(&'b mut [u16]) -> Result<&'b [u16], Error>,
) -> Result<fmt::Result, Error> {
    let mut write = |units: &[u16]| {
        let mut chars = char::decode_utf16(units.iter().copied());
        chars.try_for_each(|it| f.write_char(it.unwrap_or(char::REPLACEMENT_CHARACTER)))
    };
    match call(&mut [0; ROOM]) {
        Ok(units) => Ok(write(units)),
        #[cfg(feature = "alloc")]
        Err(Error {
            reason: Reason::BufferTooSmall,
            place,
            ..
        }) => call(&mut alloc::vec![0; place]).map(write),
        Err(error) => Err(error),
    }
}

pub(super) fn display_path(path: &DevicePath, f: &mut fmt::Formatter<'_>) -> fmt::Result {
    written(f, |buffer| path.text_in_buf(false, false, buffer)).unwrap_or_else(|_| {
        // Without memory for the whole, node by node.
        let mut instances = path.instance_iter().enumerate();
        instances.try_for_each(|(index, instance)| {
            f.write_str(if index > 0 { "," } else { "" })?;
            display_instance(instance, f)
        })
    })
}

pub(super) fn display_instance(
    instance: &DevicePathInstance,
    f: &mut fmt::Formatter<'_>,
) -> fmt::Result {
    let mut nodes = instance.node_iter().enumerate();
    nodes.try_for_each(|(index, node)| {
        f.write_str(if index > 0 { "/" } else { "" })?;
        display_node(node, f)
    })
}

pub(super) fn display_node(node: &DevicePathNode, f: &mut fmt::Formatter<'_>) -> fmt::Result {
    written(f, |buffer| node.text_in_buf(false, false, buffer)).unwrap_or_else(|_| {
        // The form of the specification for any node.
        let (kind, sub_type) = node.full_type();
        write!(f, "Path({},{},", kind.0, sub_type.0)?;
        node.data()
            .iter()
            .try_for_each(|it| write!(f, "{it:02X}"))?;
        f.write_char(')')
    })
}

#[cfg(feature = "alloc")]
macro_rules! to_text {
    ($($name:ident)*) => {$(
        impl $name {
            /// Formats as text with the options that the crate `uefi` has. `{}` formats without shorter forms and without shortcuts.
            ///
            /// Fails if the text has a character above U+FFFF or a surrogate, in the name of a file.
            ///
            /// ```
            /// use nardcorbel::proto::device_path::{AllowShortcuts, DevicePath, DisplayOnly};
            ///
            /// let path = DevicePath::from_bytes(&[1, 1, 6, 0, 2, 0x1f, 0x7f, 0xff, 4, 0])?;
            /// let text = path.to_string(DisplayOnly(false), AllowShortcuts(false))?;
            /// assert_eq!(text, "Pci(0x1F,0x2)");
            /// # Ok::<(), nardcorbel::Error>(())
            /// ```
            pub fn to_string(&self, display_only: DisplayOnly, allow_shortcuts: AllowShortcuts) -> Result<CString16, Error> {
                let mut units = self.units(display_only, allow_shortcuts);
                units.push(0);
                let place = |error| match error {
                    FromSliceWithNulError::InvalidChar(it) => it,
                    _ => 0,
                };
                CString16::try_from(units).map_err(|it| Error::new(Reason::InvalidChar, place(it)))
            }

            /// Formats as text with the same options. A surrogate without a partner, in the name of a file, becomes U+FFFD.
            ///
            /// ```
            /// use nardcorbel::proto::device_path::{AllowShortcuts, DevicePath, DisplayOnly};
            ///
            /// let path: Box<DevicePath> = r"PciRoot(0x0)/\😀".parse()?;
            /// assert_eq!(path.to_text(DisplayOnly(false), AllowShortcuts(true)), r"PciRoot(0x0)/\😀");
            /// # Ok::<(), nardcorbel::Error>(())
            /// ```
            #[must_use]
            pub fn to_text(&self, display_only: DisplayOnly, allow_shortcuts: AllowShortcuts) -> alloc::string::String {
                alloc::string::String::from_utf16_lossy(&self.units(display_only, allow_shortcuts))
            }

            /// The units of the text.
            fn units(&self, display_only: DisplayOnly, allow_shortcuts: AllowShortcuts) -> alloc::vec::Vec<u16> {
                let mut units = alloc::vec![0; ROOM];
                loop {
                    match self.text_in_buf(display_only.0, allow_shortcuts.0, &mut units) {
                        Ok(text) => {
                            let length = text.len();
                            units.truncate(length);
                            return units;
                        }
                        // The path is well-formed, so only room can be missing.
                        Err(error) => units.resize(error.place.max(units.len() + 1), 0),
                    }
                }
            }
        }
    )*};
}
#[cfg(feature = "alloc")]
to_text!(DevicePath DevicePathNode);
