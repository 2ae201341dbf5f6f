//! Nodes for devices that ACPI names.

use super::fields;
use super::node_fields::{view, views, Field};
use crate::data_types::UnalignedSlice;

views! {
    /// A device that ACPI names by two numbers.
    Acpi[]: ACPI, 8 {
        /// The number of its hardware ID, `_HID`.
        hid: u32 = ACPI_HID;
        /// The number of its unique ID, `_UID`.
        uid: u32 = ACPI_UID;
    }

    /// The outputs of a display adapter.
    Adr['a]: ADR, 4 {
        /// The `_ADR` values of the outputs, one or more. Bytes after the last whole one are left out.
        adr: UnalignedSlice<'a, u32> | &'a [u32] = ADR_ADR;
    }

    /// A persistent memory module.
    Nvdimm[]: NVDIMM, 4 {
        /// The handle of the module in the table NFIT.
        nfit_device_handle: u32 = NVDIMM_NFIT_DEVICE_HANDLE;
    }
}

view! {
    /// A device that ACPI names by numbers or by strings.
    Expanded: fields::EXPANDED, 15
}

/// The struct that builds the node with three strings.
pub(super) mod expanded {
    use super::fields;
    use crate::proto::device_path::node_fields::full_type;
    use crate::proto::device_path::{BuildNode, DeviceSubType, DeviceType};

    /// A device that ACPI names by numbers or by strings. A NUL is added to each string; a NUL in it ends it.
    ///
    /// ```
    /// use nardcorbel::proto::device_path::build::{acpi, DevicePathBuilder};
    ///
    /// let device = acpi::Expanded { hid: 0, uid: 0, cid: 0, hid_str: b"PNP0A03", uid_str: b"7", cid_str: b"" };
    /// let mut buffer = [0; 64];
    /// let path = DevicePathBuilder::with_buf(&mut buffer).push(&device)?.finalize()?;
    /// assert!(path.as_bytes().windows(11).any(|it| it == b"PNP0A03\x007\0\0"));
    /// # Ok::<(), nardcorbel::proto::device_path::BuildError>(())
    /// ```
    #[derive(Clone, Copy, Debug, PartialEq, Eq)]
    pub struct Expanded<'a> {
        /// The number of its hardware ID, `_HID`.
        pub hid: u32,
        /// The number of its unique ID, `_UID`.
        pub uid: u32,
        /// The number of its compatible ID, `_CID`.
        pub cid: u32,
        /// The string of `_HID`, or an empty one.
        pub hid_str: &'a [u8],
        /// The string of `_UID`, or an empty one.
        pub uid_str: &'a [u8],
        /// The string of `_CID`, or an empty one.
        pub cid_str: &'a [u8],
    }

    impl BuildNode for Expanded<'_> {
        fn full_type(&self) -> (DeviceType, DeviceSubType) {
            full_type(fields::EXPANDED)
        }

        fn parts(&self, write: &mut dyn FnMut(usize, &[u8])) {
            write(
                fields::offset(fields::EXPANDED_HID),
                &self.hid.to_le_bytes(),
            );
            write(
                fields::offset(fields::EXPANDED_UID),
                &self.uid.to_le_bytes(),
            );
            write(
                fields::offset(fields::EXPANDED_CID),
                &self.cid.to_le_bytes(),
            );
            let mut place = fields::offset(fields::EXPANDED_ID_STRINGS);
            for string in [self.hid_str, self.uid_str, self.cid_str] {
                let string = string.split(|it| *it == 0).next().unwrap_or_default();
                for part in [string, &[0]] {
                    write(place, part);
                    place += part.len();
                }
            }
        }
    }
}

impl Expanded {
    /// Returns the number of its hardware ID, `_HID`.
    ///
    /// ```
    /// use nardcorbel::proto::device_path::{acpi::Expanded, DevicePathNode};
    ///
    /// fn strings(node: &DevicePathNode) -> Option<String> {
    ///     let device: &Expanded = node.try_into().ok()?;
    ///     Some(format!("{:?}", device.hid()))
    /// }
    /// ```
    #[must_use]
    pub fn hid(&self) -> u32 {
        Field::read(self.0.data(), fields::offset(fields::EXPANDED_HID))
    }

    /// Returns the number of its unique ID, `_UID`.
    ///
    /// ```
    /// use nardcorbel::proto::device_path::{acpi::Expanded, DevicePathNode};
    ///
    /// fn strings(node: &DevicePathNode) -> Option<String> {
    ///     let device: &Expanded = node.try_into().ok()?;
    ///     Some(format!("{:?}", device.uid()))
    /// }
    /// ```
    #[must_use]
    pub fn uid(&self) -> u32 {
        Field::read(self.0.data(), fields::offset(fields::EXPANDED_UID))
    }

    /// Returns the number of its compatible ID, `_CID`.
    ///
    /// ```
    /// use nardcorbel::proto::device_path::{acpi::Expanded, DevicePathNode};
    ///
    /// fn strings(node: &DevicePathNode) -> Option<String> {
    ///     let device: &Expanded = node.try_into().ok()?;
    ///     Some(format!("{:?}", device.cid()))
    /// }
    /// ```
    #[must_use]
    pub fn cid(&self) -> u32 {
        Field::read(self.0.data(), fields::offset(fields::EXPANDED_CID))
    }

    /// Returns the strings of its three IDs `_HID`, `_UID` and `_CID`, each ended by a NUL.
    ///
    /// ```
    /// use nardcorbel::proto::device_path::{acpi::Expanded, DevicePathNode};
    ///
    /// fn strings(node: &DevicePathNode) -> Option<String> {
    ///     let device: &Expanded = node.try_into().ok()?;
    ///     Some(format!("{:?}", device.id_strings()))
    /// }
    /// ```
    #[must_use]
    pub fn id_strings(&self) -> &[u8] {
        Field::read(self.0.data(), fields::offset(fields::EXPANDED_ID_STRINGS))
    }

    /// Returns one of the three strings, without its NUL; an empty one if the data ends before it.
    fn string(&self, index: usize) -> &[u8] {
        self.id_strings()
            .split(|it| *it == 0)
            .nth(index)
            .unwrap_or_default()
    }

    /// Returns the string of `_HID`, without its NUL.
    ///
    /// ```
    /// use nardcorbel::proto::device_path::{acpi::Expanded, DevicePathNode};
    ///
    /// fn strings(node: &DevicePathNode) -> Option<String> {
    ///     let device: &Expanded = node.try_into().ok()?;
    ///     Some(format!("{:?}", device.hid_str()))
    /// }
    /// ```
    #[must_use]
    pub fn hid_str(&self) -> &[u8] {
        self.string(0)
    }

    /// Returns the string of `_UID`, without its NUL.
    ///
    /// ```
    /// use nardcorbel::proto::device_path::{acpi::Expanded, DevicePathNode};
    ///
    /// fn strings(node: &DevicePathNode) -> Option<String> {
    ///     let device: &Expanded = node.try_into().ok()?;
    ///     Some(format!("{:?}", device.uid_str()))
    /// }
    /// ```
    #[must_use]
    pub fn uid_str(&self) -> &[u8] {
        self.string(1)
    }

    /// Returns the string of `_CID`, without its NUL.
    ///
    /// ```
    /// use nardcorbel::proto::device_path::{acpi::Expanded, DevicePathNode};
    ///
    /// fn strings(node: &DevicePathNode) -> Option<String> {
    ///     let device: &Expanded = node.try_into().ok()?;
    ///     Some(format!("{:?}", device.cid_str()))
    /// }
    /// ```
    #[must_use]
    pub fn cid_str(&self) -> &[u8] {
        self.string(2)
    }
}
