//! Device paths: lists of nodes that lead from the machine to a device, a partition or a file.

pub mod acpi;
pub mod bios_boot_spec;
mod builder;
pub mod hardware;
mod load_option;
pub mod media;
pub mod messaging;
mod node;
mod node_enum;
mod node_fields;
mod paths;
mod text;

pub use crate::fields;
pub use builder::{BuildError, BuildNode};
pub use load_option::{LoadOption, LoadOptionDevicePaths};
pub use node::{
    DevicePathHeader, DevicePathNode, DeviceSubType, DeviceType, FfiDevicePath, NodeConversionError,
};
pub use node_enum::DevicePathNodeEnum;
pub use paths::{
    DevicePath, DevicePathInstance, DevicePathInstanceIterator, DevicePathNodeIterator,
};
pub use text::{AllowShortcuts, DisplayOnly};

/// Nodes that end a path or an instance.
pub mod end {
    use super::node_fields::view;

    view! {
        /// Ends an instance; another one follows.
        Instance: crate::fields::END_INSTANCE, 0
    }

    view! {
        /// Ends a path.
        Entire: 0x7fff, 0
    }
}

/// Builds device paths from structs with the fields of nodes.
///
/// ```
/// use nardcorbel::proto::device_path::build::{self, DevicePathBuilder};
/// use nardcorbel::cstr16;
///
/// let mut buffer = [0; 64];
/// let path = DevicePathBuilder::with_buf(&mut buffer)
///     .push(&build::acpi::Acpi { hid: 0x0a03_41d0, uid: 0 })?
///     .push(&build::hardware::Pci { function: 2, device: 0x1f })?
///     .push(&build::media::FilePath { path_name: cstr16!(r"\a.efi") })?
///     .finalize()?;
/// assert_eq!(format!("{path}"), r"PciRoot(0x0)/Pci(0x1F,0x2)/\a.efi");
/// # Ok::<(), nardcorbel::proto::device_path::BuildError>(())
/// ```
pub mod build {
    pub use super::bios_boot_spec::build as bios_boot_spec;
    pub use super::builder::{Buffer, BuildError, BuildNode, DevicePathBuilder};
    pub use super::hardware::build as hardware;
    pub use super::load_option::build::LoadOption;
    pub use super::messaging::build as messaging;

    /// Structs that build the nodes.
    pub mod acpi {
        pub use crate::proto::device_path::acpi::build::*;
        pub use crate::proto::device_path::acpi::expanded::Expanded;
    }

    /// Structs that build the nodes.
    pub mod media {
        pub use crate::proto::device_path::media::build::*;
        pub use crate::proto::device_path::media::file::FilePath;
    }

    /// Nodes that end a path or an instance.
    pub mod end {
        use crate::proto::device_path::{BuildNode, DeviceSubType, DeviceType};

        /// Ends an instance; another one follows.
        ///
        /// ```
        /// use nardcorbel::proto::device_path::build::{end, DevicePathBuilder};
        ///
        /// let mut bytes = Vec::new();
        /// let builder = DevicePathBuilder::with_vec(&mut bytes).push_text("Pci(0x1,0x0)")?;
        /// let path = builder.push(&end::Instance)?.push_text("Pci(0x2,0x0)")?.finalize()?;
        /// assert_eq!(path.instance_iter().count(), 2);
        /// # Ok::<(), nardcorbel::Error>(())
        /// ```
        #[derive(Clone, Copy, Debug, PartialEq, Eq)]
        pub struct Instance;

        impl BuildNode for Instance {
            fn full_type(&self) -> (DeviceType, DeviceSubType) {
                (DeviceType::END, DeviceSubType::END_INSTANCE)
            }

            fn parts(&self, _write: &mut dyn FnMut(usize, &[u8])) {}
        }

        /// Ends the path. The builder ends each path by itself, so you need not push it; no node can follow it.
        ///
        /// ```
        /// use nardcorbel::proto::device_path::build::{end, DevicePathBuilder};
        ///
        /// let mut buffer = [0; 8];
        /// let path = DevicePathBuilder::with_buf(&mut buffer).push(&end::Entire)?.finalize()?;
        /// assert_eq!(path.as_bytes(), [0x7f, 0xff, 4, 0]);
        /// # Ok::<(), nardcorbel::proto::device_path::BuildError>(())
        /// ```
        #[derive(Clone, Copy, Debug, PartialEq, Eq)]
        pub struct Entire;

        impl BuildNode for Entire {
            fn full_type(&self) -> (DeviceType, DeviceSubType) {
                (DeviceType::END, DeviceSubType::END_ENTIRE)
            }

            fn parts(&self, _write: &mut dyn FnMut(usize, &[u8])) {}
        }
    }
}
