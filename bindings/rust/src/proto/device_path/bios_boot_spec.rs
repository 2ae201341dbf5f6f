//! Nodes of the BIOS Boot Specification.

use super::node_fields::views;

views! {
    /// A device that a legacy BIOS can boot.
    BootSpecification['a]: BOOT_SPECIFICATION, 5 {
        /// The type of the device, by the BIOS Boot Specification.
        device_type: u16 = BOOT_SPECIFICATION_DEVICE_TYPE;
        /// Its flags, by the BIOS Boot Specification.
        status_flag: u16 = BOOT_SPECIFICATION_STATUS_FLAG;
        /// The bytes of its description, with their NUL.
        description_string: &'a [u8] = BOOT_SPECIFICATION_DESCRIPTION_STRING;
    }
}
