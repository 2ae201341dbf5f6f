//! Nodes for hardware.

use super::node_fields::{named, views};
use crate::Guid;

named! {
    /// The interface of a management controller.
    BmcInterfaceType(u8) {
        UNKNOWN = 0;
        KEYBOARD_CONTROLLER_STYLE = 1;
        SERVER_MANAGEMENT_INTERFACE_CHIP = 2;
        BLOCK_TRANSFER = 3;
    }
}

views! {
    /// A device on a PCI bus.
    Pci[]: PCI, 2 {
        /// The number of the function.
        function: u8 = PCI_FUNCTION;
        /// The number of the device on its bus.
        device: u8 = PCI_DEVICE;
    }

    /// A PC card.
    Pccard[]: PCCARD, 1 {
        /// The number of the function, from 0 on.
        function: u8 = PCCARD_FUNCTION;
    }

    /// A range of memory.
    MemoryMapped[]: MEMORY_MAPPED, 20 {
        /// The type of the memory, as in the memory map of the firmware.
        memory_type: u32 = MEMORY_MAPPED_MEMORY_TYPE;
        /// The address of its first byte.
        starting_address: u64 = MEMORY_MAPPED_STARTING_ADDRESS;
        /// The address of its last byte.
        ending_address: u64 = MEMORY_MAPPED_ENDING_ADDRESS;
    }

    /// A vendor's own node, named by a GUID.
    Vendor['a]: HARDWARE_VENDOR, 16 {
        /// The GUID that names the vendor.
        vendor_guid: Guid = HARDWARE_VENDOR_VENDOR_GUID;
        /// The data that the vendor defines.
        vendor_defined_data: &'a [u8] = HARDWARE_VENDOR_VENDOR_DEFINED_DATA;
    }

    /// A controller.
    Controller[]: CONTROLLER, 4 {
        /// The number of the controller.
        controller_number: u32 = CONTROLLER_CONTROLLER_NUMBER;
    }

    /// The host interface of a management controller.
    Bmc[]: BMC, 9 {
        /// The type of the interface: 0 unknown, 1 KCS, 2 SMIC, 3 BT.
        interface_type: BmcInterfaceType = BMC_INTERFACE_TYPE;
        /// The base address of the interface; its lowest bit is set for I/O ports, and clear for memory.
        base_address: u64 = BMC_BASE_ADDRESS;
    }
}
