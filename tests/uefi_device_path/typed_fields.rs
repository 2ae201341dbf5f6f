//! The fields of each kind of node at their offsets in the UEFI Specification, and the view of each kind.

use std::test::Fail;
use uefi_device_path::{
    DevicePathNode, DevicePathNodeEnum as Kind, DeviceSubType as Sub, DeviceType,
    NodeConversionError,
};

/// Returns the bytes of a node with this much data, which counts up: 1, 2, 3.
fn node_bytes(device_type: u8, sub_type: u8, len: u8) -> [u8; 68] {
    let mut bytes = [0; 68];
    let (header, data) = bytes.split_at_mut(4);
    header.copy_from_slice(&[device_type, sub_type, len.saturating_add(4), 0]);
    let mut next = 0u8;
    for byte in data {
        next = next.saturating_add(1);
        *byte = next;
    }
    bytes
}

/// Returns whether bytes count up from `first`.
fn are_data(bytes: &[u8], first: u8) -> bool {
    let mut next = first;
    for byte in bytes {
        if *byte != next {
            return false;
        }
        next = next.saturating_add(1);
    }
    true
}

/// The data of nodes from the byte with that number on.
const FROM_13: &[u8] = &[13, 14, 15, 16, 17];

const FROM_17: &[u8] = &[17, 18, 19];

/// Returns whether a node has the view of one of these kinds, with these fields.
macro_rules! has_fields {
    ($node:ident $($kind:ident $it:ident [$($field:expr),*])*) => {
        match $node.as_enum() {
            $(Ok(Kind::$kind($it)) => true $(&& $field)*,)*
            _ => false,
        }
    };
}

fn is_hardware(node: DevicePathNode<'_>) -> bool {
    has_fields! { node
        HardwarePci it [it.function() == 1, it.device() == 2]
        HardwarePccard it [it.function() == 1]
        HardwareMemoryMapped it [it.memory_type() == 0x0403_0201,
            it.starting_address() == 0x0c0b_0a09_0807_0605, it.ending_address() == 0x1413_1211_100f_0e0d]
        HardwareVendor it [are_data(&it.vendor_guid().to_bytes(), 1), it.vendor_defined_data() == FROM_17]
        HardwareController it [it.controller_number() == 0x0403_0201]
        HardwareBmc it [it.interface_type() == 1, it.base_address() == 0x0908_0706_0504_0302]
    }
}

fn is_acpi(node: DevicePathNode<'_>) -> bool {
    has_fields! { node
        AcpiAcpi it [it.hid() == 0x0403_0201, it.uid() == 0x0807_0605]
        AcpiExpanded it [it.hid() == 0x0403_0201, it.uid() == 0x0807_0605, it.cid() == 0x0c0b_0a09,
            it.id_strings() == FROM_13, it.hid_str() == FROM_13, it.uid_str().is_empty(),
            it.cid_str().is_empty()]
        AcpiAdr it [it.adr().len() == 2, it.adr().get(1) == Some(0x0807_0605)]
        AcpiNvdimm it [it.nfit_device_handle() == 0x0403_0201]
    }
}

fn is_bus(node: DevicePathNode<'_>) -> bool {
    has_fields! { node
        MessagingAtapi it [it.primary_secondary() == 1, it.master_slave() == 2,
            it.logical_unit_number() == 0x0403]
        MessagingScsi it [it.target_id() == 0x0201, it.logical_unit_number() == 0x0403]
        MessagingFibreChannel it [it.world_wide_name() == 0x0c0b_0a09_0807_0605,
            it.logical_unit_number() == 0x1413_1211_100f_0e0d]
        MessagingIeee1394 it [are_data(&it.guid(), 5)]
        MessagingUsb it [it.parent_port_number() == 1, it.interface() == 2]
        MessagingI2o it [it.target_id() == 0x0403_0201]
        MessagingInfiniband it [it.resource_flags() == 0x0403_0201, are_data(&it.port_gid(), 5),
            it.ioc_guid_or_service_id() == 0x1c1b_1a19_1817_1615,
            it.target_port_id() == 0x2423_2221_201f_1e1d, it.device_id() == 0x2c2b_2a29_2827_2625]
        MessagingVendor it [are_data(&it.vendor_guid().to_bytes(), 1), it.vendor_defined_data() == FROM_17]
    }
}

fn is_network(node: DevicePathNode<'_>) -> bool {
    has_fields! { node
        MessagingMacAddress it [are_data(&it.mac_address(), 1), it.interface_type() == 0x21]
        MessagingIpv4 it [are_data(&it.local_ip_address(), 1), are_data(&it.remote_ip_address(), 5),
            it.local_port() == 0x0a09, it.remote_port() == 0x0c0b, it.protocol() == 0x0e0d,
            it.ip_address_origin() == 15, it.gateway_ip_address() == Some([16, 17, 18, 19]),
            it.subnet_mask() == Some([20, 21, 22, 23])]
        MessagingIpv6 it [are_data(&it.local_ip_address(), 1), are_data(&it.remote_ip_address(), 17),
            it.local_port() == 0x2221, it.remote_port() == 0x2423, it.protocol() == 0x2625,
            it.ip_address_origin() == 39, it.prefix_length() == 40, are_data(&it.gateway_ip_address(), 41)]
    }
}

fn is_line(node: DevicePathNode<'_>) -> bool {
    has_fields! { node
        MessagingUart it [it.baud_rate() == 0x0c0b_0a09_0807_0605, it.data_bits() == 13, it.parity() == 14,
            it.stop_bits() == 15]
        MessagingUsbClass it [it.vendor_id() == 0x0201, it.product_id() == 0x0403, it.device_class() == 5,
            it.device_subclass() == 6, it.device_protocol() == 7]
        MessagingUsbWwid it [it.interface_number() == 0x0201, it.device_vendor_id() == 0x0403,
            it.device_product_id() == 0x0605,
            it.serial_number().is_some_and(|units| units.len() == 2 && units.get(1) == Some(0x0a09))]
        MessagingDeviceLogicalUnit it [it.logical_unit_number() == 1]
        MessagingSata it [it.hba_port_number() == 0x0201, it.port_multiplier_port_number() == 0x0403,
            it.logical_unit_number() == 0x0605]
        MessagingIscsi it [it.protocol() == 0x0201, it.options() == 0x0403,
            are_data(&it.logical_unit_number(), 5), it.target_portal_group_tag() == 0x0e0d,
            it.iscsi_target_name() == [15, 16, 17].as_slice()]
        MessagingVlan it [it.vlan_id() == 0x0201]
    }
}

fn is_drive(node: DevicePathNode<'_>) -> bool {
    has_fields! { node
        MessagingFibreChannelEx it [are_data(&it.world_wide_name(), 5), are_data(&it.logical_unit_number(),
            13)]
        MessagingSasEx it [are_data(&it.sas_address(), 1), are_data(&it.logical_unit_number(), 9),
            it.info() == 0x1211, it.relative_target_port() == 0x1413]
        MessagingNvmeNamespace it [it.namespace_identifier() == 0x0403_0201,
            it.ieee_extended_unique_identifier() == 0x0c0b_0a09_0807_0605]
        MessagingUri it [it.value() == [1, 2, 3].as_slice()]
        MessagingUfs it [it.target_id() == 1, it.logical_unit_number() == 2]
        MessagingSd it [it.slot_number() == 1]
        MessagingBluetooth it [are_data(&it.device_address(), 1)]
        MessagingWifi it [are_data(&it.ssid(), 1)]
        MessagingEmmc it [it.slot_number() == 1]
        MessagingBluetoothLe it [are_data(&it.device_address(), 1), it.address_type() == 7]
    }
}

fn is_service(node: DevicePathNode<'_>) -> bool {
    has_fields! { node
        MessagingDns it [it.address_type() == 1, it.address_count() == 2, it.address(2).is_none(),
            matches!(it.address(1), Some(address) if are_data(&address, 18))]
        MessagingNvdimmNamespace it [are_data(&it.uuid().to_bytes(), 1)]
        MessagingRestService it [it.service_type() == 1, it.access_mode() == 2,
            it.vendor_guid_and_data().is_none()]
        MessagingNvmeOfNamespace it [it.nidt() == 1, are_data(&it.nid(), 2), it.subsystem_nqn() == [18, 19,
            20].as_slice()]
    }
}

fn is_media(node: DevicePathNode<'_>) -> bool {
    has_fields! { node
        MediaHardDrive it [it.partition_number() == 0x0403_0201,
            it.partition_start() == 0x0c0b_0a09_0807_0605, it.partition_size() == 0x1413_1211_100f_0e0d,
            are_data(&it.partition_signature(), 21), it.partition_format() == 0x25,
            it.signature_type() == 0x26]
        MediaCdRom it [it.boot_entry() == 0x0403_0201, it.partition_start() == 0x0c0b_0a09_0807_0605,
            it.partition_size() == 0x1413_1211_100f_0e0d]
        MediaVendor it [are_data(&it.vendor_guid().to_bytes(), 1), it.vendor_defined_data() == FROM_17]
        MediaFilePath it [it.path_name().get(1) == Some(0x0403)]
        MediaProtocol it [are_data(&it.protocol_guid().to_bytes(), 1)]
        MediaPiwgFirmwareFile it [are_data(&it.file_name().to_bytes(), 1)]
        MediaPiwgFirmwareVolume it [are_data(&it.volume_name().to_bytes(), 1)]
        MediaRelativeOffsetRange it [it.starting_offset() == 0x0c0b_0a09_0807_0605,
            it.ending_offset() == 0x1413_1211_100f_0e0d]
        MediaRamDisk it [it.starting_address() == 0x0807_0605_0403_0201,
            it.ending_address() == 0x100f_0e0d_0c0b_0a09, are_data(&it.disk_type().to_bytes(), 17),
            it.disk_instance() == 0x2221]
        BiosBootSpecBootSpecification it [it.device_type() == 0x0201, it.status_flag() == 0x0403,
            it.description_string() == [5, 6, 7].as_slice()]
    }
}

/// Returns whether a node has the view of its kind, whose fields are the bytes at their offsets.
fn is_read(node: DevicePathNode<'_>) -> bool {
    is_hardware(node)
        || is_acpi(node)
        || is_bus(node)
        || is_network(node)
        || is_line(node)
        || is_drive(node)
        || is_service(node)
        || is_media(node)
}

/// The sub-type of each kind, the numbers of its type and sub-type in the UEFI Specification, the data size
/// of a node here, and the minimum data size.
pub(crate) const KINDS: &[(Sub, u8, u8, u8, u8)] = &[
    (Sub::HARDWARE_PCI, 1, 1, 2, 2),
    (Sub::HARDWARE_PCCARD, 1, 2, 1, 1),
    (Sub::HARDWARE_MEMORY_MAPPED, 1, 3, 20, 20),
    (Sub::HARDWARE_VENDOR, 1, 4, 19, 16),
    (Sub::HARDWARE_CONTROLLER, 1, 5, 4, 4),
    (Sub::HARDWARE_BMC, 1, 6, 9, 9),
    (Sub::ACPI, 2, 1, 8, 8),
    (Sub::ACPI_EXPANDED, 2, 2, 17, 15),
    (Sub::ACPI_ADR, 2, 3, 9, 4),
    (Sub::ACPI_NVDIMM, 2, 4, 4, 4),
    (Sub::MESSAGING_ATAPI, 3, 1, 4, 4),
    (Sub::MESSAGING_SCSI, 3, 2, 4, 4),
    (Sub::MESSAGING_FIBRE_CHANNEL, 3, 3, 20, 20),
    (Sub::MESSAGING_1394, 3, 4, 12, 12),
    (Sub::MESSAGING_USB, 3, 5, 2, 2),
    (Sub::MESSAGING_I2O, 3, 6, 4, 4),
    (Sub::MESSAGING_INFINIBAND, 3, 9, 44, 44),
    (Sub::MESSAGING_VENDOR, 3, 10, 19, 16),
    (Sub::MESSAGING_MAC_ADDRESS, 3, 11, 33, 33),
    (Sub::MESSAGING_IPV4, 3, 12, 23, 15),
    (Sub::MESSAGING_IPV6, 3, 13, 56, 56),
    (Sub::MESSAGING_UART, 3, 14, 15, 15),
    (Sub::MESSAGING_USB_CLASS, 3, 15, 7, 7),
    (Sub::MESSAGING_USB_WWID, 3, 16, 10, 6),
    (Sub::MESSAGING_DEVICE_LOGICAL_UNIT, 3, 17, 1, 1),
    (Sub::MESSAGING_SATA, 3, 18, 6, 6),
    (Sub::MESSAGING_ISCSI, 3, 19, 17, 14),
    (Sub::MESSAGING_VLAN, 3, 20, 2, 2),
    (Sub::MESSAGING_FIBRE_CHANNEL_EX, 3, 21, 20, 20),
    (Sub::MESSAGING_SCSI_SAS_EX, 3, 22, 20, 20),
    (Sub::MESSAGING_NVME_NAMESPACE, 3, 23, 12, 12),
    (Sub::MESSAGING_URI, 3, 24, 3, 0),
    (Sub::MESSAGING_UFS, 3, 25, 2, 2),
    (Sub::MESSAGING_SD, 3, 26, 1, 1),
    (Sub::MESSAGING_BLUETOOTH, 3, 27, 6, 6),
    (Sub::MESSAGING_WIFI, 3, 28, 32, 32),
    (Sub::MESSAGING_EMMC, 3, 29, 1, 1),
    (Sub::MESSAGING_BLUETOOTH_LE, 3, 30, 7, 7),
    (Sub::MESSAGING_DNS, 3, 31, 36, 1),
    (Sub::MESSAGING_NVDIMM_NAMESPACE, 3, 32, 16, 16),
    (Sub::MESSAGING_REST_SERVICE, 3, 33, 5, 2),
    (Sub::MESSAGING_NVME_OF_NAMESPACE, 3, 34, 20, 17),
    (Sub::MEDIA_HARD_DRIVE, 4, 1, 38, 38),
    (Sub::MEDIA_CD_ROM, 4, 2, 20, 20),
    (Sub::MEDIA_VENDOR, 4, 3, 19, 16),
    (Sub::MEDIA_FILE_PATH, 4, 4, 6, 0),
    (Sub::MEDIA_PROTOCOL, 4, 5, 16, 16),
    (Sub::MEDIA_PIWG_FIRMWARE_FILE, 4, 6, 16, 16),
    (Sub::MEDIA_PIWG_FIRMWARE_VOLUME, 4, 7, 16, 16),
    (Sub::MEDIA_RELATIVE_OFFSET_RANGE, 4, 8, 20, 20),
    (Sub::MEDIA_RAM_DISK, 4, 9, 34, 34),
    (Sub::BIOS_BOOT_SPECIFICATION, 5, 1, 7, 5),
];

/// Returns why a node with this much data has no view, or `None` if it has one.
fn refusal(device_type: u8, sub_type: u8, len: u8) -> Result<Option<NodeConversionError>, Fail> {
    let bytes = node_bytes(device_type, sub_type, len);
    let (node, _) = DevicePathNode::split_first(&bytes)?;
    Ok(node.as_enum().err())
}

#[test]
fn fields(rt: HostRuntime) -> Result<(), Fail> {
    assert!(rt; (Sub::END_INSTANCE.0, Sub::END_ENTIRE.0) == (1, 255));
    for (name, device_type, sub_type, len, _) in KINDS {
        let bytes = node_bytes(*device_type, *sub_type, *len);
        let (node, _) = DevicePathNode::split_first(&bytes)?;
        let is_right = name.0 == *sub_type && is_read(node);
        assert!(rt; is_right, "{device_type}, {sub_type}");
    }
    Ok(())
}

#[test]
fn least_lengths_of_views(rt: HostRuntime) -> Result<(), Fail> {
    for (_, device_type, sub_type, _, least) in KINDS {
        let whole = refusal(*device_type, *sub_type, *least)?;
        let short = refusal(*device_type, *sub_type, least.saturating_sub(1))?;
        let want = (*least > 0).then_some(NodeConversionError::InvalidLength);
        let is_right = whole.is_none() && short == want;
        assert!(rt; is_right, "{device_type}, {sub_type}");
    }
    Ok(())
}

/// The size of the addresses in a node of domain name servers, after the type byte, and how many addresses
/// that is.
const SERVERS: &[(u8, usize)] = &[(0, 0), (15, 0), (16, 1), (31, 1), (32, 2), (48, 3)];

#[test]
fn addresses_of_servers(rt: HostRuntime) -> Result<(), Fail> {
    for (len, count) in SERVERS {
        let bytes = node_bytes(3, 31, len.saturating_add(1));
        let Ok(Kind::MessagingDns(it)) = DevicePathNode::split_first(&bytes)?.0.as_enum() else {
            return Err("a view".into());
        };
        assert!(rt;
            it.address_count() == *count && it.address(*count).is_none(),
            "{len}"
        );
        for place in 0..*count {
            let first = place as u8 % 8 * 16 + 2;
            let is_right = matches!(it.address(place), Some(address) if are_data(&address, first));
            assert!(rt; is_right, "{len}, {place}");
        }
    }
    Ok(())
}

/// Types and sub-types without a kind, a byte each.
const UNSUPPORTED: [u16; 13] = [
    0x0001, 0x0100, 0x0107, 0x0205, 0x0300, 0x0307, 0x0308, 0x0323, 0x0400, 0x040a, 0x0502, 0x0601,
    0xffff,
];

#[test]
fn kinds_without_a_view(rt: HostRuntime) -> Result<(), Fail> {
    for kind in UNSUPPORTED {
        let [device_type, sub_type] = kind.to_be_bytes();
        let want = Some(NodeConversionError::UnsupportedType);
        assert!(rt; refusal(device_type, sub_type, 60)? == want, "{kind:04x}");
    }
    assert!(rt; refusal(4, 4, 5)? == Some(NodeConversionError::InvalidLength));
    Ok(())
}
