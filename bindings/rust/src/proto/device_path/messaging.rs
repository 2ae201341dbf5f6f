//! Nodes for devices that exchange messages.

use super::node_fields::{named, views};
use crate::data_types::UnalignedSlice;
use crate::Guid;

named! {
    /// A bus of an ATA controller.
    PrimarySecondary(u8) {
        PRIMARY = 0;
        SECONDARY = 1;
    }
}

named! {
    /// A drive on an ATA bus.
    MasterSlave(u8) {
        MASTER = 0;
        SLAVE = 1;
    }
}

named! {
    /// The parity bit of a serial line.
    Parity(u8) {
        DEFAULT = 0;
        NO = 1;
        EVEN = 2;
        ODD = 3;
        MARK = 4;
        SPACE = 5;
    }
}

named! {
    /// The number of bits that end a character of a serial line.
    StopBits(u8) {
        DEFAULT = 0;
        ONE = 1;
        ONE_POINT_FIVE = 2;
        TWO = 3;
    }
}

named! {
    /// The protocol below iSCSI.
    IscsiProtocol(u16) {
        TCP = 0;
    }
}

named! {
    /// The origin of an IPv4 address.
    Ipv4AddressOrigin(u8) {
        DHCP = 0;
        STATIC = 1;
    }
}

named! {
    /// The origin of an IPv6 address.
    Ipv6AddressOrigin(u8) {
        MANUAL = 0;
        STATELESS_AUTO_CONFIGURATION = 1;
        STATEFUL_CONFIGURATION = 2;
    }
}

named! {
    /// The kind of the addresses of a DNS node.
    DnsAddressType(u8) {
        IPV4 = 0;
        IPV6 = 1;
    }
}

named! {
    /// The kind of a REST service.
    RestServiceType(u8) {
        REDFISH = 1;
        ODATA = 2;
        VENDOR = 255;
    }
}

named! {
    /// How a REST service is reached.
    RestServiceAccessMode(u8) {
        IN_BAND = 1;
        OUT_OF_BAND = 2;
    }
}

views! {
    /// A drive on an ATA bus.
    Atapi[]: ATAPI, 4 {
        /// The bus: 0 is the primary one, 1 the secondary one.
        primary_secondary: PrimarySecondary = ATAPI_PRIMARY_SECONDARY;
        /// The drive on the bus: 0 is the master, 1 the slave.
        master_slave: MasterSlave = ATAPI_MASTER_SLAVE;
        /// The logical unit number.
        logical_unit_number: u16 = ATAPI_LOGICAL_UNIT_NUMBER;
    }

    /// A device on a SCSI bus.
    Scsi[]: SCSI, 4 {
        /// The number of the target on its bus.
        target_id: u16 = SCSI_TARGET_ID;
        /// The logical unit number.
        logical_unit_number: u16 = SCSI_LOGICAL_UNIT_NUMBER;
    }

    /// A device on Fibre Channel.
    FibreChannel[]: FIBRE_CHANNEL, 20 {
        /// The world wide name.
        world_wide_name: u64 = FIBRE_CHANNEL_WORLD_WIDE_NAME;
        /// The logical unit number.
        logical_unit_number: u64 = FIBRE_CHANNEL_LOGICAL_UNIT_NUMBER;
    }

    /// A FireWire device.
    Ieee1394[]: IEEE1394, 12 {
        /// The bytes of its GUID, of eight bytes.
        guid: [u8; 8] = IEEE1394_GUID;
    }

    /// A device on a USB bus.
    Usb[]: USB, 2 {
        /// The number of the port of its hub.
        parent_port_number: u8 = USB_PARENT_PORT_NUMBER;
        /// The number of its interface.
        interface: u8 = USB_INTERFACE;
    }

    /// A device on an I2O bus.
    I2o[]: I2O, 4 {
        /// The number of the target on its bus.
        target_id: u32 = I2O_TARGET_ID;
    }

    /// A device on InfiniBand.
    Infiniband[]: INFINIBAND, 44 {
        /// The target of the node, in bits: 0 an I/O controller or a service, 1 an extension of the boot environment, 2 a
        /// console, 3 storage, 4 a network.
        resource_flags: u32 = INFINIBAND_RESOURCE_FLAGS;
        /// The bytes of the global identifier of the remote fabric port.
        port_gid: [u8; 16] = INFINIBAND_PORT_GID;
        /// The GUID of the I/O controller, or the identifier of the service.
        ioc_guid_or_service_id: u64 = INFINIBAND_IOC_GUID_OR_SERVICE_ID;
        /// The persistent identifier of the remote port.
        target_port_id: u64 = INFINIBAND_TARGET_PORT_ID;
        /// The persistent identifier of the remote device.
        device_id: u64 = INFINIBAND_DEVICE_ID;
    }

    /// A vendor's own node, named by a GUID.
    Vendor['a]: MESSAGING_VENDOR, 16 {
        /// The GUID that names the vendor.
        vendor_guid: Guid = MESSAGING_VENDOR_VENDOR_GUID;
        /// The data that the vendor defines.
        vendor_defined_data: &'a [u8] = MESSAGING_VENDOR_VENDOR_DEFINED_DATA;
    }

    /// A network interface.
    MacAddress[]: MAC_ADDRESS, 33 {
        /// The address, filled up with zeros.
        mac_address: [u8; 32] = MAC_ADDRESS_MAC_ADDRESS;
        /// The type of the interface, by RFC 3232.
        interface_type: u8 = MAC_ADDRESS_INTERFACE_TYPE;
    }

    /// An endpoint of a connection over IP version 4.
    Ipv4[]: IPV4, 15 {
        /// The local address.
        local_ip_address: [u8; 4] = IPV4_LOCAL_IP_ADDRESS;
        /// The remote address.
        remote_ip_address: [u8; 4] = IPV4_REMOTE_IP_ADDRESS;
        /// The local port.
        local_port: u16 = IPV4_LOCAL_PORT;
        /// The remote port.
        remote_port: u16 = IPV4_REMOTE_PORT;
        /// The number of the protocol over IP, for example of UDP or TCP.
        protocol: u16 = IPV4_PROTOCOL;
        /// Zero if the local address came by DHCP.
        ip_address_origin: Ipv4AddressOrigin = IPV4_IP_ADDRESS_ORIGIN;
        /// The address of the gateway, or `None` if the node ends before it: nodes of 19 bytes, from before the
        /// standard had this field, have none.
        gateway_ip_address: Option<[u8; 4]> = IPV4_GATEWAY_IP_ADDRESS;
        /// The mask of the subnet, or `None` if the node ends before it, as [`Ipv4::gateway_ip_address`] says.
        subnet_mask: Option<[u8; 4]> = IPV4_SUBNET_MASK;
    }

    /// An endpoint of a connection over IP version 6.
    Ipv6[]: IPV6, 56 {
        /// The local address.
        local_ip_address: [u8; 16] = IPV6_LOCAL_IP_ADDRESS;
        /// The remote address.
        remote_ip_address: [u8; 16] = IPV6_REMOTE_IP_ADDRESS;
        /// The local port.
        local_port: u16 = IPV6_LOCAL_PORT;
        /// The remote port.
        remote_port: u16 = IPV6_REMOTE_PORT;
        /// The number of the protocol over IP, for example of UDP or TCP.
        protocol: u16 = IPV6_PROTOCOL;
        /// How the local address was set: 0 by hand, 1 automatically without state, 2 automatically with state.
        ip_address_origin: Ipv6AddressOrigin = IPV6_IP_ADDRESS_ORIGIN;
        /// The number of bits of the prefix.
        prefix_length: u8 = IPV6_PREFIX_LENGTH;
        /// The address of the gateway.
        gateway_ip_address: [u8; 16] = IPV6_GATEWAY_IP_ADDRESS;
    }

    /// A serial port.
    Uart[]: UART, 15 {
        /// The baud rate; 0 is the default of the device.
        baud_rate: u64 = UART_BAUD_RATE;
        /// The number of data bits; 0 is the default of the device.
        data_bits: u8 = UART_DATA_BITS;
        /// The parity: 0 default, 1 none, 2 even, 3 odd, 4 mark, 5 space.
        parity: Parity = UART_PARITY;
        /// The stop bits: 0 default, 1 one, 2 one and a half, 3 two.
        stop_bits: StopBits = UART_STOP_BITS;
    }

    /// Each USB device of a class.
    UsbClass[]: USB_CLASS, 7 {
        /// The ID of the vendor; 0xffff is any.
        vendor_id: u16 = USB_CLASS_VENDOR_ID;
        /// The ID of the product; 0xffff is any.
        product_id: u16 = USB_CLASS_PRODUCT_ID;
        /// The class; 0xff is any.
        device_class: u8 = USB_CLASS_DEVICE_CLASS;
        /// The subclass; 0xff is any.
        device_subclass: u8 = USB_CLASS_DEVICE_SUBCLASS;
        /// The protocol; 0xff is any.
        device_protocol: u8 = USB_CLASS_DEVICE_PROTOCOL;
    }

    /// A USB device by its serial number.
    UsbWwid['a]: USB_WWID, 6 {
        /// The number of its interface.
        interface_number: u16 = USB_WWID_INTERFACE_NUMBER;
        /// The ID of its vendor.
        device_vendor_id: u16 = USB_WWID_DEVICE_VENDOR_ID;
        /// The ID of the product.
        device_product_id: u16 = USB_WWID_DEVICE_PRODUCT_ID;
        /// The code units of the last 64 or fewer characters of the serial number, without a NUL, or `None` where half a
        /// unit is left.
        serial_number: UnalignedSlice<'a, u16> | &'a [u16] = USB_WWID_SERIAL_NUMBER;
    }

    /// A logical unit of the device before it.
    DeviceLogicalUnit[]: DEVICE_LOGICAL_UNIT, 1 {
        /// The logical unit number.
        logical_unit_number: u8 = DEVICE_LOGICAL_UNIT_LOGICAL_UNIT_NUMBER;
    }

    /// A device on a SATA port.
    Sata[]: SATA, 6 {
        /// The number of the port of the host bus adapter.
        hba_port_number: u16 = SATA_HBA_PORT_NUMBER;
        /// The number of the port of a port multiplier; 0xffff if there is none.
        port_multiplier_port_number: u16 = SATA_PORT_MULTIPLIER_PORT_NUMBER;
        /// The logical unit number.
        logical_unit_number: u16 = SATA_LOGICAL_UNIT_NUMBER;
    }

    /// An iSCSI target.
    Iscsi['a]: ISCSI, 14 {
        /// The protocol: 0 is TCP.
        protocol: IscsiProtocol = ISCSI_PROTOCOL;
        /// The options of the login: bits for digests and authentication.
        options: u16 = ISCSI_OPTIONS;
        /// The bytes of the logical unit number.
        logical_unit_number: [u8; 8] = ISCSI_LOGICAL_UNIT_NUMBER;
        /// The tag of the portal group of the target.
        target_portal_group_tag: u16 = ISCSI_TARGET_PORTAL_GROUP_TAG;
        /// The bytes of the name of the target.
        iscsi_target_name: &'a [u8] = ISCSI_ISCSI_TARGET_NAME;
    }

    /// A virtual network.
    Vlan[]: VLAN, 2 {
        /// The number of the network, from 0 to 4094.
        vlan_id: u16 = VLAN_VLAN_ID;
    }

    /// A device on Fibre Channel, by bytes in the order of the bus.
    FibreChannelEx[]: FIBRE_CHANNEL_EX, 20 {
        /// The bytes of the world wide name.
        world_wide_name: [u8; 8] = FIBRE_CHANNEL_EX_WORLD_WIDE_NAME;
        /// The bytes of the logical unit number.
        logical_unit_number: [u8; 8] = FIBRE_CHANNEL_EX_LOGICAL_UNIT_NUMBER;
    }

    /// A device on SAS.
    SasEx[]: SAS_EX, 20 {
        /// The bytes of the SAS address.
        sas_address: [u8; 8] = SAS_EX_SAS_ADDRESS;
        /// The bytes of the logical unit number.
        logical_unit_number: [u8; 8] = SAS_EX_LOGICAL_UNIT_NUMBER;
        /// Information about the device and its connection.
        info: u16 = SAS_EX_INFO;
        /// The relative target port.
        relative_target_port: u16 = SAS_EX_RELATIVE_TARGET_PORT;
    }

    /// A namespace of NVM Express.
    NvmeNamespace[]: NVME_NAMESPACE, 12 {
        /// The number of the namespace.
        namespace_identifier: u32 = NVME_NAMESPACE_NAMESPACE_IDENTIFIER;
        /// The extended unique identifier, EUI-64.
        ieee_extended_unique_identifier: u64 = NVME_NAMESPACE_IEEE_EXTENDED_UNIQUE_IDENTIFIER;
    }

    /// The URI of a resource.
    Uri['a]: URI, 0 {
        /// The bytes of the URI.
        value: &'a [u8] = URI_VALUE;
    }

    /// A device on UFS.
    Ufs[]: UFS, 2 {
        /// The number of the target on its bus.
        target_id: u8 = UFS_TARGET_ID;
        /// The logical unit number.
        logical_unit_number: u8 = UFS_LOGICAL_UNIT_NUMBER;
    }

    /// An SD card.
    Sd[]: SD, 1 {
        /// The number of the slot.
        slot_number: u8 = SD_SLOT_NUMBER;
    }

    /// A Bluetooth device.
    Bluetooth[]: BLUETOOTH, 6 {
        /// The bytes of its address.
        device_address: [u8; 6] = BLUETOOTH_DEVICE_ADDRESS;
    }

    /// A wireless network.
    Wifi[]: WIFI, 32 {
        /// The name of the network, its SSID, filled up with zeros.
        ssid: [u8; 32] = WIFI_SSID;
    }

    /// An eMMC card.
    Emmc[]: EMMC, 1 {
        /// The number of the slot.
        slot_number: u8 = EMMC_SLOT_NUMBER;
    }

    /// A Bluetooth Low Energy device.
    BluetoothLe[]: BLUETOOTH_LE, 7 {
        /// The bytes of its address.
        device_address: [u8; 6] = BLUETOOTH_LE_DEVICE_ADDRESS;
        /// The type of the address: 0 is public, 1 is random.
        address_type: u8 = BLUETOOTH_LE_ADDRESS_TYPE;
    }

    /// Name servers.
    Dns['a]: DNS, 1 {
        /// The type of the addresses: 0 is IP version 4, 1 is version 6.
        address_type: DnsAddressType = DNS_ADDRESS_TYPE;
        /// The addresses, each in 16 bytes; one of IPv4 is in the first four.
        addresses: UnalignedSlice<'a, [u8; 16]> | &'a [[u8; 16]] = DNS_ADDRESS;
    }

    /// A namespace of a persistent memory module.
    NvdimmNamespace[]: NVDIMM_NAMESPACE, 16 {
        /// The UUID that labels the namespace.
        uuid: Guid = NVDIMM_NAMESPACE_UUID;
    }

    /// A REST service.
    RestService[]: REST_SERVICE, 2 {
        /// The service: 1 Redfish, 2 OData, 0xff that of a vendor.
        service_type: RestServiceType = REST_SERVICE_SERVICE_TYPE;
        /// How it is reached: 1 in band, 2 out of band.
        access_mode: RestServiceAccessMode = REST_SERVICE_ACCESS_MODE;
    }

    /// A namespace of NVM Express over a network.
    NvmeOfNamespace['a]: NVME_OF_NAMESPACE, 17 {
        /// The type of the identifier: 1 EUI-64, 2 NGUID, 3 UUID.
        nidt: u8 = NVME_OF_NAMESPACE_NIDT;
        /// The bytes of the identifier.
        nid: [u8; 16] = NVME_OF_NAMESPACE_NID;
        /// The qualified name of the subsystem, in UTF-8, with its NUL.
        subsystem_nqn: &'a [u8] = NVME_OF_NAMESPACE_SUBSYSTEM_NQN;
    }
}

impl RestService {
    /// Returns the GUID of a vendor's service and the vendor's data after it, or `None` if the service is another or has no GUID.
    ///
    /// ```no_run
    /// use nardcorbel::proto::device_path::messaging::RestService;
    ///
    /// fn print(service: &RestService) {
    ///     if let Some((guid, data)) = service.vendor_guid_and_data() {
    ///         println!("{guid}: {data:?}");
    ///     }
    /// }
    /// ```
    #[must_use]
    pub fn vendor_guid_and_data(&self) -> Option<(Guid, &[u8])> {
        let (guid, data) = self.0.data()[2..].split_at_checked(16)?;
        let guid = Guid::from_bytes(guid.try_into().ok()?);
        (self.service_type() == RestServiceType::VENDOR).then_some((guid, data))
    }
}
