//! Nodes by their kinds.

use super::node_fields::full_type;
use super::{acpi, bios_boot_spec, hardware, media, messaging};
use super::{DevicePathNode, DeviceSubType, NodeConversionError};
use crate::fields;

/// Defines the enum, and the names of the sub-types.
macro_rules! kinds {
    ($($variant:ident($module:ident::$view:ident) = $kind:ident $constant:ident;)*) => {
        /// A node as a view of its kind.
        ///
        /// ```
        /// use nardcorbel::proto::device_path::{DevicePathNode, DevicePathNodeEnum};
        ///
        /// let node = <&DevicePathNode>::try_from(&[1, 1, 6, 0, 2, 0x1f][..])?;
        /// match node.as_enum() {
        ///     Ok(DevicePathNodeEnum::HardwarePci(pci)) => assert_eq!((pci.device(), pci.function()), (0x1f, 2)),
        ///     other => panic!("{other:?}"),
        /// }
        /// # Ok::<(), nardcorbel::Error>(())
        /// ```
        #[allow(missing_docs)]
        #[derive(Clone, Copy, Debug, PartialEq, Eq)]
        #[non_exhaustive]
        pub enum DevicePathNodeEnum<'a> {
            $($variant(&'a $module::$view),)*
        }

        impl<'a> TryFrom<&'a DevicePathNode> for DevicePathNodeEnum<'a> {
            type Error = NodeConversionError;

            fn try_from(node: &'a DevicePathNode) -> Result<Self, NodeConversionError> {
                match node.node_type() {
                    $(fields::$kind => node.try_into().map(Self::$variant),)*
                    _ => Err(NodeConversionError::UnsupportedType),
                }
            }
        }

        #[allow(missing_docs)]
        impl DeviceSubType {
            pub const END_INSTANCE: Self = Self(1);
            pub const END_ENTIRE: Self = Self(0xff);
            $(pub const $constant: Self = full_type(fields::$kind).1;)*
        }
    };
}

kinds! {
    HardwarePci(hardware::Pci) = PCI HARDWARE_PCI;
    HardwarePccard(hardware::Pccard) = PCCARD HARDWARE_PCCARD;
    HardwareMemoryMapped(hardware::MemoryMapped) = MEMORY_MAPPED HARDWARE_MEMORY_MAPPED;
    HardwareVendor(hardware::Vendor) = HARDWARE_VENDOR HARDWARE_VENDOR;
    HardwareController(hardware::Controller) = CONTROLLER HARDWARE_CONTROLLER;
    HardwareBmc(hardware::Bmc) = BMC HARDWARE_BMC;
    AcpiAcpi(acpi::Acpi) = ACPI ACPI_ACPI;
    AcpiExpanded(acpi::Expanded) = EXPANDED ACPI_EXPANDED;
    AcpiAdr(acpi::Adr) = ADR ACPI_ADR;
    AcpiNvdimm(acpi::Nvdimm) = NVDIMM ACPI_NVDIMM;
    MessagingAtapi(messaging::Atapi) = ATAPI MESSAGING_ATAPI;
    MessagingScsi(messaging::Scsi) = SCSI MESSAGING_SCSI;
    MessagingFibreChannel(messaging::FibreChannel) = FIBRE_CHANNEL MESSAGING_FIBRE_CHANNEL;
    MessagingIeee1394(messaging::Ieee1394) = IEEE1394 MESSAGING_IEEE1394;
    MessagingUsb(messaging::Usb) = USB MESSAGING_USB;
    MessagingI2o(messaging::I2o) = I2O MESSAGING_I2O;
    MessagingInfiniband(messaging::Infiniband) = INFINIBAND MESSAGING_INFINIBAND;
    MessagingVendor(messaging::Vendor) = MESSAGING_VENDOR MESSAGING_VENDOR;
    MessagingMacAddress(messaging::MacAddress) = MAC_ADDRESS MESSAGING_MAC_ADDRESS;
    MessagingIpv4(messaging::Ipv4) = IPV4 MESSAGING_IPV4;
    MessagingIpv6(messaging::Ipv6) = IPV6 MESSAGING_IPV6;
    MessagingUart(messaging::Uart) = UART MESSAGING_UART;
    MessagingUsbClass(messaging::UsbClass) = USB_CLASS MESSAGING_USB_CLASS;
    MessagingUsbWwid(messaging::UsbWwid) = USB_WWID MESSAGING_USB_WWID;
    MessagingDeviceLogicalUnit(messaging::DeviceLogicalUnit) = DEVICE_LOGICAL_UNIT MESSAGING_DEVICE_LOGICAL_UNIT;
    MessagingSata(messaging::Sata) = SATA MESSAGING_SATA;
    MessagingIscsi(messaging::Iscsi) = ISCSI MESSAGING_ISCSI;
    MessagingVlan(messaging::Vlan) = VLAN MESSAGING_VLAN;
    MessagingFibreChannelEx(messaging::FibreChannelEx) = FIBRE_CHANNEL_EX MESSAGING_FIBRE_CHANNEL_EX;
    MessagingSasEx(messaging::SasEx) = SAS_EX MESSAGING_SAS_EX;
    MessagingNvmeNamespace(messaging::NvmeNamespace) = NVME_NAMESPACE MESSAGING_NVME_NAMESPACE;
    MessagingUri(messaging::Uri) = URI MESSAGING_URI;
    MessagingUfs(messaging::Ufs) = UFS MESSAGING_UFS;
    MessagingSd(messaging::Sd) = SD MESSAGING_SD;
    MessagingBluetooth(messaging::Bluetooth) = BLUETOOTH MESSAGING_BLUETOOTH;
    MessagingWifi(messaging::Wifi) = WIFI MESSAGING_WIFI;
    MessagingEmmc(messaging::Emmc) = EMMC MESSAGING_EMMC;
    MessagingBluetoothLe(messaging::BluetoothLe) = BLUETOOTH_LE MESSAGING_BLUETOOTH_LE;
    MessagingDns(messaging::Dns) = DNS MESSAGING_DNS;
    MessagingNvdimmNamespace(messaging::NvdimmNamespace) = NVDIMM_NAMESPACE MESSAGING_NVDIMM_NAMESPACE;
    MessagingRestService(messaging::RestService) = REST_SERVICE MESSAGING_REST_SERVICE;
    MessagingNvmeOfNamespace(messaging::NvmeOfNamespace) = NVME_OF_NAMESPACE MESSAGING_NVME_OF_NAMESPACE;
    MediaHardDrive(media::HardDrive) = HARD_DRIVE MEDIA_HARD_DRIVE;
    MediaCdRom(media::CdRom) = CD_ROM MEDIA_CD_ROM;
    MediaVendor(media::Vendor) = MEDIA_VENDOR MEDIA_VENDOR;
    MediaFilePath(media::FilePath) = FILE_PATH MEDIA_FILE_PATH;
    MediaProtocol(media::Protocol) = PROTOCOL MEDIA_PROTOCOL;
    MediaPiwgFirmwareFile(media::PiwgFirmwareFile) = FIRMWARE_FILE MEDIA_PIWG_FIRMWARE_FILE;
    MediaPiwgFirmwareVolume(media::PiwgFirmwareVolume) = FIRMWARE_VOLUME MEDIA_PIWG_FIRMWARE_VOLUME;
    MediaRelativeOffsetRange(media::RelativeOffsetRange) = RELATIVE_OFFSET_RANGE MEDIA_RELATIVE_OFFSET_RANGE;
    MediaRamDisk(media::RamDisk) = RAM_DISK MEDIA_RAM_DISK;
    BiosBootSpecBootSpecification(bios_boot_spec::BootSpecification) = BOOT_SPECIFICATION BIOS_BOOT_SPEC_BOOT_SPECIFICATION;
}

impl DevicePathNode {
    /// Returns the node as a view of its kind. Fails if the kind is unknown, or if the node is too short for it.
    ///
    /// ```
    /// use nardcorbel::proto::device_path::{DevicePathNode, DevicePathNodeEnum};
    ///
    /// let node = <&DevicePathNode>::try_from(&[1, 1, 6, 0, 2, 0x1f][..])?;
    /// assert!(matches!(node.as_enum(), Ok(DevicePathNodeEnum::HardwarePci(_))));
    /// # Ok::<(), nardcorbel::Error>(())
    /// ```
    pub fn as_enum(&self) -> Result<DevicePathNodeEnum<'_>, NodeConversionError> {
        self.try_into()
    }
}
