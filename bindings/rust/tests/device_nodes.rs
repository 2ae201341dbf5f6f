//! Each kind of node, built, displayed and read, over bytes and texts as EDK II has them.
#![cfg(feature = "alloc")]

use nardcorbel::proto::device_path::media::{PartitionFormat, PartitionSignature, RamDiskType};
use nardcorbel::proto::device_path::messaging::*;
use nardcorbel::proto::device_path::{
    build, hardware, BuildError, BuildNode, DevicePath, DevicePathNode, DevicePathNodeEnum,
};
use nardcorbel::{cstr16, guid, Guid};
use std::mem::MaybeUninit;

const GUID: Guid = guid!("12345678-9abc-def0-1234-56789abcdef0");

/// Bytes in hexadecimal.
fn bytes(text: &str) -> Vec<u8> {
    let digits: Vec<char> = text.chars().filter(|it| !it.is_whitespace()).collect();
    let pairs = digits.chunks(2).map(String::from_iter);
    pairs
        .map(|it| u8::from_str_radix(&it, 16).unwrap())
        .collect()
}

/// A path of one node.
fn path_of(node: &dyn BuildNode) -> Result<Box<DevicePath>, BuildError> {
    let mut room = [MaybeUninit::uninit(); 128];
    let path = build::DevicePathBuilder::with_buf(&mut room)
        .push(node)?
        .finalize()?;
    Ok(path.to_boxed())
}

/// The struct that builds a node, made of what the calls of its view return.
macro_rules! again {
    ($node:expr; $($variant:ident $module:ident::$view:ident { $($field:ident $(: $with:ident)?)* })*) => {
        match $node.as_enum().unwrap() {
            $(DevicePathNodeEnum::$variant(it) => path_of(&build::$module::$view {
                $($field: again!(@ it.$field() $(, $with)?),)*
            }),)*
            other => panic!("no row for {other:?}"),
        }
    };
    (@ $value:expr) => { $value };
    (@ $value:expr, copied) => { &$value.to_vec() };
}

/// Builds a node anew from what its view says.
fn again(node: &DevicePathNode) -> Box<DevicePath> {
    if let Ok(DevicePathNodeEnum::MediaFilePath(it)) = node.as_enum() {
        let path_name = &it.path_name().to_cstring16().unwrap();
        return path_of(&build::media::FilePath { path_name }).unwrap();
    }
    let built = again! { node;
        HardwarePci hardware::Pci { function device }
        HardwarePccard hardware::Pccard { function }
        HardwareMemoryMapped hardware::MemoryMapped { memory_type starting_address ending_address }
        HardwareVendor hardware::Vendor { vendor_guid vendor_defined_data }
        HardwareController hardware::Controller { controller_number }
        HardwareBmc hardware::Bmc { interface_type base_address }
        AcpiAcpi acpi::Acpi { hid uid }
        AcpiExpanded acpi::Expanded { hid uid cid hid_str uid_str cid_str }
        AcpiAdr acpi::Adr { adr: copied }
        AcpiNvdimm acpi::Nvdimm { nfit_device_handle }
        MessagingAtapi messaging::Atapi { primary_secondary master_slave logical_unit_number }
        MessagingScsi messaging::Scsi { target_id logical_unit_number }
        MessagingFibreChannel messaging::FibreChannel { world_wide_name logical_unit_number }
        MessagingIeee1394 messaging::Ieee1394 { guid }
        MessagingUsb messaging::Usb { parent_port_number interface }
        MessagingI2o messaging::I2o { target_id }
        MessagingInfiniband messaging::Infiniband {
            resource_flags port_gid ioc_guid_or_service_id target_port_id device_id
        }
        MessagingVendor messaging::Vendor { vendor_guid vendor_defined_data }
        MessagingMacAddress messaging::MacAddress { mac_address interface_type }
        MessagingIpv4 messaging::Ipv4 {
            local_ip_address remote_ip_address local_port remote_port protocol ip_address_origin
            gateway_ip_address subnet_mask
        }
        MessagingIpv6 messaging::Ipv6 {
            local_ip_address remote_ip_address local_port remote_port protocol ip_address_origin
            prefix_length gateway_ip_address
        }
        MessagingUart messaging::Uart { baud_rate data_bits parity stop_bits }
        MessagingUsbClass messaging::UsbClass {
            vendor_id product_id device_class device_subclass device_protocol
        }
        MessagingUsbWwid messaging::UsbWwid {
            interface_number device_vendor_id device_product_id serial_number: copied
        }
        MessagingDeviceLogicalUnit messaging::DeviceLogicalUnit { logical_unit_number }
        MessagingSata messaging::Sata { hba_port_number port_multiplier_port_number logical_unit_number }
        MessagingIscsi messaging::Iscsi {
            protocol options logical_unit_number target_portal_group_tag iscsi_target_name
        }
        MessagingVlan messaging::Vlan { vlan_id }
        MessagingFibreChannelEx messaging::FibreChannelEx { world_wide_name logical_unit_number }
        MessagingSasEx messaging::SasEx { sas_address logical_unit_number info relative_target_port }
        MessagingNvmeNamespace messaging::NvmeNamespace {
            namespace_identifier ieee_extended_unique_identifier
        }
        MessagingUri messaging::Uri { value }
        MessagingUfs messaging::Ufs { target_id logical_unit_number }
        MessagingSd messaging::Sd { slot_number }
        MessagingBluetooth messaging::Bluetooth { device_address }
        MessagingWifi messaging::Wifi { ssid }
        MessagingEmmc messaging::Emmc { slot_number }
        MessagingBluetoothLe messaging::BluetoothLe { device_address address_type }
        MessagingDns messaging::Dns { address_type addresses: copied }
        MessagingNvdimmNamespace messaging::NvdimmNamespace { uuid }
        MessagingRestService messaging::RestService { service_type access_mode }
        MessagingNvmeOfNamespace messaging::NvmeOfNamespace { nidt nid subsystem_nqn }
        MediaHardDrive media::HardDrive {
            partition_number partition_start partition_size partition_signature partition_format
        }
        MediaCdRom media::CdRom { boot_entry partition_start partition_size }
        MediaVendor media::Vendor { vendor_guid vendor_defined_data }
        MediaProtocol media::Protocol { protocol_guid }
        MediaPiwgFirmwareFile media::PiwgFirmwareFile { file_name }
        MediaPiwgFirmwareVolume media::PiwgFirmwareVolume { volume_name }
        MediaRelativeOffsetRange media::RelativeOffsetRange { starting_offset ending_offset }
        MediaRamDisk media::RamDisk { starting_address ending_address disk_type disk_instance }
        BiosBootSpecBootSpecification bios_boot_spec::BootSpecification {
            device_type status_flag description_string
        }
    };
    built.unwrap()
}

/// A node that is built, its bytes, and its text.
type Row<'a> = (&'a dyn BuildNode, &'a str, &'a str);

fn each(rows: &[Row<'_>]) {
    for (node, hexadecimal, text) in rows {
        let path = path_of(*node).unwrap();
        let mut wanted = bytes(hexadecimal);
        let read = format!("{}", <&DevicePathNode>::try_from(&wanted[..]).unwrap());
        wanted.extend([0x7f, 0xff, 4, 0]);
        assert_eq!(path.as_bytes(), wanted, "{text}");
        assert_eq!(
            (format!("{path}"), read),
            (text.to_string(), text.to_string())
        );
        let node = path.node_iter().next().unwrap();
        assert_eq!(again(node).as_bytes(), wanted, "{text}");
        if !text.starts_with("Path(") {
            assert_eq!(text.parse::<Box<DevicePath>>().unwrap(), path);
        }
    }
}

#[test]
fn hardware_and_acpi() {
    use build::{acpi, hardware};
    use hardware::*;
    let interface_type = self::hardware::BmcInterfaceType::KEYBOARD_CONTROLLER_STYLE;
    each(&[
        (
            &Pci {
                function: 2,
                device: 0x1f,
            },
            "01010600021f",
            "Pci(0x1F,0x2)",
        ),
        (&Pccard { function: 3 }, "0102050003", "PcCard(0x3)"),
        (
            &MemoryMapped {
                memory_type: 11,
                starting_address: 0x1000,
                ending_address: 0x1fff,
            },
            "010318000b0000000010000000000000ff1f000000000000",
            "MemoryMapped(0xB,0x1000,0x1FFF)",
        ),
        (
            &hardware::Vendor {
                vendor_guid: GUID,
                vendor_defined_data: &[0, 0xab, 0x10],
            },
            "0104170078563412bc9af0de123456789abcdef000ab10",
            "VenHw(12345678-9ABC-DEF0-1234-56789ABCDEF0,00AB10)",
        ),
        (
            &Controller {
                controller_number: 42,
            },
            "010508002a000000",
            "Ctrl(0x2A)",
        ),
        (
            &Bmc {
                interface_type,
                base_address: 0x123456789abcdef,
            },
            "01060d0001efcdab8967452301",
            "BMC(0x1,0x123456789ABCDEF)",
        ),
        (
            &acpi::Acpi {
                hid: 0x0a0341d0,
                uid: 0,
            },
            "02010c00d041030a00000000",
            "PciRoot(0x0)",
        ),
        (
            &acpi::Expanded {
                hid: 0x0a0841d0,
                uid: 0x10,
                cid: 0x0a0341d0,
                hid_str: b"ACPI0004",
                uid_str: b"U1\0",
                cid_str: b"C\0U",
            },
            "02021e00d041080a10000000d041030a4143504930303034005531004300",
            "AcpiEx(PNP0A08,PNP0A03,0x10,ACPI0004,C,U1)",
        ),
        (
            &acpi::Adr {
                adr: &[0x80010400, 0, 0xffffffff],
            },
            "020310000004018000000000ffffffff",
            "AcpiAdr(0x80010400,0x0,0xFFFFFFFF)",
        ),
        (
            &acpi::Nvdimm {
                nfit_device_handle: 7,
            },
            "0204080007000000",
            "Path(2,4,07000000)",
        ),
    ]);
}

#[test]
fn buses() {
    use build::messaging as m;
    let serial_number = &"A1b 2".encode_utf16().collect::<Vec<_>>();
    each(&[
        (
            &m::Atapi {
                primary_secondary: PrimarySecondary::SECONDARY,
                master_slave: MasterSlave::SLAVE,
                logical_unit_number: 16,
            },
            "0301080001011000",
            "Ata(Secondary,Slave,0x10)",
        ),
        (
            &m::Scsi {
                target_id: 1,
                logical_unit_number: 2,
            },
            "0302080001000200",
            "Scsi(0x1,0x2)",
        ),
        (
            &m::FibreChannel {
                world_wide_name: 0x123456789abcdef,
                logical_unit_number: 0x21,
            },
            "0303180000000000efcdab89674523012100000000000000",
            "Fibre(0x123456789ABCDEF,0x21)",
        ),
        (
            &m::Ieee1394 {
                guid: 0x0123456789abcdef_u64.to_le_bytes(),
            },
            "0304100000000000efcdab8967452301",
            "I1394(0123456789ABCDEF)",
        ),
        (
            &m::Usb {
                parent_port_number: 3,
                interface: 0,
            },
            "030506000300",
            "USB(0x3,0x0)",
        ),
        (
            &m::I2o {
                target_id: 0x11223344,
            },
            "0306080044332211",
            "I2O(0x11223344)",
        ),
        (
            &m::Vendor {
                vendor_guid: GUID,
                vendor_defined_data: &[],
            },
            "030a140078563412bc9af0de123456789abcdef0",
            "VenMsg(12345678-9ABC-DEF0-1234-56789ABCDEF0)",
        ),
        (
            &m::Uart {
                baud_rate: 9600,
                data_bits: 7,
                parity: Parity::EVEN,
                stop_bits: StopBits::ONE_POINT_FIVE,
            },
            "030e1300000000008025000000000000070202",
            "Uart(9600,7,E,1.5)",
        ),
        (
            &m::UsbClass {
                vendor_id: 0xffff,
                product_id: 1,
                device_class: 0,
                device_subclass: 0xff,
                device_protocol: 2,
            },
            "030f0b00ffff010000ff02",
            "UsbClass(0xFFFF,0x1,0x0,0xFF,0x2)",
        ),
        (
            &m::UsbWwid {
                interface_number: 1,
                device_vendor_id: 0x45e,
                device_product_id: 0x28e,
                serial_number,
            },
            "0310140001005e048e0241003100620020003200",
            "UsbWwid(0x45E,0x28E,0x1,\"A1b 2\")",
        ),
        (
            &m::DeviceLogicalUnit {
                logical_unit_number: 7,
            },
            "0311050007",
            "Unit(0x7)",
        ),
        (
            &m::Sata {
                hba_port_number: 1,
                port_multiplier_port_number: 0xffff,
                logical_unit_number: 2,
            },
            "03120a000100ffff0200",
            "Sata(0x1,0xFFFF,0x2)",
        ),
        (
            &m::FibreChannelEx {
                world_wide_name: [1, 2, 3, 4, 5, 6, 7, 8],
                logical_unit_number: [9; 8],
            },
            "03151800000000000102030405060708 0909090909090909",
            "FibreEx(0x0102030405060708,0x0909090909090909)",
        ),
        (
            &m::NvmeNamespace {
                namespace_identifier: 1,
                ieee_extended_unique_identifier: 0x0025_3801_02a3_5a31,
            },
            "0317100001000000315aa30201382500",
            "NVMe(0x1,00-25-38-01-02-A3-5A-31)",
        ),
        (
            &m::Ufs {
                target_id: 1,
                logical_unit_number: 2,
            },
            "031906000102",
            "UFS(0x1,0x2)",
        ),
        (&m::Sd { slot_number: 2 }, "031a050002", "SD(0x2)"),
        (&m::Emmc { slot_number: 3 }, "031d050003", "eMMC(0x3)"),
    ]);
}

#[test]
fn networks() {
    use build::messaging as m;
    let (mut mac_address, mut ssid, mut address) = ([0; 32], [0; 32], [0; 16]);
    mac_address[..6].copy_from_slice(&[0, 0x13, 0x72, 0x0a, 0xb0, 0xff]);
    ssid[..4].copy_from_slice(b"home");
    address[..4].copy_from_slice(&[8, 8, 8, 8]);
    let ipv4 = m::Ipv4 {
        local_ip_address: [192, 168, 0, 100],
        remote_ip_address: [192, 168, 0, 1],
        local_port: 0,
        remote_port: 0,
        protocol: 6,
        ip_address_origin: Ipv4AddressOrigin::STATIC,
        gateway_ip_address: Some([192, 168, 0, 254]),
        subnet_mask: Some([255, 255, 255, 0]),
    };
    each(&[
        (
            &m::MacAddress { mac_address, interface_type: 1 },
            "030b25000013720ab0ff000000000000000000000000000000000000000000000000000001",
            "MAC(0013720AB0FF,0x1)",
        ),
        (
            &ipv4,
            "030c1b00c0a80064c0a8000100000000060001c0a800feffffff00",
            "IPv4(192.168.0.1,TCP,Static,192.168.0.100,192.168.0.254,255.255.255.0)",
        ),
        (
            &m::Ipv4 { gateway_ip_address: None, subnet_mask: None, protocol: 0x1234, ..ipv4 },
            "030c1300c0a80064c0a8000100000000341201",
            "IPv4(192.168.0.1,0x1234,Static,192.168.0.100)",
        ),
        (
            &m::Ipv6 {
                local_ip_address: [0x20, 1, 0xd, 0xb8, 0, 0, 0, 0, 0, 0, 0, 0, 0, 0, 0, 1],
                remote_ip_address: [0xfe, 0x80, 0, 0, 0, 0, 0, 0, 0xab, 0xcd, 0xef, 1, 0x23, 0x45, 0x67, 0x89],
                local_port: 0,
                remote_port: 0,
                protocol: 6,
                ip_address_origin: Ipv6AddressOrigin::STATEFUL_CONFIGURATION,
                prefix_length: 64,
                gateway_ip_address: [0; 16],
            },
            "030d3c0020010db8000000000000000000000001fe80000000000000abcdef0123456789000000000600024000000000
             000000000000000000000000",
            "IPv6(FE80:0000:0000:0000:ABCD:EF01:2345:6789,TCP,StatefulAutoConfigure,\
             2001:0DB8:0000:0000:0000:0000:0000:0001,0x40,0000:0000:0000:0000:0000:0000:0000:0000)",
        ),
        (
            &m::Infiniband {
                resource_flags: 1,
                port_gid: GUID.to_bytes(),
                ioc_guid_or_service_id: 0x10,
                target_port_id: 0x20,
                device_id: 0x30,
            },
            "030930000100000078563412bc9af0de123456789abcdef0100000000000000020000000000000003000000000000000",
            "Infiniband(0x1,12345678-9ABC-DEF0-1234-56789ABCDEF0,0x10,0x20,0x30)",
        ),
        (
            &m::Iscsi {
                protocol: IscsiProtocol::TCP,
                options: 0,
                logical_unit_number: [0, 1, 0, 0, 0, 0, 0, 0],
                target_portal_group_tag: 1,
                iscsi_target_name: b"iqn.2001-04.com.example:disk\0",
            },
            "03132f00000000000001000000000000010069716e2e323030312d30342e636f6d2e6578616d706c653a6469736b00",
            "iSCSI(iqn.2001-04.com.example:disk,0x1,0x0001000000000000,None,None,CHAP_BI,TCP)",
        ),
        (&m::Vlan { vlan_id: 1234 }, "03140600d204", "Vlan(1234)"),
        (
            &m::Uri { value: b"http://boot.example/a.efi" },
            "03181d00687474703a2f2f626f6f742e6578616d706c652f612e656669",
            "Uri(http://boot.example/a.efi)",
        ),
        (
            &m::Bluetooth { device_address: [1, 0x23, 0x45, 0x67, 0x89, 0xab] },
            "031b0a000123456789ab",
            "Bluetooth(0123456789AB)",
        ),
        (
            &m::BluetoothLe { device_address: [1, 0x23, 0x45, 0x67, 0x89, 0xab], address_type: 1 },
            "031e0b000123456789ab01",
            "BluetoothLE(0123456789AB,0x01)",
        ),
        (
            &m::Wifi { ssid },
            "031c2400686f6d6500000000000000000000000000000000000000000000000000000000",
            "Wi-Fi(home)",
        ),
        (
            &m::Dns { address_type: DnsAddressType::IPV4, addresses: &[address] },
            "031f15000008080808000000000000000000000000",
            "Dns(8.8.8.8)",
        ),
    ]);
}

#[test]
fn kinds_without_a_form() {
    use build::messaging as m;
    let rows: [(&dyn BuildNode, &str); 4] = [
        (
            &m::SasEx {
                sas_address: [1; 8],
                logical_unit_number: [2; 8],
                info: 3,
                relative_target_port: 4,
            },
            "0316180001010101010101010202020202020202 03000400",
        ),
        (
            &m::NvdimmNamespace { uuid: GUID },
            "0320140078563412bc9af0de123456789abcdef0",
        ),
        (
            &m::RestService {
                service_type: RestServiceType::REDFISH,
                access_mode: RestServiceAccessMode::OUT_OF_BAND,
            },
            "032106000102",
        ),
        (
            &m::NvmeOfNamespace {
                nidt: 1,
                nid: [2; 16],
                subsystem_nqn: b"nqn\0",
            },
            "0322190001 02020202020202020202020202020202 6e716e00",
        ),
    ];
    for (node, hexadecimal) in rows {
        let path = path_of(node).unwrap();
        let node = path.node_iter().next().unwrap();
        assert_eq!(node.as_bytes(), bytes(hexadecimal));
        assert_eq!(again(node), path);
    }
}

#[test]
fn media() {
    use build::media as m;
    let partition = guid!("c12a7328-f81f-11d2-ba4b-00a0c93ec93b");
    let drive = m::HardDrive {
        partition_number: 1,
        partition_start: 0x800,
        partition_size: 0x64000,
        partition_signature: PartitionSignature::Guid(partition),
        partition_format: PartitionFormat::GPT,
    };
    each(&[
        (
            &drive,
            "04012a00010000000008000000000000004006000000000028732ac11ff8d211ba4b00a0c93ec93b0202",
            "HD(1,GPT,C12A7328-F81F-11D2-BA4B-00A0C93EC93B,0x800,0x64000)",
        ),
        (
            &m::HardDrive {
                partition_number: 3,
                partition_start: 0x3f,
                partition_size: 0x1000,
                partition_signature: PartitionSignature::Mbr([0x43, 0x12, 2, 0xa0]),
                partition_format: PartitionFormat::MBR,
            },
            "04012a00030000003f000000000000000010000000000000431202a00000000000000000000000000101",
            "HD(3,MBR,0xA0021243,0x3F,0x1000)",
        ),
        (
            &m::CdRom {
                boot_entry: 1,
                partition_start: 0x2d,
                partition_size: 0x1000,
            },
            "04021800010000002d000000000000000010000000000000",
            "CDROM(0x1,0x2D,0x1000)",
        ),
        (
            &m::Vendor {
                vendor_guid: GUID,
                vendor_defined_data: &[0xff],
            },
            "0403150078563412bc9af0de123456789abcdef0ff",
            "VenMedia(12345678-9ABC-DEF0-1234-56789ABCDEF0,FF)",
        ),
        (
            &m::FilePath {
                path_name: cstr16!(r"\a"),
            },
            "04040a005c0061000000",
            r"\a",
        ),
        (
            &m::Protocol {
                protocol_guid: GUID,
            },
            "0405140078563412bc9af0de123456789abcdef0",
            "Media(12345678-9ABC-DEF0-1234-56789ABCDEF0)",
        ),
        (
            &m::PiwgFirmwareFile {
                file_name: guid!("7c04a583-9e3e-4f1c-ad65-e05268d0b4d1"),
            },
            "0406140083a5047c3e9e1c4fad65e05268d0b4d1",
            "FvFile(7C04A583-9E3E-4F1C-AD65-E05268D0B4D1)",
        ),
        (
            &m::PiwgFirmwareVolume {
                volume_name: guid!("7cb8bdc9-f8eb-4f34-aaea-3ee4af6516a1"),
            },
            "04071400c9bdb87cebf8344faaea3ee4af6516a1",
            "Fv(7CB8BDC9-F8EB-4F34-AAEA-3EE4AF6516A1)",
        ),
        (
            &m::RelativeOffsetRange {
                starting_offset: 0x200,
                ending_offset: 0x3ff,
            },
            "04081800000000000002000000000000ff03000000000000",
            "Offset(0x200,0x3FF)",
        ),
        (
            &m::RamDisk {
                starting_address: 0x100000,
                ending_address: 0x1fffff,
                disk_type: RamDiskType::VIRTUAL_DISK,
                disk_instance: 10,
            },
            "040926000000100000000000ffff1f00000000005a53ab77fc454b625560f7b281d1f96e0a00",
            "VirtualDisk(0x100000,0x1FFFFF,10)",
        ),
        (
            &build::bios_boot_spec::BootSpecification {
                device_type: 2,
                status_flag: 3,
                description_string: b"a\0",
            },
            "05010a00020003006100",
            "BBS(HD,a,0x3)",
        ),
    ]);
    for (bytes, wanted) in [
        ([0; 16], PartitionSignature::None),
        (
            [7; 16],
            PartitionSignature::Unknown {
                signature_type: 9,
                signature: [7; 16],
            },
        ),
    ] {
        let built = path_of(&m::HardDrive {
            partition_signature: wanted,
            ..drive
        })
        .unwrap();
        match built.node_iter().next().unwrap().as_enum() {
            Ok(DevicePathNodeEnum::MediaHardDrive(it)) => {
                assert_eq!(it.partition_signature(), wanted);
                assert_eq!(AsRef::<DevicePathNode>::as_ref(it).data()[20..36], bytes);
            }
            other => panic!("{other:?}"),
        }
    }
}

#[test]
fn parts_of_views() {
    let expanded = bytes("02021e00d041080a10000000d041030a4143504930303034005531004300");
    match <&DevicePathNode>::try_from(&expanded[..])
        .unwrap()
        .as_enum()
    {
        Ok(DevicePathNodeEnum::AcpiExpanded(it)) => {
            assert_eq!(
                [it.hid_str(), it.uid_str(), it.cid_str()],
                [&b"ACPI0004"[..], b"U1", b"C"]
            );
        }
        other => panic!("{other:?}"),
    }
    for (hexadecimal, wanted) in [
        (
            "03211700ff0178563412bc9af0de123456789abcdef009",
            Some((GUID, &[9][..])),
        ),
        ("03211700010178563412bc9af0de123456789abcdef009", None),
        ("03210600ff01", None),
    ] {
        match <&DevicePathNode>::try_from(&bytes(hexadecimal)[..])
            .unwrap()
            .as_enum()
        {
            Ok(DevicePathNodeEnum::MessagingRestService(it)) => {
                assert_eq!(it.vendor_guid_and_data(), wanted)
            }
            other => panic!("{other:?}"),
        }
    }
}
