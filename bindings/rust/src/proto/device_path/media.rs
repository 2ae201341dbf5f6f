//! Nodes for media.

use super::node_fields::{named, view, views, Field, Put};
use super::{fields, BuildNode, DeviceSubType, DeviceType};
use crate::data_types::UnalignedSlice;
use crate::{guid, CStr16, Guid};

named! {
    /// The format of a partition table.
    PartitionFormat(u8) {
        MBR = 1;
        GPT = 2;
    }
}

named! {
    /// The type of a RAM disk.
    RamDiskType(Guid) {
        VIRTUAL_DISK = guid!("77ab535a-45fc-624b-5560-f7b281d1f96e");
        VIRTUAL_CD = guid!("3d5abd30-4175-87ce-6d64-d2ade523c4bb");
        PERSISTENT_VIRTUAL_DISK = guid!("5cea02c9-4d07-69d3-269f-4496fbe096f9");
        PERSISTENT_VIRTUAL_CD = guid!("08018188-42cd-bb48-100f-5387d53ded3d");
    }
}

views! {
    /// A partition of a hard drive.
    HardDrive[]: HARD_DRIVE, 38 {
        /// The number of the partition, from 1 on; 0 is the whole drive.
        partition_number: u32 = HARD_DRIVE_PARTITION_NUMBER;
        /// The first block of the partition.
        partition_start: u64 = HARD_DRIVE_PARTITION_START;
        /// The number of its blocks.
        partition_size: u64 = HARD_DRIVE_PARTITION_SIZE;
        /// Its signature, by which firmware finds it.
        partition_signature: PartitionSignature = HARD_DRIVE_PARTITION_SIGNATURE;
        /// The format of the table: 1 is MBR, 2 is GPT.
        partition_format: PartitionFormat = HARD_DRIVE_PARTITION_FORMAT;
    }

    /// A boot entry of a CD-ROM.
    CdRom[]: CD_ROM, 20 {
        /// The number of the entry in the boot catalog.
        boot_entry: u32 = CD_ROM_BOOT_ENTRY;
        /// The first block.
        partition_start: u64 = CD_ROM_PARTITION_START;
        /// The number of its blocks.
        partition_size: u64 = CD_ROM_PARTITION_SIZE;
    }

    /// A node of a vendor's own, named by a GUID.
    Vendor['a]: MEDIA_VENDOR, 16 {
        /// The GUID that names the vendor.
        vendor_guid: Guid = MEDIA_VENDOR_VENDOR_GUID;
        /// The data that the vendor defines.
        vendor_defined_data: &'a [u8] = MEDIA_VENDOR_VENDOR_DEFINED_DATA;
    }

    /// A protocol of the firmware.
    Protocol[]: PROTOCOL, 16 {
        /// The GUID that names the protocol.
        protocol_guid: Guid = PROTOCOL_PROTOCOL_GUID;
    }

    /// A file of a firmware volume.
    PiwgFirmwareFile[]: FIRMWARE_FILE, 16 {
        /// The GUID that names the file.
        file_name: Guid = FIRMWARE_FILE_FILE_NAME;
    }

    /// A firmware volume.
    PiwgFirmwareVolume[]: FIRMWARE_VOLUME, 16 {
        /// The GUID that names the volume.
        volume_name: Guid = FIRMWARE_VOLUME_VOLUME_NAME;
    }

    /// A range of bytes of the medium before it.
    RelativeOffsetRange[]: RELATIVE_OFFSET_RANGE, 20 {
        /// The offset of its first byte.
        starting_offset: u64 = RELATIVE_OFFSET_RANGE_STARTING_OFFSET;
        /// The offset of its last byte.
        ending_offset: u64 = RELATIVE_OFFSET_RANGE_ENDING_OFFSET;
    }

    /// A RAM disk.
    RamDisk[]: RAM_DISK, 34 {
        /// The address of its first byte.
        starting_address: u64 = RAM_DISK_STARTING_ADDRESS;
        /// The address of its last byte.
        ending_address: u64 = RAM_DISK_ENDING_ADDRESS;
        /// The GUID of its type.
        disk_type: RamDiskType = RAM_DISK_DISK_TYPE;
        /// The number of the disk.
        disk_instance: u16 = RAM_DISK_DISK_INSTANCE;
    }
}

/// The signature of a partition.
///
/// ```
/// use nardcorbel::proto::device_path::{media::PartitionSignature, DevicePath, DevicePathNodeEnum};
///
/// let path: Box<DevicePath> = "HD(1,MBR,0xA0021243,0x800,0x1000)".parse()?;
/// match path.node_iter().next().unwrap().as_enum() {
///     Ok(DevicePathNodeEnum::MediaHardDrive(it)) => {
///         assert_eq!(it.partition_signature(), PartitionSignature::Mbr([0x43, 0x12, 2, 0xa0]));
///     }
///     other => panic!("{other:?}"),
/// }
/// # Ok::<(), nardcorbel::Error>(())
/// ```
#[derive(Clone, Copy, Debug, PartialEq, Eq, Hash)]
#[non_exhaustive]
pub enum PartitionSignature {
    /// None.
    None,
    /// The signature of the MBR.
    Mbr([u8; 4]),
    /// The GUID of a partition of a GPT.
    Guid(Guid),
    /// A signature of another type.
    Unknown {
        /// The type.
        signature_type: u8,
        /// The signature.
        signature: [u8; 16],
    },
}

impl PartitionSignature {
    /// The number of the type, and the bytes of the signature.
    fn parts(self) -> (u8, [u8; 16]) {
        match self {
            Self::None => (0, [0; 16]),
            Self::Mbr([a, b, c, d]) => (1, [a, b, c, d, 0, 0, 0, 0, 0, 0, 0, 0, 0, 0, 0, 0]),
            Self::Guid(guid) => (2, guid.to_bytes()),
            Self::Unknown {
                signature_type,
                signature,
            } => (signature_type, signature),
        }
    }
}

impl<'a> Field<'a> for PartitionSignature {
    const WIDTH: usize = 16;

    fn read(data: &'a [u8], place: usize) -> Self {
        let signature = <[u8; 16]>::read(data, place);
        match data[fields::offset(fields::HARD_DRIVE_SIGNATURE_TYPE)] {
            0 => Self::None,
            1 => Self::Mbr(Field::read(data, place)),
            2 => Self::Guid(Guid::from_bytes(signature)),
            signature_type => Self::Unknown {
                signature_type,
                signature,
            },
        }
    }
}

impl Put for PartitionSignature {
    fn bytes(&self, write: &mut dyn FnMut(&[u8])) {
        let (signature_type, signature) = self.parts();
        write(&signature);
        // The format, which is the next field, is between the signature and its type.
        write(&[0, signature_type]);
    }
}

view! {
    /// The name of a file or a folder.
    FilePath: fields::FILE_PATH, 0
}

/// The items of [`build::media`](super::build::media) besides the structs of the table.
pub(super) mod file {
    use super::super::node_fields::full_type;
    use super::{fields, BuildNode, CStr16, DeviceSubType, DeviceType};

    /// The name of a file or a folder.
    ///
    /// ```
    /// use nardcorbel::proto::device_path::build::{media, DevicePathBuilder};
    /// use nardcorbel::cstr16;
    ///
    /// let mut buffer = [0; 64];
    /// let node = media::FilePath { path_name: cstr16!(r"\EFI\a.efi") };
    /// let path = DevicePathBuilder::with_buf(&mut buffer).push(&node)?.finalize()?;
    /// assert_eq!(format!("{path}"), r"\EFI\a.efi");
    /// # Ok::<(), nardcorbel::proto::device_path::BuildError>(())
    /// ```
    #[derive(Clone, Copy, Debug, PartialEq, Eq)]
    pub struct FilePath<'a> {
        /// The name, with its NUL.
        pub path_name: &'a CStr16,
    }

    impl BuildNode for FilePath<'_> {
        fn full_type(&self) -> (DeviceType, DeviceSubType) {
            full_type(fields::FILE_PATH)
        }

        fn parts(&self, write: &mut dyn FnMut(usize, &[u8])) {
            let units = self.path_name.to_u16_slice_with_nul().iter();
            let units = units.enumerate();
            units.for_each(|(index, unit)| write(2 * index, &unit.to_le_bytes()));
        }
    }
}

impl FilePath {
    /// Returns the units of the name, with its NUL.
    ///
    /// ```
    /// use nardcorbel::proto::device_path::{media::FilePath, DevicePath, NodeConversionError};
    ///
    /// let path: Box<DevicePath> = r"\a".parse().unwrap();
    /// let name: &FilePath = path.node_iter().next().unwrap().try_into()?;
    /// assert_eq!(name.path_name().to_vec(), [0x5c, 0x61, 0]);
    /// # Ok::<(), NodeConversionError>(())
    /// ```
    #[must_use]
    pub fn path_name(&self) -> UnalignedSlice<'_, u16> {
        UnalignedSlice::from_unit_bytes(self.0.data())
    }
}
