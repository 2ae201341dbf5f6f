//! Disks of sgdisk and sfdisk, and the partitions that sfdisk lists, by `checks/partitions/disks`.

use uefi_partitions::{GptError, PartitionError};

/// A disk with a GPT. Blocks are runs of bytes, each after its offset; all other bytes are zero.
pub struct GuidDisk {
    pub name: &'static str,
    pub mbr: &'static str,
    pub header: &'static str,
    pub other: &'static str,
    pub other_block: u64,
    pub entries: &'static str,
    pub count: u32,
    pub partitions: &'static [(u32, u64, u64, &'static str, &'static str, &'static str)],
}

/// Each partition has a number, a start, a size, its GUID, its type and its name.
pub const GUID_DISKS: &[GuidDisk] = &[
    GuidDisk {
        name: "by sgdisk",
        mbr: "448:0200ee28200801000000ffff01 510:55aa",
        header: "0:4546492050415254000001005c000000faf93e92 24:01 32:ffff01 40:22 48:deff01
            56:67452301ab89efcd0123456789abcdef02 80:80000000800000001ba11e1d",
        other: "0:4546492050415254000001005c0000003f35321c 24:ffff01 32:01 40:22 48:deff01
            56:67452301ab89efcd0123456789abcdefdfff01 80:80000000800000001ba11e1d",
        other_block: 131071,
        entries: "0:28732ac11ff8d211ba4b00a0c93ec93b000102030405060708090a0b0c0d0e0f0008 40:ff87
            56:4500460049002000730079007300740065006d00200070006100720074006900740069006f006e
            128:af3dc60f838472478e793d69d8477de402000000221144335566778899aabbcc0088 168:ff7f01
            184:6400e90062",
        count: 128,
        partitions: &[
            (
                1,
                2048,
                32768,
                "03020100-0504-0706-0809-0A0B0C0D0E0F",
                "C12A7328-F81F-11D2-BA4B-00A0C93EC93B",
                "EFI system partition",
            ),
            (
                2,
                34816,
                63488,
                "00000002-1122-3344-5566-778899AABBCC",
                "0FC63DAF-8483-4772-8E79-3D69D8477DE4",
                "déb",
            ),
        ],
    },
    GuidDisk {
        name: "with a gap, up to the last entry",
        mbr: "448:0200ee28200801000000ffff01 510:55aa",
        header: "0:4546492050415254000001005c00000040d53dd6 24:01 32:ffff01 40:22 48:deff01
            56:67452301ab89efcd0123456789abcdef02 80:8000000080000000d4d42826",
        other: "0:4546492050415254000001005c00000085193158 24:ffff01 32:01 40:22 48:deff01
            56:67452301ab89efcd0123456789abcdefdfff01 80:8000000080000000d4d42826",
        other_block: 131071,
        entries: "512:af3dc60f838472478e793d69d8477de405000000221144335566778899aabbcc0010 553:10
            16256:28732ac11ff8d211ba4b00a0c93ec93b80000000221144335566778899aabbcc0020 16296:deff01
            16312:6e006e006e006e006e006e006e006e006e006e006e006e006e006e006e006e006e006e006e006e00
            16352:6e006e006e006e006e006e006e006e006e006e006e006e006e006e006e006e",
        count: 128,
        partitions: &[
            (
                5,
                4096,
                1,
                "00000005-1122-3344-5566-778899AABBCC",
                "0FC63DAF-8483-4772-8E79-3D69D8477DE4",
                "",
            ),
            (
                128,
                8192,
                122847,
                "00000080-1122-3344-5566-778899AABBCC",
                "C12A7328-F81F-11D2-BA4B-00A0C93EC93B",
                "nnnnnnnnnnnnnnnnnnnnnnnnnnnnnnnnnnnn",
            ),
        ],
    },
    GuidDisk {
        name: "without partitions",
        mbr: "448:0200ee28200801000000ffff01 510:55aa",
        header: "0:4546492050415254000001005c000000bca737a3 24:01 32:ffff01 40:22 48:deff01
            56:67452301ab89efcd0123456789abcdef02 80:800000008000000086d254ab",
        other: "0:4546492050415254000001005c000000796b3b2d 24:ffff01 32:01 40:22 48:deff01
            56:67452301ab89efcd0123456789abcdefdfff01 80:800000008000000086d254ab",
        other_block: 131071,
        entries: "",
        count: 128,
        partitions: &[],
    },
    GuidDisk {
        name: "by sfdisk, of four entries",
        mbr: "448:0200eeffffff01000000ffff01 510:55aa",
        header: "0:4546492050415254000001005c0000005c198f31 24:01 32:ffff01 41:08 48:fdff01
            56:67452301ab89efcd0123456789abcdef02 80:0400000080000000e2aa3b0e",
        other: "0:4546492050415254000001005c000000d4be18c0 24:ffff01 32:01 41:08 48:fdff01
            56:67452301ab89efcd0123456789abcdeffeff01 80:0400000080000000e2aa3b0e",
        other_block: 131071,
        entries: "0:28732ac11ff8d211ba4b00a0c93ec93b01000000221144335566778899aabbcc0008 40:ff0f
            128:af3dc60f838472478e793d69d8477de403000000221144335566778899aabbcc0020 169:20",
        count: 4,
        partitions: &[
            (
                1,
                2048,
                2048,
                "00000001-1122-3344-5566-778899AABBCC",
                "C12A7328-F81F-11D2-BA4B-00A0C93EC93B",
                "",
            ),
            (
                2,
                8192,
                1,
                "00000003-1122-3344-5566-778899AABBCC",
                "0FC63DAF-8483-4772-8E79-3D69D8477DE4",
                "",
            ),
        ],
    },
];

/// Disks with an MBR: the block, the signature, and the number, start, size and type of each partition.
pub const MBR_DISKS: &[(&str, &str, u32, &[(u32, u64, u64, u8)])] = &[
    (
        "of four partitions",
        "440:4452414e000080202100ef2524010008000000400000002525018346050100480000000800000046
            480:0601074606010050000001 495:8c0b020c28200800a000000060010055aa",
        0x4e415244,
        &[
            (1, 2048, 16384, 0xef),
            (2, 18432, 2048, 0x83),
            (3, 20480, 1, 0x7),
            (4, 40960, 90112, 0xc),
        ],
    ),
    (
        "with an extended partition",
        "440:01 447:20210083410100000800000008000000820300059612040020 476:01 510:55aa",
        0x00000001,
        &[(1, 2048, 2048, 0x83), (2, 8192, 65536, 0x5)],
    ),
    (
        "without partitions",
        "440:ffffffff 510:55aa",
        0xffffffff,
        &[],
    ),
];

/// What differs from the first header, the size of the block, its number, and the error.
pub const HEADERS: &[(&str, usize, u64, Option<GptError>)] = &[
    ("", 91, 1, Some(GptError::ShortBlock)),
    ("", 92, 1, None),
    ("7:53", 512, 1, Some(GptError::NoSignature)),
    ("10:00 16:bf185f5b", 512, 1, Some(GptError::Revision)),
    ("8:01 16:35593dc8", 512, 1, Some(GptError::Revision)),
    ("10:02 16:74dced12", 512, 1, Some(GptError::Revision)),
    ("12:0000000053c2b67e", 512, 1, Some(GptError::HeaderSize)),
    ("12:5b0000009131c8c6", 512, 1, Some(GptError::HeaderSize)),
    ("12:01020000e4b463f5", 512, 1, Some(GptError::HeaderSize)),
    ("12:ffffffff4a256a0f", 512, 1, Some(GptError::HeaderSize)),
    ("12:5d000000050939e2", 512, 1, None),
    ("12:0002000066e3751b", 512, 1, None),
    ("16:fb", 512, 1, Some(GptError::HeaderChecksum)),
    ("19:93", 512, 1, Some(GptError::HeaderChecksum)),
    ("24:00", 512, 1, Some(GptError::HeaderChecksum)),
    ("56:66", 512, 1, Some(GptError::HeaderChecksum)),
    ("91:1c", 512, 1, Some(GptError::HeaderChecksum)),
    ("92:01", 512, 1, None),
    ("", 512, 2, Some(GptError::OtherBlock)),
    ("16:9c51783d 24:02", 512, 1, Some(GptError::OtherBlock)),
    (
        "16:4d4c3678 24:0000000001",
        512,
        1,
        Some(GptError::OtherBlock),
    ),
    (
        "16:436c59 24:ffffffffffffffff",
        512,
        18446744073709551615,
        None,
    ),
    ("16:207c05c1 84:00", 512, 1, Some(GptError::EntrySize)),
    ("16:cdbe98e8 84:40", 512, 1, Some(GptError::EntrySize)),
    ("16:1cff75b4 84:7f", 512, 1, Some(GptError::EntrySize)),
    ("16:64f9945e 84:81", 512, 1, Some(GptError::EntrySize)),
    ("16:173ba3bb 84:c0", 512, 1, Some(GptError::EntrySize)),
    ("16:4ef24934 85:01", 512, 1, Some(GptError::EntrySize)),
    ("16:87533d93 84:0005", 512, 1, Some(GptError::EntrySize)),
    ("16:6849d823 87:80", 512, 1, Some(GptError::EntrySize)),
    ("16:b65cd85b 84:ffffffff", 512, 1, Some(GptError::EntrySize)),
    ("", 512, 1, None),
    ("16:94777267 84:0001", 512, 1, None),
    ("16:096d9a56 84:0002", 512, 1, None),
    ("16:eee0dba6 84:0010", 512, 1, None),
    ("16:b2cce370 84:00000080", 512, 1, None),
];

/// What differs from the first header and from its first entry, and the start and the size of the partition.
pub const EXTENTS: &[(&str, &str, Result<(u64, u64), PartitionError>)] = &[
    (
        "16:10f9084b 48:640000 80:01 88:c8f73bb2",
        "32:2200 40:6400",
        Ok((34, 67)),
    ),
    (
        "16:bed5b104 48:640000 80:01 88:39d5f94a",
        "32:3c00 40:3c00",
        Ok((60, 1)),
    ),
    (
        "16:a8470452 48:640000 80:01 88:8ef0848c",
        "32:2100 40:3c00",
        Err(PartitionError::Outside),
    ),
    (
        "16:90030793 48:640000 80:01 88:610af999",
        "32:3c00 40:6500",
        Err(PartitionError::Outside),
    ),
    (
        "16:293cf774 48:640000 80:01 88:372bd236",
        "32:3c00 40:3b00",
        Err(PartitionError::Outside),
    ),
    (
        "16:2fb82ac0 48:640000 80:01 88:e6a8b604",
        "32:6400 40:2200",
        Err(PartitionError::Outside),
    ),
    (
        "16:c8c9cafd 40:00 48:ffffffffffffffff 80:01 88:775ba731",
        "32:0100 41:ffffffffffffff",
        Ok((1, 18446744073709551615)),
    ),
    (
        "16:550f5588 40:00 48:ffffffffffffffff 80:01 88:b5d6a1ee",
        "33:00 41:ffffffffffffff",
        Err(PartitionError::Outside),
    ),
    (
        "16:0aded0e1 40:00 48:ffffffffffffffff 80:01 88:b20a8eb2",
        "33:00 40:0500",
        Err(PartitionError::Outside),
    ),
    (
        "16:8c717168 40:64 48:220000 80:01 88:3f7eab53",
        "32:3200 40:3200",
        Err(PartitionError::Outside),
    ),
    (
        "16:31ac29ab 40:00 48:ffffffffffffffff 80:01 88:fc95e096",
        "32:ffffffffffffffffffffffffffffffff",
        Ok((18446744073709551615, 1)),
    ),
    (
        "16:9bd2de 40:00 48:ffffffffffffffff 80:01 88:c7276e19",
        "32:ffffffffffffffff0000",
        Err(PartitionError::Outside),
    ),
];

/// Bytes, and their CRC-32 by zlib.
pub const CHECKSUMS: &[(&str, u32)] = &[
    ("", 0x00000000),
    ("00", 0xd202ef8d),
    ("313233343536373839", 0xcbf43926),
    ("ffffffff", 0xffffffff),
    (
        "0000000000000000000000000000000000000000000000000000000000000000",
        0x190a55ad,
    ),
    (
        "000102030405060708090a0b0c0d0e0f101112131415161718191a1b1c1d1e1f2021222324252627",
        0x0da62e3c,
    ),
];
