//! The messages of errors for users: every value with its message.

use for_tests::says;
use std::alloc::Global;
use std::fmt::Display;
use uefi_device_path::{
    BuildError, Choice, DevicePathError, Expected, FilePathCause, FilePathError,
    FilePathWriteError, GrowError, LoadOptionCause, LoadOptionError, NodeConversionError,
    NodeError, OptionBuildError, PathTextError, PushTextError, TextFault,
};
use uefi_text::{FromSliceWithNulError, Printed};

/// Returns the first message that differs from its error's.
fn find_unsaid<'a, E: Display + Printed>(alloc: Global, rows: &[(E, &'a str)]) -> Option<&'a str> {
    for (error, sentence) in rows {
        if !says(alloc, error, sentence) {
            return Some(sentence);
        }
    }
    None
}

const NODES: &[(NodeError, &str)] = &[
    (NodeError::Missing, "device path has no end node"),
    (
        NodeError::TruncatedHeader,
        "device path ends within a node header",
    ),
    (NodeError::UnknownEnd, "end node has an unknown sub-type"),
    (
        NodeError::LengthBelowHeader,
        "device path node is shorter than its header",
    ),
    (NodeError::EndWithData, "end node has data"),
    (
        NodeError::BeyondEnd,
        "device path node extends past the end of the data",
    ),
];

const CONVERSIONS: &[(NodeConversionError, &str)] = &[
    (
        NodeConversionError::DifferentType,
        "device path node has a different type or sub-type",
    ),
    (
        NodeConversionError::InvalidLength,
        "device path node has an invalid length",
    ),
    (
        NodeConversionError::UnsupportedType,
        "unknown device path node type",
    ),
];

const BEYOND: DevicePathError = DevicePathError {
    cause: NodeError::BeyondEnd,
    offset: 12,
};

const PATHS: &[(DevicePathError, &str)] = &[(
    BEYOND,
    "device path node extends past the end of the data at offset 12",
)];

const HALF_UNIT: FilePathError = FilePathError {
    cause: FilePathCause::HalfUnit,
    offset: 10,
};

const FILE_PATHS: &[(FilePathError, &str)] = &[
    (HALF_UNIT, "file path: odd number of bytes at offset 10"),
    (
        FilePathError {
            cause: FilePathCause::Text(FromSliceWithNulError::InteriorNul(3)),
            offset: 4,
        },
        "file path: interior null character at index 3 at offset 4",
    ),
    (
        FilePathError {
            cause: FilePathCause::OutOfMemory,
            offset: 0,
        },
        "out of memory at offset 0",
    ),
];

const FILE_PATH_WRITES: &[(FilePathWriteError, &str)] = &[
    (
        FilePathWriteError::Name(HALF_UNIT),
        "file path: odd number of bytes at offset 10",
    ),
    (
        FilePathWriteError::BufferTooSmall(9),
        "buffer too small: the file path needs 9 units",
    ),
];

const FILE_PATH_CAUSES: &[(FilePathCause, &str)] = &[
    (FilePathCause::HalfUnit, "file path: odd number of bytes"),
    (
        FilePathCause::Text(FromSliceWithNulError::NotNulTerminated),
        "file path: not null-terminated",
    ),
    (FilePathCause::OutOfMemory, "out of memory"),
];

const LOAD_OPTION_CAUSES: &[(LoadOptionCause, &str)] = &[
    (
        LoadOptionCause::TooShort,
        "load option ends before its description",
    ),
    (
        LoadOptionCause::DescriptionWithoutEnd,
        "description is not null-terminated",
    ),
    (
        LoadOptionCause::ListBeyondEnd,
        "file path list extends past the end of the load option",
    ),
    (LoadOptionCause::EmptyList, "file path list is empty"),
    (
        LoadOptionCause::FilePathList(NodeError::EndWithData),
        "end node has data",
    ),
];

const LOAD_OPTIONS: &[(LoadOptionError, &str)] = &[(
    LoadOptionError {
        cause: LoadOptionCause::EmptyList,
        offset: 10,
    },
    "file path list is empty at offset 10",
)];

const BUILDS: &[(BuildError, &str)] = &[
    (
        BuildError::EndNode,
        "end node is only allowed at the end of a device path",
    ),
    (
        BuildError::NodeTooLong,
        "device path node is longer than 65,535 bytes",
    ),
    (
        BuildError::BufferTooSmall(14),
        "buffer too small: the device path needs 14 bytes",
    ),
    (BuildError::OutOfMemory, "out of memory"),
];

const GROWS: &[(GrowError, &str)] = &[
    (
        GrowError::Path(BEYOND),
        "device path node extends past the end of the data at offset 12",
    ),
    (
        GrowError::Build(BuildError::NodeTooLong),
        "device path node is longer than 65,535 bytes",
    ),
];

const PUSHED_TEXTS: &[(PushTextError, &str)] = &[
    (
        PushTextError::Path(BEYOND),
        "device path node extends past the end of the data at offset 12",
    ),
    (PushTextError::NoNode(FAULT), FAULT_TEXT),
    (
        PushTextError::BufferTooSmall(20),
        "buffer too small: the device path needs 20 bytes",
    ),
];

const OPTION_BUILDS: &[(OptionBuildError, &str)] = &[
    (
        OptionBuildError::NulInDescription(2),
        "description: interior null character at index 2",
    ),
    (OptionBuildError::EmptyList, "file path list is empty"),
    (
        OptionBuildError::ListTooLong,
        "file path list is longer than 65,535 bytes",
    ),
    (
        OptionBuildError::TooLong,
        "load option does not fit in memory",
    ),
    (
        OptionBuildError::BufferTooSmall(24),
        "buffer too small: the load option needs 24 bytes",
    ),
    (OptionBuildError::OutOfMemory, "out of memory"),
];

const FAULT: TextFault = TextFault {
    node: 11,
    byte: 15,
    expected: Expected::Number(0xff),
};

const FAULT_TEXT: &str = "invalid node at offset 11: expected a number up to 0xFF at offset 15";

const TEXTS: &[(PathTextError, &str)] = &[
    (PathTextError::NoNode(FAULT), FAULT_TEXT),
    (PathTextError::OutOfMemory, "out of memory"),
];

const EXPECTED: &[(Expected, &str)] = &[
    (Expected::Node, "the name of a node"),
    (Expected::Number(0xffff), "a number up to 0xFFFF"),
    (
        Expected::NumberOrDefault(0xff),
        "DEFAULT or a number up to 0xFF",
    ),
    (Expected::NumberFromOne(0x7f), "a number from 1 to 0x7F"),
    (Expected::Digits(8), "8 hexadecimal digits"),
    (
        Expected::DashedDigits(16),
        "16 hexadecimal digits in pairs, with dashes between them",
    ),
    (Expected::Parity, "a parity (D, N, E, O, M, S or x) and `,`"),
    (Expected::StopBits, "stop bits (D, 1, 1.5, 2 or x) and `)`"),
    (Expected::Byte(b')'), "`)`"),
    (Expected::FileName, "the name of a file"),
    (Expected::End, "`/`, `,` or the end of the text"),
    (Expected::AsPrinted, "the exact printed form"),
    (
        Expected::NodeLike(0),
        "the name of a node, such as `Pci(0x`",
    ),
    (Expected::NodeLike(9999), "the name of a node, such as ``"),
    (
        Expected::OtherName(0),
        "the name of a node, such as `File(`",
    ),
    (Expected::OtherName(9999), "the name of a node, such as ``"),
    (Expected::Id, "an ID such as `PNP0A03`, or `0`"),
    (
        Expected::Word(Choice::AtaChannel),
        "`Primary` or `Secondary`",
    ),
    (Expected::Word(Choice::AtaDrive), "`Master` or `Slave`"),
    (Expected::Word(Choice::PartitionFormat), "`GPT` or `MBR`"),
    (
        Expected::Word(Choice::SasProtocol),
        "`SAS`, `SATA`, `NoTopology` or a number",
    ),
    (
        Expected::Word(Choice::SasLocation),
        "`Internal` or `External`",
    ),
    (
        Expected::Word(Choice::SasConnection),
        "`Direct` or `Expanded`",
    ),
    (
        Expected::Word(Choice::IpProtocol),
        "`TCP`, `UDP` or a number",
    ),
    (Expected::Word(Choice::Ipv4Origin), "`DHCP` or `Static`"),
    (
        Expected::Word(Choice::Ipv6Origin),
        "`Static`, `StatelessAutoConfigure` or `StatefulAutoConfigure`",
    ),
    (
        Expected::Word(Choice::BootDevice),
        "`Floppy`, `HD`, `CDROM`, `PCMCIA`, `USB`, `Network` or a number",
    ),
    (
        Expected::Word(Choice::FlowControl),
        "`None`, `Hardware` or `XonXoff`",
    ),
    (Expected::Word(Choice::Digest), "`None` or `CRC32C`"),
    (
        Expected::Word(Choice::Login),
        "`None`, `CHAP_BI` or `CHAP_UNI`",
    ),
    (Expected::Word(Choice::IscsiProtocol), "`TCP`"),
    (
        Expected::Word(Choice::AcpiId),
        "an ID such as `PNP0A03`, or `0x` and 8 digits",
    ),
    (
        Expected::Word(Choice::MacAddress),
        "an address of 12 hexadecimal digits, such as `525400ABCDEF`",
    ),
    (Expected::Word(Choice::IpAddress), "an IP address"),
    (Expected::Word(Choice::Guid), "a GUID"),
    (
        Expected::Untold,
        "a form that describes the whole node, of at most 65,535 bytes",
    ),
];

#[test]
fn printed_for_users(rt: HostRuntime) {
    let alloc = rt.alloc();
    assert!(rt;
        find_unsaid(alloc, NODES) == None
            && find_unsaid(alloc, CONVERSIONS) == None
            && find_unsaid(alloc, PATHS) == None
            && find_unsaid(alloc, FILE_PATHS) == None
            && find_unsaid(alloc, FILE_PATH_CAUSES) == None
            && find_unsaid(alloc, FILE_PATH_WRITES) == None
            && find_unsaid(alloc, LOAD_OPTION_CAUSES) == None
            && find_unsaid(alloc, LOAD_OPTIONS) == None
    );
}

#[test]
fn printed_of_writers_and_readers(rt: HostRuntime) {
    let alloc = rt.alloc();
    assert!(rt;
        find_unsaid(alloc, BUILDS) == None
            && find_unsaid(alloc, GROWS) == None
            && find_unsaid(alloc, PUSHED_TEXTS) == None
            && find_unsaid(alloc, OPTION_BUILDS) == None
            && find_unsaid(alloc, TEXTS) == None
            && find_unsaid(alloc, EXPECTED) == None
    );
}
