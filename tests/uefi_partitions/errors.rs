//! The messages of errors for users.

use for_tests::says;
use std::test::Fail;
use uefi_partitions::{GptError, MbrError, PartitionError};

const MBR_ERRORS: &[(MbrError, &str)] = &[
    (MbrError::ShortBlock, "MBR: block has fewer than 512 bytes"),
    (MbrError::NoSignature, "MBR: no signature 55 AA at byte 510"),
];

const GPT_ERRORS: &[(GptError, &str)] = &[
    (
        GptError::ShortBlock,
        "GPT header: block has fewer than 92 bytes",
    ),
    (GptError::NoSignature, "GPT header: no signature EFI PART"),
    (GptError::Revision, "GPT header: revision is not 1.0"),
    (GptError::HeaderSize, "GPT header: invalid header size"),
    (
        GptError::HeaderChecksum,
        "GPT header: checksum does not match",
    ),
    (GptError::OtherBlock, "GPT header: belongs to another block"),
    (GptError::EntrySize, "GPT header: invalid entry size"),
    (GptError::ShortEntries, "GPT entries: too few bytes"),
    (
        GptError::EntriesChecksum,
        "GPT entries: checksum does not match",
    ),
];

const PARTITION_ERRORS: &[(PartitionError, &str)] = &[
    (
        PartitionError::NoEntry,
        "partition number is not in the table",
    ),
    (PartitionError::Unused, "partition entry is not in use"),
    (
        PartitionError::Protective,
        "partition entry only protects a GPT",
    ),
    (
        PartitionError::Outside,
        "partition is outside the usable blocks",
    ),
];

#[test]
fn messages(rt: HostRuntime) -> Result<(), Fail> {
    for (error, sentence) in MBR_ERRORS {
        assert!(rt; says(rt.alloc(), error, sentence), "{sentence}");
    }
    for (error, sentence) in GPT_ERRORS {
        assert!(rt; says(rt.alloc(), error, sentence), "{sentence}");
    }
    for (error, sentence) in PARTITION_ERRORS {
        assert!(rt; says(rt.alloc(), error, sentence), "{sentence}");
    }
    Ok(())
}
