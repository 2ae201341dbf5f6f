//! The messages of errors for users.

use for_tests::says;
use std::test::Fail;
use uefi_boot_plans::PlanError;
use uefi_device_path::{LoadOptionCause, LoadOptionError};

const ERRORS: &[(PlanError, &str)] = &[
    (
        PlanError::MalformedOrder,
        "BootOrder has an odd number of bytes",
    ),
    (
        PlanError::MalformedEntry(LoadOptionError {
            cause: LoadOptionCause::EmptyList,
            offset: 8,
        }),
        "file path list is empty at offset 8",
    ),
    (PlanError::OutOfMemory, "out of memory"),
];

#[test]
fn messages(rt: HostRuntime) -> Result<(), Fail> {
    for (error, sentence) in ERRORS {
        assert!(rt; says(rt.alloc(), error, sentence), "{sentence}");
    }
    Ok(())
}
