//! The messages of errors and the printed form of commands, except errors of judged bytes.

use for_tests::{prints, says};
use std::test::Fail;
use uefi_path::Path;
use uefi_text::{CStr16, FromSliceWithNulError};
use upath::{JudgeError, PathCommand, RunFault, StreamFault};

#[test]
fn printed_errors(rt: HostRuntime) {
    assert!(rt;
        says(rt.alloc(), &JudgeError::OutOfMemory, "out of memory")
            && prints(rt.alloc(), &StreamFault::Read, "a read failed|Read")
            && prints(rt.alloc(), &StreamFault::Write, "a write failed|Write")
            && prints(
                rt.alloc(),
                &StreamFault::OutOfMemory,
                "out of memory|OutOfMemory"
            )
    );
    let want = "out of memory after 12 commands|RunFault { done: 12 }";
    assert!(rt; prints(rt.alloc(), &RunFault { done: 12 }, want));
}

#[test]
fn printed_for_programmers(rt: HostRuntime) -> Result<(), Fail> {
    let a = CStr16::from_u16_with_nul(&[97, 0])?;
    let refusal = JudgeError::Text(FromSliceWithNulError::NotNulTerminated);
    let (from, push) = (PathCommand::From(a), PathCommand::Push(Path::new(a)));
    let printed = format!(in rt.alloc();
        "{refusal:?} {from:?} {push:?} {:?}",
        PathCommand::Parent
    )?;
    let want = "Text(NotNulTerminated) From(CStr16(['a'])) Push(Path(CStr16(['a']))) Parent";
    assert!(rt; printed.as_str() == want);
    Ok(())
}
