//! The messages of errors, for users and for programmers.

use for_tests::says;
use std::alloc::Global;
use std::fmt::Display;
use std::test::Fail;
use uefi_text::{
    BufferTooSmall, CharConversionError, FromSliceUntilNulError as UntilNul,
    FromSliceWithNulError as WithNul, FromStrError, FromStrWithBufError as WithBuffer, Printed,
    UnalignedCStr16Error as Packed,
};

/// Returns whether each error has the message at its position in a list. A semicolon ends each message.
fn say<E: Display + Printed>(alloc: Global, errors: &[E], want: &str) -> bool {
    let mut texts = want.split(';');
    for error in errors {
        match texts.next() {
            Some(text) if says(alloc, error, text) => {}
            _ => return false,
        }
    }
    texts.next() == Some("")
}

const WITH_NUL: &str =
    "invalid character at index 0;interior null character at index 12;not null-terminated;\
    slice is not aligned to a 16-bit boundary;out of memory;";

const UNTIL_NUL: &str = "invalid character at index 300;no nul character;out of memory;";

const PACKED: &str =
    "invalid character at index 7;interior null character at index 1;not null-terminated;\
    buffer too small;";

const WITH_BUFFER: &str =
    "invalid character at index 10;interior null character at index 0;buffer too small;";

const FROM_STR: &str = "UCS-2 Conversion Error: Invalid character;\
    UCS-2 Conversion Error: Interior null terminator;UCS-2 Conversion Error: Out of memory;";

#[test]
fn printed_for_users(rt: HostRuntime) {
    let alloc = rt.alloc();
    let (open, odd, memory) = (
        WithNul::NotNulTerminated,
        WithNul::NotAligned,
        WithNul::OutOfMemory,
    );
    let whole = [
        WithNul::InvalidChar(0),
        WithNul::InteriorNul(12),
        open,
        odd,
        memory,
    ];
    assert!(rt; say(alloc, &whole, WITH_NUL));
    let front = [
        UntilNul::InvalidChar(300),
        UntilNul::NoNul,
        UntilNul::OutOfMemory,
    ];
    assert!(rt; say(alloc, &front, UNTIL_NUL));
    let (open, small) = (Packed::NotNulTerminated, Packed::BufferTooSmall);
    assert!(rt;
        say(
            alloc,
            &[Packed::InvalidChar(7), Packed::InteriorNul(1), open, small],
            PACKED
        )
    );
    let small = WithBuffer::BufferTooSmall;
    let texts = [
        WithBuffer::InvalidChar(10),
        WithBuffer::InteriorNul(0),
        small,
    ];
    assert!(rt; say(alloc, &texts, WITH_BUFFER));
    let texts = [
        FromStrError::InvalidChar,
        FromStrError::InteriorNul,
        FromStrError::OutOfMemory,
    ];
    assert!(rt;
        say(alloc, &texts, FROM_STR)
            && say(alloc, &[CharConversionError], "CharConversionError;")
            && say(
                alloc,
                &[BufferTooSmall(7)],
                "buffer too small: 7 units are needed;"
            )
    );
}

#[test]
fn printed_for_programmers(rt: HostRuntime) -> Result<(), Fail> {
    let (whole, until) = (WithNul::InteriorNul(12), UntilNul::NoNul);
    let slices = format!(in rt.alloc(); "{whole:?} {until:?} {:?}", CharConversionError)?;
    assert!(rt; slices.as_str() == "InteriorNul(12) NoNul CharConversionError");
    let (packed, text) = (Packed::BufferTooSmall, WithBuffer::InvalidChar(7));
    let owned = FromStrError::InvalidChar;
    let buffers = format!(in rt.alloc(); "{packed:?} {text:?} {owned:?}")?;
    assert!(rt; buffers.as_str() == "BufferTooSmall InvalidChar(7) InvalidChar");
    Ok(())
}
