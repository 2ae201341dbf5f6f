//! Strings that are written to character sinks.

ghost use Rattle.std.specs.Prelude.{◌≡◌, ◌+◌, ◌<◌, ◌⊎◌, encode_utf8, length};

use arrayvec::ArrayString;
use for_tests::string;
use std::fmt;
use std::test::Fail;
use uefi_text::{CStr16, CharSink};

/// A sink, as a caller may define one, that accepts `LEN` bytes and refuses all characters after them.
#[derive(Drop)]
struct Closing<const LEN: usize> {
    text: ArrayString<64>,
}

impl<const LEN: usize> CharSink for Closing<LEN> {
    ghost text = { λ sink. sink.text.bytes };

    ghost may_refuse = { λ text c.
        (64 < length text + length (encode_utf8 c)) ⊎ (length text ≡ LEN) };

    fn write_char(&mut self, c: char) -> fmt::Result {
        if self.text.len() == LEN {
            return Err(fmt::Error);
        }
        match self.text.try_push(c) {
            Ok(()) => Ok(()),
            Err(_) => Err(fmt::Error),
        }
    }
}

/// Returns whether a sink accepts these first letters of `abc`, and the call succeeds only if the sink
/// accepts all.
fn takes_letters<const LEN: usize>(string: CStr16<'_>, taken: &str) -> bool {
    let mut sink: Closing<LEN> = Closing {
        text: ArrayString::new(),
    };
    let answer = string.as_str_in_buf(&mut sink);
    answer.is_ok() == (taken == "abc") && sink.text.as_str() == taken
}

/// Returns whether a buffer of `LEN` bytes that contains `before` contains `after` once a string is written
/// to it, and whether the call reports success exactly if `all` holds.
fn fits_in<const LEN: usize>(string: CStr16<'_>, before: &str, after: &str, all: bool) -> bool
    requires { LEN < 64 }
{
    let mut sink: ArrayString<LEN> = ArrayString::new();
    if sink.try_push_str(before).is_err() {
        return false;
    }
    string.as_str_in_buf(&mut sink).is_ok() == all && sink.as_str() == after
}

/// A fixed-length buffer, full and not full, and a growing text.
#[test]
fn texts_as_sinks(rt: HostRuntime) -> Result<(), Fail> {
    let (owned, empty) = (string(rt.alloc(), "aébc")?, string(rt.alloc(), "")?);
    let string = owned.as_cstr16();
    assert!(rt;
        fits_in::<4>(string, "", "aéb", false)
            && fits_in::<5>(string, "", "aébc", true)
            && fits_in::<4>(string, "x", "xaé", false)
            && fits_in::<0>(empty.as_cstr16(), "", "", true)
    );
    let mut text = String::new(rt.alloc());
    text.push('x')?;
    let is_whole = string.as_str_in_buf(&mut text).is_ok();
    assert!(rt; is_whole && text.as_str() == "xaébc");
    Ok(())
}

/// A sink that refuses each character in turn, and a sink that refuses none.
#[test]
fn sinks_that_refuse_at_each_character(rt: HostRuntime) -> Result<(), Fail> {
    let string = CStr16::from_u16_with_nul(&[97, 98, 99, 0])?;
    assert!(rt;
        takes_letters::<0>(string, "")
            && takes_letters::<1>(string, "a")
            && takes_letters::<2>(string, "ab")
            && takes_letters::<3>(string, "abc")
    );
    Ok(())
}
