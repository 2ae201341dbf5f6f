//! Load options whose description is replaced. The bytes follow the UEFI Specification, section 3.1.3.

use crate::option_builder::needed;
use for_tests::{BufferCall, bytes, split_row, string, writes_whole};
use std::test::Fail;
use uefi_device_path::LoadOption;
use uefi_text::CStr16;

/// An active entry, described as `ab`, with a path of one node and optional data.
const ENTRY: &str = "010000000a0061006200000001010600021f7fff04006f007000";

/// Descriptions, and the entry with each description.
const DESCRIBED: &str = "\
x 010000000a007800000001010600021f7fff04006f007000
 010000000a00000001010600021f7fff04006f007000
ab 010000000a0061006200000001010600021f7fff04006f007000
é€123 010000000a00e900ac20310032003300000001010600021f7fff04006f007000";

/// A load option, and another description for it.
#[derive(Clone, Copy)]
struct Described<'a>(LoadOption<'a>, CStr16<'a>);

impl BufferCall<u8> for Described<'_> {
    fn write(&self, room: &mut [u8]) -> Result<usize, usize> {
        needed(self.0.write_with_description(self.1, room))
    }
}

#[test]
fn descriptions(rt: HostRuntime) -> Result<(), Fail> {
    let entry = bytes(rt.alloc(), ENTRY)?;
    let option = LoadOption::from_bytes(&entry)?;
    for line in DESCRIBED.split('\n') {
        let (text, digits) = split_row(line);
        let (text, want) = (string(rt.alloc(), text)?, bytes(rt.alloc(), digits)?);
        let call = Described(option, text.as_cstr16());
        let is_right = writes_whole(rt.alloc(), &want, 9, &call)?;
        assert!(rt; is_right, "{digits}");
    }
    Ok(())
}
