//! The calls that are timed, and the ones of this library behind C functions.
use crate::Call;
use crate::inputs::{
    Inputs, ascii, cjk, dotted_path, early_emoji, early_latin1, empty_nodes, latin1, long_nodes,
    mixed, path, uneven_path,
};
use crate::plain;

/// The call of the Rust crate, where the harness is built with that crate.
#[cfg(feature = "original")]
macro_rules! original {
    ($call:ident) => {
        Some(crate::original::$call)
    };
}

#[cfg(not(feature = "original"))]
macro_rules! original {
    ($call:ident) => {
        None
    };
}

/// How many paths a row of pushes adds.
pub const PUSHES: usize = 32;

const SIZES: &[usize] = &[8, 16, 40, 64, 256, 1024, 65536, 1048576];
const PARTS: &[usize] = &[10, 60, 240];
/// Of a device path, in bytes: the last is as long as a load option can state.
const LISTS: &[usize] = &[64, 1024, 65535];

unsafe extern "C" {
    fn ours_from_u16_with_nul(
        _: *const u16,
        _: usize,
        _: *const u16,
        _: usize,
        rounds: usize,
    ) -> usize;
    fn ours_from_u16_until_nul(
        _: *const u16,
        _: usize,
        _: *const u16,
        _: usize,
        rounds: usize,
    ) -> usize;
    fn ours_from_str_with_buf(
        _: *const u8,
        _: usize,
        _: *const u8,
        _: usize,
        _: *mut u16,
        _: usize,
        rounds: usize,
    ) -> usize;
    fn ours_as_str_in_buf(_: *const u16, _: usize, _: *const u16, _: usize, rounds: usize)
    -> usize;
    fn ours_display(_: *const u16, _: usize, _: *const u16, _: usize, rounds: usize) -> usize;
    fn ours_to_string(_: *const u16, _: usize, _: *const u16, _: usize, rounds: usize) -> usize;
    fn ours_is_ascii(_: *const u16, _: usize, _: *const u16, _: usize, rounds: usize) -> usize;
    fn ours_iter(_: *const u16, _: usize, _: *const u16, _: usize, rounds: usize) -> usize;
    fn ours_unaligned_iter(_: *const u8, _: usize, _: *const u8, _: usize, rounds: usize) -> usize;
    fn ours_eq(_: *const u16, _: usize, _: *const u16, _: usize, rounds: usize) -> usize;
    fn ours_cmp(_: *const u16, _: usize, _: *const u16, _: usize, rounds: usize) -> usize;
    fn ours_eq_str_until_nul(
        _: *const u16,
        _: usize,
        _: *const u16,
        _: usize,
        _: *const u8,
        _: usize,
        rounds: usize,
    ) -> usize;
    fn ours_cstr8_from_bytes_with_nul(
        _: *const u8,
        _: usize,
        _: *const u8,
        _: usize,
        rounds: usize,
    ) -> usize;
    fn ours_cstr8_display(_: *const u8, _: usize, _: *const u8, _: usize, rounds: usize) -> usize;
    fn ours_try_from_str(_: *const u8, _: usize, _: *const u8, _: usize, rounds: usize) -> usize;
    fn ours_push_str(_: *const u16, _: usize, _: *const u16, _: usize, rounds: usize) -> usize;
    fn ours_push(_: usize, rounds: usize) -> usize;
    fn ours_to_owned(_: *const u16, _: usize, _: *const u16, _: usize, rounds: usize) -> usize;
    fn ours_replace_char(_: *const u16, _: usize, rounds: usize) -> usize;
    fn ours_to_vec_u16(_: *const u8, _: usize, _: *const u8, _: usize, rounds: usize) -> usize;
    fn ours_to_vec_u32(_: *const u8, _: usize, _: *const u8, _: usize, rounds: usize) -> usize;
    fn ours_copy_to_u16(
        _: *const u8,
        _: usize,
        _: *const u8,
        _: usize,
        _: *mut u16,
        _: usize,
        rounds: usize,
    ) -> usize;
    fn ours_copy_to_u32(
        _: *const u8,
        _: usize,
        _: *const u8,
        _: usize,
        _: *mut u32,
        _: usize,
        rounds: usize,
    ) -> usize;
    fn ours_to_cstring16(_: *const u8, _: usize, _: *const u8, _: usize, rounds: usize) -> usize;
    fn ours_from_unaligned_slice(
        _: *const u8,
        _: usize,
        _: *const u8,
        _: usize,
        _: *mut u16,
        _: usize,
        rounds: usize,
    ) -> usize;
    fn ours_path_eq(_: *const u16, _: usize, _: *const u16, _: usize, rounds: usize) -> usize;
    fn ours_path_cmp(_: *const u16, _: usize, _: *const u16, _: usize, rounds: usize) -> usize;
    fn ours_components(_: *const u16, _: usize, _: *const u16, _: usize, rounds: usize) -> usize;
    fn ours_parent(_: *const u16, _: usize, _: *const u16, _: usize, rounds: usize) -> usize;
    fn ours_join(_: *const u16, _: usize, _: *const u16, _: usize, rounds: usize) -> usize;
    fn ours_validate_path(_: *const u16, _: usize, _: *const u16, _: usize, rounds: usize)
    -> usize;
    fn ours_normalize(_: *const u16, _: usize, _: *const u16, _: usize, rounds: usize) -> usize;
    fn ours_path_buf_from(_: *const u16, _: usize, _: *const u16, _: usize, rounds: usize)
    -> usize;
    fn ours_path_push(_: *const u16, _: usize, _: usize, rounds: usize) -> usize;
    fn ours_device_path(_: *const u8, _: usize, _: *const u8, _: usize, rounds: usize) -> usize;
    fn ours_load_option(_: *const u8, _: usize, _: *const u8, _: usize, rounds: usize) -> usize;
}

mod ours {
    use super::*;

    pub fn from_u16_with_nul(inputs: &mut Inputs, rounds: usize) -> usize {
        // SAFETY: each pointer comes with the length of the slice that it is of.
        unsafe {
            ours_from_u16_with_nul(
                inputs.units[0].as_ptr(),
                inputs.units[0].len(),
                inputs.units[1].as_ptr(),
                inputs.units[1].len(),
                rounds,
            )
        }
    }

    pub fn from_u16_until_nul(inputs: &mut Inputs, rounds: usize) -> usize {
        // SAFETY: each pointer comes with the length of the slice that it is of.
        unsafe {
            ours_from_u16_until_nul(
                inputs.units[0].as_ptr(),
                inputs.units[0].len(),
                inputs.units[1].as_ptr(),
                inputs.units[1].len(),
                rounds,
            )
        }
    }

    pub fn from_str_with_buf(inputs: &mut Inputs, rounds: usize) -> usize {
        // SAFETY: each pointer comes with the length of the slice that it is of.
        unsafe {
            ours_from_str_with_buf(
                inputs.texts[0].as_ptr(),
                inputs.texts[0].len(),
                inputs.texts[1].as_ptr(),
                inputs.texts[1].len(),
                inputs.places.as_mut_ptr(),
                inputs.places.len(),
                rounds,
            )
        }
    }

    pub fn as_str_in_buf(inputs: &mut Inputs, rounds: usize) -> usize {
        // SAFETY: each pointer comes with the length of the slice that it is of.
        unsafe {
            ours_as_str_in_buf(
                inputs.units[0].as_ptr(),
                inputs.units[0].len(),
                inputs.units[1].as_ptr(),
                inputs.units[1].len(),
                rounds,
            )
        }
    }

    pub fn display(inputs: &mut Inputs, rounds: usize) -> usize {
        // SAFETY: each pointer comes with the length of the slice that it is of.
        unsafe {
            ours_display(
                inputs.units[0].as_ptr(),
                inputs.units[0].len(),
                inputs.units[1].as_ptr(),
                inputs.units[1].len(),
                rounds,
            )
        }
    }

    pub fn to_string(inputs: &mut Inputs, rounds: usize) -> usize {
        // SAFETY: each pointer comes with the length of the slice that it is of.
        unsafe {
            ours_to_string(
                inputs.units[0].as_ptr(),
                inputs.units[0].len(),
                inputs.units[1].as_ptr(),
                inputs.units[1].len(),
                rounds,
            )
        }
    }

    pub fn is_ascii(inputs: &mut Inputs, rounds: usize) -> usize {
        // SAFETY: each pointer comes with the length of the slice that it is of.
        unsafe {
            ours_is_ascii(
                inputs.units[0].as_ptr(),
                inputs.units[0].len(),
                inputs.units[1].as_ptr(),
                inputs.units[1].len(),
                rounds,
            )
        }
    }

    pub fn iter(inputs: &mut Inputs, rounds: usize) -> usize {
        // SAFETY: each pointer comes with the length of the slice that it is of.
        unsafe {
            ours_iter(
                inputs.units[0].as_ptr(),
                inputs.units[0].len(),
                inputs.units[1].as_ptr(),
                inputs.units[1].len(),
                rounds,
            )
        }
    }

    pub fn eq(inputs: &mut Inputs, rounds: usize) -> usize {
        // SAFETY: each pointer comes with the length of the slice that it is of.
        unsafe {
            ours_eq(
                inputs.units[0].as_ptr(),
                inputs.units[0].len(),
                inputs.units[1].as_ptr(),
                inputs.units[1].len(),
                rounds,
            )
        }
    }

    pub fn cmp(inputs: &mut Inputs, rounds: usize) -> usize {
        // SAFETY: each pointer comes with the length of the slice that it is of.
        unsafe {
            ours_cmp(
                inputs.units[0].as_ptr(),
                inputs.units[0].len(),
                inputs.units[1].as_ptr(),
                inputs.units[1].len(),
                rounds,
            )
        }
    }

    pub fn eq_str_until_nul(inputs: &mut Inputs, rounds: usize) -> usize {
        // SAFETY: each pointer comes with the length of the slice that it is of.
        unsafe {
            ours_eq_str_until_nul(
                inputs.units[0].as_ptr(),
                inputs.units[0].len(),
                inputs.units[1].as_ptr(),
                inputs.units[1].len(),
                inputs.texts[0].as_ptr(),
                inputs.texts[0].len(),
                rounds,
            )
        }
    }

    pub fn cstr8_from_bytes_with_nul(inputs: &mut Inputs, rounds: usize) -> usize {
        // SAFETY: each pointer comes with the length of the slice that it is of.
        unsafe {
            ours_cstr8_from_bytes_with_nul(
                inputs.latin1[0].as_ptr(),
                inputs.latin1[0].len(),
                inputs.latin1[1].as_ptr(),
                inputs.latin1[1].len(),
                rounds,
            )
        }
    }

    pub fn cstr8_display(inputs: &mut Inputs, rounds: usize) -> usize {
        // SAFETY: each pointer comes with the length of the slice that it is of.
        unsafe {
            ours_cstr8_display(
                inputs.latin1[0].as_ptr(),
                inputs.latin1[0].len(),
                inputs.latin1[1].as_ptr(),
                inputs.latin1[1].len(),
                rounds,
            )
        }
    }

    pub fn try_from_str(inputs: &mut Inputs, rounds: usize) -> usize {
        // SAFETY: each pointer comes with the length of the slice that it is of.
        unsafe {
            ours_try_from_str(
                inputs.texts[0].as_ptr(),
                inputs.texts[0].len(),
                inputs.texts[1].as_ptr(),
                inputs.texts[1].len(),
                rounds,
            )
        }
    }

    pub fn push_str(inputs: &mut Inputs, rounds: usize) -> usize {
        // SAFETY: each pointer comes with the length of the slice that it is of.
        unsafe {
            ours_push_str(
                inputs.units[0].as_ptr(),
                inputs.units[0].len(),
                inputs.units[1].as_ptr(),
                inputs.units[1].len(),
                rounds,
            )
        }
    }

    pub fn push(inputs: &mut Inputs, rounds: usize) -> usize {
        // SAFETY: each pointer comes with the length of the slice that it is of.
        unsafe { ours_push(inputs.count, rounds) }
    }

    pub fn to_owned(inputs: &mut Inputs, rounds: usize) -> usize {
        // SAFETY: each pointer comes with the length of the slice that it is of.
        unsafe {
            ours_to_owned(
                inputs.units[0].as_ptr(),
                inputs.units[0].len(),
                inputs.units[1].as_ptr(),
                inputs.units[1].len(),
                rounds,
            )
        }
    }

    pub fn replace_char(inputs: &mut Inputs, rounds: usize) -> usize {
        // SAFETY: each pointer comes with the length of the slice that it is of.
        unsafe { ours_replace_char(inputs.units[0].as_ptr(), inputs.units[0].len(), rounds) }
    }

    pub fn unaligned_iter(inputs: &mut Inputs, rounds: usize) -> usize {
        // SAFETY: each pointer comes with the length of the slice that it is of.
        unsafe {
            ours_unaligned_iter(
                inputs.packed[0][1..].as_ptr(),
                inputs.packed[0].len() - 1,
                inputs.packed[1][1..].as_ptr(),
                inputs.packed[1].len() - 1,
                rounds,
            )
        }
    }

    pub fn to_vec_u16(inputs: &mut Inputs, rounds: usize) -> usize {
        // SAFETY: each pointer comes with the length of the slice that it is of.
        unsafe {
            ours_to_vec_u16(
                inputs.packed[0][1..].as_ptr(),
                inputs.packed[0].len() - 1,
                inputs.packed[1][1..].as_ptr(),
                inputs.packed[1].len() - 1,
                rounds,
            )
        }
    }

    pub fn to_vec_u32(inputs: &mut Inputs, rounds: usize) -> usize {
        // SAFETY: each pointer comes with the length of the slice that it is of.
        unsafe {
            ours_to_vec_u32(
                inputs.packed[0][1..].as_ptr(),
                inputs.packed[0].len() - 1,
                inputs.packed[1][1..].as_ptr(),
                inputs.packed[1].len() - 1,
                rounds,
            )
        }
    }

    pub fn copy_to_u16(inputs: &mut Inputs, rounds: usize) -> usize {
        // SAFETY: each pointer comes with the length of the slice that it is of.
        unsafe {
            ours_copy_to_u16(
                inputs.packed[0][1..].as_ptr(),
                inputs.packed[0].len() - 1,
                inputs.packed[1][1..].as_ptr(),
                inputs.packed[1].len() - 1,
                inputs.places.as_mut_ptr(),
                inputs.places.len(),
                rounds,
            )
        }
    }

    pub fn copy_to_u32(inputs: &mut Inputs, rounds: usize) -> usize {
        // SAFETY: each pointer comes with the length of the slice that it is of.
        unsafe {
            ours_copy_to_u32(
                inputs.packed[0][1..].as_ptr(),
                inputs.packed[0].len() - 1,
                inputs.packed[1][1..].as_ptr(),
                inputs.packed[1].len() - 1,
                inputs.numbers.as_mut_ptr(),
                inputs.numbers.len(),
                rounds,
            )
        }
    }

    pub fn to_cstring16(inputs: &mut Inputs, rounds: usize) -> usize {
        // SAFETY: each pointer comes with the length of the slice that it is of.
        unsafe {
            ours_to_cstring16(
                inputs.packed[0][1..].as_ptr(),
                inputs.packed[0].len() - 1,
                inputs.packed[1][1..].as_ptr(),
                inputs.packed[1].len() - 1,
                rounds,
            )
        }
    }

    pub fn from_unaligned_slice(inputs: &mut Inputs, rounds: usize) -> usize {
        // SAFETY: each pointer comes with the length of the slice that it is of.
        unsafe {
            ours_from_unaligned_slice(
                inputs.packed[0][1..].as_ptr(),
                inputs.packed[0].len() - 1,
                inputs.packed[1][1..].as_ptr(),
                inputs.packed[1].len() - 1,
                inputs.places.as_mut_ptr(),
                inputs.places.len(),
                rounds,
            )
        }
    }

    pub fn path_eq(inputs: &mut Inputs, rounds: usize) -> usize {
        // SAFETY: each pointer comes with the length of the slice that it is of.
        unsafe {
            ours_path_eq(
                inputs.units[0].as_ptr(),
                inputs.units[0].len(),
                inputs.units[1].as_ptr(),
                inputs.units[1].len(),
                rounds,
            )
        }
    }

    pub fn path_cmp(inputs: &mut Inputs, rounds: usize) -> usize {
        // SAFETY: each pointer comes with the length of the slice that it is of.
        unsafe {
            ours_path_cmp(
                inputs.units[0].as_ptr(),
                inputs.units[0].len(),
                inputs.units[1].as_ptr(),
                inputs.units[1].len(),
                rounds,
            )
        }
    }

    pub fn components(inputs: &mut Inputs, rounds: usize) -> usize {
        // SAFETY: each pointer comes with the length of the slice that it is of.
        unsafe {
            ours_components(
                inputs.units[0].as_ptr(),
                inputs.units[0].len(),
                inputs.units[1].as_ptr(),
                inputs.units[1].len(),
                rounds,
            )
        }
    }

    pub fn parent(inputs: &mut Inputs, rounds: usize) -> usize {
        // SAFETY: each pointer comes with the length of the slice that it is of.
        unsafe {
            ours_parent(
                inputs.units[0].as_ptr(),
                inputs.units[0].len(),
                inputs.units[1].as_ptr(),
                inputs.units[1].len(),
                rounds,
            )
        }
    }

    pub fn join(inputs: &mut Inputs, rounds: usize) -> usize {
        // SAFETY: each pointer comes with the length of the slice that it is of.
        unsafe {
            ours_join(
                inputs.units[0].as_ptr(),
                inputs.units[0].len(),
                inputs.units[1].as_ptr(),
                inputs.units[1].len(),
                rounds,
            )
        }
    }

    pub fn validate(inputs: &mut Inputs, rounds: usize) -> usize {
        // SAFETY: each pointer comes with the length of the slice that it is of.
        unsafe {
            ours_validate_path(
                inputs.units[0].as_ptr(),
                inputs.units[0].len(),
                inputs.units[1].as_ptr(),
                inputs.units[1].len(),
                rounds,
            )
        }
    }

    pub fn normalize(inputs: &mut Inputs, rounds: usize) -> usize {
        // SAFETY: each pointer comes with the length of the slice that it is of.
        unsafe {
            ours_normalize(
                inputs.units[0].as_ptr(),
                inputs.units[0].len(),
                inputs.units[1].as_ptr(),
                inputs.units[1].len(),
                rounds,
            )
        }
    }

    pub fn path_buf_from(inputs: &mut Inputs, rounds: usize) -> usize {
        // SAFETY: each pointer comes with the length of the slice that it is of.
        unsafe {
            ours_path_buf_from(
                inputs.units[0].as_ptr(),
                inputs.units[0].len(),
                inputs.units[1].as_ptr(),
                inputs.units[1].len(),
                rounds,
            )
        }
    }

    pub fn path_push(inputs: &mut Inputs, rounds: usize) -> usize {
        // SAFETY: each pointer comes with the length of the slice that it is of.
        unsafe {
            ours_path_push(
                inputs.units[0].as_ptr(),
                inputs.units[0].len(),
                PUSHES,
                rounds,
            )
        }
    }

    pub fn device_path(inputs: &mut Inputs, rounds: usize) -> usize {
        let [one, two] = &inputs.device_paths;
        // SAFETY: each pointer comes with the length of the slice that it is of.
        unsafe { ours_device_path(one.as_ptr(), one.len(), two.as_ptr(), two.len(), rounds) }
    }

    pub fn load_option(inputs: &mut Inputs, rounds: usize) -> usize {
        let [one, two] = &inputs.load_options;
        // SAFETY: each pointer comes with the length of the slice that it is of.
        unsafe { ours_load_option(one.as_ptr(), one.len(), two.as_ptr(), two.len(), rounds) }
    }
}

pub const CALLS: &[Call] = &[
    Call {
        name: "from_u16_with_nul",
        sizes: SIZES,
        inputs: ascii,
        original: original!(from_u16_with_nul),
        ours: ours::from_u16_with_nul,
    },
    Call {
        name: "from_u16_until_nul",
        sizes: SIZES,
        inputs: ascii,
        original: original!(from_u16_until_nul),
        ours: ours::from_u16_until_nul,
    },
    Call {
        name: "from_str_with_buf ascii",
        sizes: SIZES,
        inputs: ascii,
        original: original!(from_str_with_buf),
        ours: ours::from_str_with_buf,
    },
    Call {
        name: "from_str_with_buf latin1",
        sizes: SIZES,
        inputs: latin1,
        original: original!(from_str_with_buf),
        ours: ours::from_str_with_buf,
    },
    Call {
        name: "from_str_with_buf cjk",
        sizes: SIZES,
        inputs: cjk,
        original: original!(from_str_with_buf),
        ours: ours::from_str_with_buf,
    },
    Call {
        name: "as_str_in_buf ascii",
        sizes: SIZES,
        inputs: ascii,
        original: original!(as_str_in_buf),
        ours: ours::as_str_in_buf,
    },
    Call {
        name: "as_str_in_buf latin1",
        sizes: SIZES,
        inputs: latin1,
        original: original!(as_str_in_buf),
        ours: ours::as_str_in_buf,
    },
    Call {
        name: "as_str_in_buf cjk",
        sizes: SIZES,
        inputs: cjk,
        original: original!(as_str_in_buf),
        ours: ours::as_str_in_buf,
    },
    Call {
        name: "as_str_in_buf mixed",
        sizes: SIZES,
        inputs: mixed,
        original: original!(as_str_in_buf),
        ours: ours::as_str_in_buf,
    },
    Call {
        name: "display ascii",
        sizes: SIZES,
        inputs: ascii,
        original: original!(display),
        ours: ours::display,
    },
    Call {
        name: "display latin1",
        sizes: SIZES,
        inputs: latin1,
        original: original!(display),
        ours: ours::display,
    },
    Call {
        name: "display cjk",
        sizes: SIZES,
        inputs: cjk,
        original: original!(display),
        ours: ours::display,
    },
    Call {
        name: "to_string ascii",
        sizes: SIZES,
        inputs: ascii,
        original: original!(to_string),
        ours: ours::to_string,
    },
    Call {
        name: "to_string latin1",
        sizes: SIZES,
        inputs: latin1,
        original: original!(to_string),
        ours: ours::to_string,
    },
    Call {
        name: "to_string cjk",
        sizes: SIZES,
        inputs: cjk,
        original: original!(to_string),
        ours: ours::to_string,
    },
    Call {
        name: "is_ascii",
        sizes: SIZES,
        inputs: ascii,
        original: original!(is_ascii),
        ours: ours::is_ascii,
    },
    Call {
        name: "is_ascii early",
        sizes: SIZES,
        inputs: early_latin1,
        original: original!(is_ascii),
        ours: ours::is_ascii,
    },
    Call {
        name: "iter",
        sizes: SIZES,
        inputs: ascii,
        original: original!(iter),
        ours: ours::iter,
    },
    Call {
        name: "eq",
        sizes: SIZES,
        inputs: ascii,
        original: original!(eq),
        ours: ours::eq,
    },
    Call {
        name: "cmp",
        sizes: SIZES,
        inputs: ascii,
        original: original!(cmp),
        ours: ours::cmp,
    },
    Call {
        name: "eq_str_until_nul ascii",
        sizes: SIZES,
        inputs: ascii,
        original: original!(eq_str_until_nul),
        ours: ours::eq_str_until_nul,
    },
    Call {
        name: "eq_str_until_nul latin1",
        sizes: SIZES,
        inputs: latin1,
        original: original!(eq_str_until_nul),
        ours: ours::eq_str_until_nul,
    },
    Call {
        name: "eq_str_until_nul cjk",
        sizes: SIZES,
        inputs: cjk,
        original: original!(eq_str_until_nul),
        ours: ours::eq_str_until_nul,
    },
    Call {
        name: "cstr8_from_bytes_with_nul",
        sizes: SIZES,
        inputs: ascii,
        original: original!(cstr8_from_bytes_with_nul),
        ours: ours::cstr8_from_bytes_with_nul,
    },
    Call {
        name: "cstr8_display ascii",
        sizes: SIZES,
        inputs: ascii,
        original: original!(cstr8_display),
        ours: ours::cstr8_display,
    },
    Call {
        name: "cstr8_display latin1",
        sizes: SIZES,
        inputs: latin1,
        original: original!(cstr8_display),
        ours: ours::cstr8_display,
    },
    Call {
        name: "try_from_str ascii",
        sizes: SIZES,
        inputs: ascii,
        original: original!(try_from_str),
        ours: ours::try_from_str,
    },
    Call {
        name: "try_from_str latin1",
        sizes: SIZES,
        inputs: latin1,
        original: original!(try_from_str),
        ours: ours::try_from_str,
    },
    Call {
        name: "try_from_str cjk",
        sizes: SIZES,
        inputs: cjk,
        original: original!(try_from_str),
        ours: ours::try_from_str,
    },
    Call {
        name: "try_from_str refused",
        sizes: SIZES,
        inputs: early_emoji,
        original: original!(try_from_str),
        ours: ours::try_from_str,
    },
    Call {
        name: "push_str",
        sizes: SIZES,
        inputs: ascii,
        original: original!(push_str),
        ours: ours::push_str,
    },
    Call {
        name: "push",
        sizes: SIZES,
        inputs: ascii,
        original: original!(push),
        ours: ours::push,
    },
    Call {
        name: "to_owned",
        sizes: SIZES,
        inputs: ascii,
        original: original!(to_owned),
        ours: ours::to_owned,
    },
    Call {
        name: "replace_char",
        sizes: SIZES,
        inputs: path,
        original: original!(replace_char),
        ours: ours::replace_char,
    },
    Call {
        name: "unaligned_iter",
        sizes: SIZES,
        inputs: ascii,
        original: original!(unaligned_iter),
        ours: ours::unaligned_iter,
    },
    Call {
        name: "to_vec_u16",
        sizes: SIZES,
        inputs: ascii,
        original: original!(to_vec_u16),
        ours: ours::to_vec_u16,
    },
    Call {
        name: "to_vec_u32",
        sizes: SIZES,
        inputs: ascii,
        original: original!(to_vec_u32),
        ours: ours::to_vec_u32,
    },
    Call {
        name: "copy_to_u16",
        sizes: SIZES,
        inputs: ascii,
        original: original!(copy_to_u16),
        ours: ours::copy_to_u16,
    },
    Call {
        name: "copy_to_u32",
        sizes: SIZES,
        inputs: ascii,
        original: original!(copy_to_u32),
        ours: ours::copy_to_u32,
    },
    Call {
        name: "to_cstring16",
        sizes: SIZES,
        inputs: ascii,
        original: original!(to_cstring16),
        ours: ours::to_cstring16,
    },
    Call {
        name: "from_unaligned_slice",
        sizes: SIZES,
        inputs: ascii,
        original: original!(from_unaligned_slice),
        ours: ours::from_unaligned_slice,
    },
    Call {
        name: "path_eq",
        sizes: SIZES,
        inputs: path,
        original: original!(path_eq),
        ours: ours::path_eq,
    },
    Call {
        name: "path_eq uneven",
        sizes: SIZES,
        inputs: uneven_path,
        original: original!(path_eq),
        ours: ours::path_eq,
    },
    Call {
        name: "path_cmp",
        sizes: SIZES,
        inputs: path,
        original: original!(path_cmp),
        ours: ours::path_cmp,
    },
    Call {
        name: "components",
        sizes: SIZES,
        inputs: path,
        original: original!(components),
        ours: ours::components,
    },
    Call {
        name: "components uneven",
        sizes: SIZES,
        inputs: uneven_path,
        original: original!(components),
        ours: ours::components,
    },
    Call {
        name: "parent",
        sizes: SIZES,
        inputs: path,
        original: original!(parent),
        ours: ours::parent,
    },
    Call {
        name: "parent uneven",
        sizes: SIZES,
        inputs: uneven_path,
        original: original!(parent),
        ours: ours::parent,
    },
    Call {
        name: "join",
        sizes: SIZES,
        inputs: path,
        original: original!(join),
        ours: ours::join,
    },
    Call {
        name: "path_buf_from",
        sizes: SIZES,
        inputs: path,
        original: original!(path_buf_from),
        ours: ours::path_buf_from,
    },
    Call {
        name: "path_buf_from uneven",
        sizes: SIZES,
        inputs: uneven_path,
        original: original!(path_buf_from),
        ours: ours::path_buf_from,
    },
    Call {
        name: "path_push",
        sizes: PARTS,
        inputs: path,
        original: original!(path_push),
        ours: ours::path_push,
    },
    // Beside plain Rust: the crate keeps its `validate_path` to itself, and has no normal paths.
    Call {
        name: "path_push beside plain Rust",
        sizes: PARTS,
        inputs: path,
        original: Some(plain::path_push),
        ours: ours::path_push,
    },
    Call {
        name: "validate",
        sizes: SIZES,
        inputs: path,
        original: Some(plain::validate),
        ours: ours::validate,
    },
    Call {
        name: "validate uneven",
        sizes: SIZES,
        inputs: uneven_path,
        original: Some(plain::validate),
        ours: ours::validate,
    },
    Call {
        name: "validate dotted",
        sizes: SIZES,
        inputs: dotted_path,
        original: Some(plain::validate),
        ours: ours::validate,
    },
    Call {
        name: "normalize",
        sizes: SIZES,
        inputs: path,
        original: Some(plain::normalize),
        ours: ours::normalize,
    },
    Call {
        name: "normalize uneven",
        sizes: SIZES,
        inputs: uneven_path,
        original: Some(plain::normalize),
        ours: ours::normalize,
    },
    Call {
        name: "normalize dotted",
        sizes: SIZES,
        inputs: dotted_path,
        original: Some(plain::normalize),
        ours: ours::normalize,
    },
    // Beside a reader in plain Rust.
    Call {
        name: "device_path of empty nodes",
        sizes: LISTS,
        inputs: empty_nodes,
        original: Some(plain::device_path),
        ours: ours::device_path,
    },
    Call {
        name: "device_path of long nodes",
        sizes: LISTS,
        inputs: long_nodes,
        original: Some(plain::device_path),
        ours: ours::device_path,
    },
    Call {
        name: "load_option of empty nodes",
        sizes: LISTS,
        inputs: empty_nodes,
        original: Some(plain::load_option),
        ours: ours::load_option,
    },
    Call {
        name: "load_option of long nodes",
        sizes: LISTS,
        inputs: long_nodes,
        original: Some(plain::load_option),
        ours: ours::load_option,
    },
];
