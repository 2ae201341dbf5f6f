//! The calls of the Rust crate, one function each, which is never inlined.
use crate::inputs::Inputs;
use std::fmt::Write;
use std::hint::black_box;
use std::mem::MaybeUninit;
use uefi::data_types::{EqStrUntilNul, UnalignedSlice};
use uefi::fs::{Path, PathBuf, SEPARATOR};
use uefi::{CStr8, CStr16, CString16, Char16};

fn repeat(rounds: usize, mut call: impl FnMut(usize) -> usize) -> usize {
    let mut total = 0usize;
    for _ in 0..rounds {
        total = total.wrapping_add(call(total % 2));
    }
    total
}

fn views(inputs: &Inputs) -> [&CStr16; 2] {
    [&inputs.units[0], &inputs.units[1]].map(|units| CStr16::from_u16_with_nul(units).unwrap())
}

fn packed<T: Copy>(inputs: &Inputs) -> [UnalignedSlice<'_, T>; 2] {
    [&inputs.packed[0], &inputs.packed[1]].map(|bytes| {
        let bytes = &bytes[1..];
        // SAFETY: the items lie within the bytes.
        unsafe { UnalignedSlice::new(bytes.as_ptr().cast(), bytes.len() / size_of::<T>()) }
    })
}

#[inline(never)]
fn with_nul_len(units: &[u16]) -> usize {
    black_box(CStr16::from_u16_with_nul(units)).map_or(1, CStr16::num_chars)
}

pub fn from_u16_with_nul(inputs: &mut Inputs, rounds: usize) -> usize {
    repeat(rounds, |k| with_nul_len(&inputs.units[k]))
}

#[inline(never)]
fn until_nul_len(units: &[u16]) -> usize {
    black_box(CStr16::from_u16_until_nul(units)).map_or(1, CStr16::num_chars)
}

pub fn from_u16_until_nul(inputs: &mut Inputs, rounds: usize) -> usize {
    repeat(rounds, |k| until_nul_len(&inputs.units[k]))
}

#[inline(never)]
fn with_buf_len(text: &str, buffer: &mut [u16]) -> usize {
    CStr16::from_str_with_buf(text, buffer).map_or(1, CStr16::num_chars)
}

pub fn from_str_with_buf(inputs: &mut Inputs, rounds: usize) -> usize {
    repeat(rounds, |k| {
        with_buf_len(&inputs.texts[k], &mut inputs.places)
    })
}

#[inline(never)]
fn sunk_len(string: &CStr16, sink: &mut String) -> usize {
    sink.clear();
    string.as_str_in_buf(sink).map_or(1, |()| sink.len())
}

pub fn as_str_in_buf(inputs: &mut Inputs, rounds: usize) -> usize {
    let (strings, mut sink) = (views(inputs), String::new());
    repeat(rounds, |k| sunk_len(strings[k], &mut sink))
}

#[inline(never)]
fn displayed_len(string: &CStr16, sink: &mut String) -> usize {
    sink.clear();
    write!(sink, "{string}").map_or(1, |()| sink.len())
}

pub fn display(inputs: &mut Inputs, rounds: usize) -> usize {
    let (strings, mut sink) = (views(inputs), String::new());
    repeat(rounds, |k| displayed_len(strings[k], &mut sink))
}

#[inline(never)]
fn string_len(string: &CStr16) -> usize {
    black_box(String::from(string)).len()
}

pub fn to_string(inputs: &mut Inputs, rounds: usize) -> usize {
    let strings = views(inputs);
    repeat(rounds, |k| string_len(strings[k]))
}

#[inline(never)]
fn ascii_answer(string: &CStr16) -> usize {
    if string.is_ascii() { 1 } else { 3 }
}

pub fn is_ascii(inputs: &mut Inputs, rounds: usize) -> usize {
    let strings = views(inputs);
    repeat(rounds, |k| ascii_answer(strings[k]))
}

#[inline(never)]
fn sum_of_characters(string: &CStr16) -> usize {
    string.iter().fold(0, |sum: usize, character| {
        sum.wrapping_add(usize::from(u16::from(*character)))
    })
}

pub fn iter(inputs: &mut Inputs, rounds: usize) -> usize {
    let strings = views(inputs);
    repeat(rounds, |k| sum_of_characters(strings[k]))
}

#[inline(never)]
fn are_equal(one: &CStr16, two: &CStr16) -> bool {
    one == two
}

pub fn eq(inputs: &mut Inputs, rounds: usize) -> usize {
    let strings = views(inputs);
    repeat(rounds, |k| {
        usize::from(are_equal(strings[k], strings[1 - k]))
    })
}

fn number(order: std::cmp::Ordering) -> usize {
    match order {
        std::cmp::Ordering::Less => 3,
        std::cmp::Ordering::Equal => 1,
        std::cmp::Ordering::Greater => 2,
    }
}

#[inline(never)]
fn order(one: &CStr16, two: &CStr16) -> usize {
    number(one.cmp(two))
}

pub fn cmp(inputs: &mut Inputs, rounds: usize) -> usize {
    let strings = views(inputs);
    repeat(rounds, |k| order(strings[k], strings[1 - k]))
}

#[inline(never)]
fn is_equal_text(string: &CStr16, text: &str) -> bool {
    string.eq_str_until_nul(text)
}

pub fn eq_str_until_nul(inputs: &mut Inputs, rounds: usize) -> usize {
    let strings = views(inputs);
    repeat(rounds, |k| {
        usize::from(is_equal_text(strings[k], &inputs.texts[0]))
    })
}

#[inline(never)]
fn latin1_len(bytes: &[u8]) -> usize {
    black_box(CStr8::from_bytes_with_nul(bytes)).map_or(1, |string| string.as_bytes().len())
}

pub fn cstr8_from_bytes_with_nul(inputs: &mut Inputs, rounds: usize) -> usize {
    repeat(rounds, |k| latin1_len(&inputs.latin1[k]))
}

#[inline(never)]
fn displayed_latin1_len(string: &CStr8, sink: &mut String) -> usize {
    sink.clear();
    write!(sink, "{string}").map_or(1, |()| sink.len())
}

pub fn cstr8_display(inputs: &mut Inputs, rounds: usize) -> usize {
    let strings = [&inputs.latin1[0], &inputs.latin1[1]]
        .map(|bytes| CStr8::from_bytes_with_nul(bytes).unwrap());
    let mut sink = String::new();
    repeat(rounds, |k| displayed_latin1_len(strings[k], &mut sink))
}

#[inline(never)]
fn owned_len(text: &str) -> usize {
    black_box(CString16::try_from(text)).map_or(1, |string| string.num_chars())
}

pub fn try_from_str(inputs: &mut Inputs, rounds: usize) -> usize {
    repeat(rounds, |k| owned_len(&inputs.texts[k]))
}

#[inline(never)]
fn pushed_len(string: &mut CString16, part: &CStr16) -> usize {
    string.clear();
    string.push_str(part);
    string.num_chars()
}

pub fn push_str(inputs: &mut Inputs, rounds: usize) -> usize {
    let (strings, mut string) = (views(inputs), CString16::new());
    repeat(rounds, |k| pushed_len(&mut string, strings[k]))
}

#[inline(never)]
fn pushed_one(string: &mut CString16, character: Char16) -> usize {
    string.push(character);
    1
}

pub fn push(inputs: &mut Inputs, rounds: usize) -> usize {
    let mut string = CString16::new();
    let mut total = 0;
    for _ in 0..rounds {
        string.clear();
        for _ in 0..inputs.count {
            total += pushed_one(&mut string, SEPARATOR);
        }
    }
    total
}

#[inline(never)]
fn copied_len(string: &CStr16) -> usize {
    black_box(string.to_owned()).num_chars()
}

pub fn to_owned(inputs: &mut Inputs, rounds: usize) -> usize {
    let strings = views(inputs);
    repeat(rounds, |k| copied_len(strings[k]))
}

#[inline(never)]
fn replace(string: &mut CString16, search: Char16, replace: Char16) -> usize {
    string.replace_char(search, replace);
    string.num_chars()
}

pub fn replace_char(inputs: &mut Inputs, rounds: usize) -> usize {
    let mut string = views(inputs)[0].to_owned();
    let slash = Char16::try_from('/').unwrap();
    let mut total = 0;
    for k in 0..rounds {
        total += if k % 2 == 0 {
            replace(&mut string, SEPARATOR, slash)
        } else {
            replace(&mut string, slash, SEPARATOR)
        };
    }
    total
}

#[inline(never)]
fn last_of_vec<T: Copy>(slice: &UnalignedSlice<'_, T>) -> Option<T> {
    black_box(slice.to_vec()).last().copied()
}

#[inline(never)]
fn sum_of_items(slice: &UnalignedSlice<'_, u16>) -> usize {
    slice
        .iter()
        .fold(0, |sum: usize, item| sum.wrapping_add(usize::from(item)))
}

pub fn unaligned_iter(inputs: &mut Inputs, rounds: usize) -> usize {
    let slices = packed::<u16>(inputs);
    repeat(rounds, |k| sum_of_items(&slices[k]))
}

pub fn to_vec_u16(inputs: &mut Inputs, rounds: usize) -> usize {
    let slices = packed::<u16>(inputs);
    repeat(rounds, |k| last_of_vec(&slices[k]).map_or(0, usize::from))
}

pub fn to_vec_u32(inputs: &mut Inputs, rounds: usize) -> usize {
    let slices = packed::<u32>(inputs);
    repeat(rounds, |k| {
        last_of_vec(&slices[k]).map_or(0, |item| item as usize)
    })
}

#[inline(never)]
fn copied<T: Copy>(slice: &UnalignedSlice<'_, T>, places: &mut [T]) -> Option<T> {
    slice.copy_to(places);
    places.last().copied()
}

pub fn copy_to_u16(inputs: &mut Inputs, rounds: usize) -> usize {
    let mut places = std::mem::take(&mut inputs.places);
    let slices = packed::<u16>(inputs);
    let total = repeat(rounds, |k| {
        copied(&slices[k], &mut places).map_or(0, usize::from)
    });
    inputs.places = places;
    total
}

pub fn copy_to_u32(inputs: &mut Inputs, rounds: usize) -> usize {
    let mut places = std::mem::take(&mut inputs.numbers);
    let slices = packed::<u32>(inputs);
    let total = repeat(rounds, |k| {
        copied(&slices[k], &mut places).map_or(0, |item| item as usize)
    });
    inputs.numbers = places;
    total
}

#[inline(never)]
fn packed_string_len(slice: &UnalignedSlice<'_, u16>) -> usize {
    black_box(slice.to_cstring16()).map_or(1, |string| string.num_chars())
}

pub fn to_cstring16(inputs: &mut Inputs, rounds: usize) -> usize {
    let slices = packed::<u16>(inputs);
    repeat(rounds, |k| packed_string_len(&slices[k]))
}

#[inline(never)]
fn packed_view_len(slice: &UnalignedSlice<'_, u16>, places: &mut [MaybeUninit<u16>]) -> usize {
    CStr16::from_unaligned_slice(slice, places).map_or(1, CStr16::num_chars)
}

pub fn from_unaligned_slice(inputs: &mut Inputs, rounds: usize) -> usize {
    let mut places = vec![MaybeUninit::uninit(); inputs.places.len()];
    let slices = packed::<u16>(inputs);
    repeat(rounds, |k| packed_view_len(&slices[k], &mut places))
}

fn paths(inputs: &Inputs) -> [&Path; 2] {
    views(inputs).map(Path::new)
}

#[inline(never)]
fn are_equal_paths(one: &Path, two: &Path) -> bool {
    one == two
}

pub fn path_eq(inputs: &mut Inputs, rounds: usize) -> usize {
    let paths = paths(inputs);
    repeat(rounds, |k| {
        usize::from(are_equal_paths(paths[k], paths[1 - k]))
    })
}

#[inline(never)]
fn path_order(one: &Path, two: &Path) -> usize {
    number(one.cmp(two))
}

pub fn path_cmp(inputs: &mut Inputs, rounds: usize) -> usize {
    let paths = paths(inputs);
    repeat(rounds, |k| path_order(paths[k], paths[1 - k]))
}

#[inline(never)]
fn sum_of_lens(path: &Path) -> usize {
    path.components()
        .fold(0, |sum, component| sum + component.len() + 1)
}

pub fn components(inputs: &mut Inputs, rounds: usize) -> usize {
    let paths = paths(inputs);
    repeat(rounds, |k| sum_of_lens(paths[k]))
}

#[inline(never)]
fn parent_len(path: &Path) -> usize {
    black_box(path.parent()).map_or(0, |parent| parent.to_cstr16().num_chars())
}

pub fn parent(inputs: &mut Inputs, rounds: usize) -> usize {
    let paths = paths(inputs);
    repeat(rounds, |k| parent_len(paths[k]))
}

#[inline(never)]
fn joined_len(path: &Path) -> usize {
    black_box(path.join(path)).to_cstr16().num_chars()
}

pub fn join(inputs: &mut Inputs, rounds: usize) -> usize {
    let paths = paths(inputs);
    repeat(rounds, |k| joined_len(paths[k]))
}

#[inline(never)]
fn path_buf_len(string: CString16) -> usize {
    black_box(PathBuf::from(string)).to_cstr16().num_chars()
}

pub fn path_buf_from(inputs: &mut Inputs, rounds: usize) -> usize {
    let strings = views(inputs);
    repeat(rounds, |k| path_buf_len(strings[k].to_owned()))
}

#[inline(never)]
fn push_path(path: &mut PathBuf, part: &Path) -> usize {
    path.push(part);
    1
}

pub fn path_push(inputs: &mut Inputs, rounds: usize) -> usize {
    let part = paths(inputs)[0];
    let mut path = PathBuf::new();
    let mut total = 0;
    for _ in 0..rounds {
        path.clear();
        for _ in 0..crate::calls::PUSHES {
            total += push_path(&mut path, part);
        }
    }
    total + path.to_cstr16().num_chars()
}
