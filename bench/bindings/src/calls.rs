// The calls that are timed, by names that both crates have: `both` is one of them.

use super::Inputs;
use both::data_types::EqStrUntilNul;
use both::fs::PathBuf;
use both::{CStr16, CString16, Char16};
use std::hash::{DefaultHasher, Hash, Hasher};
use std::hint::black_box;

/// Calls so often, on one of two equal inputs in turn.
fn repeat(rounds: usize, mut call: impl FnMut(usize) -> usize) -> usize {
    (0..rounds).fold(0, |total, it| total.wrapping_add(black_box(call(it % 2))))
}

fn strings(inputs: &Inputs) -> [&CStr16; 2] {
    [&inputs.units[0], &inputs.units[1]].map(|it| CStr16::from_u16_with_nul(it).unwrap())
}

fn paths(inputs: &Inputs) -> [PathBuf; 2] {
    strings(inputs).map(PathBuf::from)
}

pub const CALLS: &[super::Call] = &[
    ("Char16::try_from(char)", |inputs, rounds| {
        repeat(rounds, |k| Char16::try_from(black_box(inputs.texts[k].as_bytes()[0] as char)).map_or(0, |it| u16::from(it).into()))
    }),
    ("CStr16::from_u16_with_nul", |inputs, rounds| {
        repeat(rounds, |k| CStr16::from_u16_with_nul(black_box(&inputs.units[k])).map_or(1, |it| it.num_chars()))
    }),
    ("CStr16::from_u16_until_nul", |inputs, rounds| {
        repeat(rounds, |k| CStr16::from_u16_until_nul(black_box(&inputs.units[k])).map_or(1, |it| it.num_chars()))
    }),
    ("CStr16::from_str_with_buf", |inputs, rounds| {
        let mut buffer = vec![0; inputs.units[0].len()];
        repeat(rounds, |k| CStr16::from_str_with_buf(black_box(&inputs.texts[k]), &mut buffer).map_or(1, |it| it.num_chars()))
    }),
    ("CStr16 ==", |inputs, rounds| {
        let strings = strings(inputs);
        repeat(rounds, |k| (black_box(strings[k]) == black_box(strings[1 - k])).into())
    }),
    ("CStr16::cmp", |inputs, rounds| {
        let strings = strings(inputs);
        repeat(rounds, |k| black_box(strings[k]).cmp(black_box(strings[1 - k])) as usize)
    }),
    ("CStr16::hash", |inputs, rounds| {
        let strings = strings(inputs);
        repeat(rounds, |k| {
            let mut hasher = DefaultHasher::new();
            black_box(strings[k]).hash(&mut hasher);
            hasher.finish() as usize
        })
    }),
    ("CStr16::is_ascii", |inputs, rounds| {
        let strings = strings(inputs);
        repeat(rounds, |k| black_box(strings[k]).is_ascii().into())
    }),
    ("eq_str_until_nul", |inputs, rounds| {
        let strings = strings(inputs);
        repeat(rounds, |k| black_box(strings[k]).eq_str_until_nul(&inputs.texts[k]).into())
    }),
    ("CStr16::to_string", |inputs, rounds| {
        let strings = strings(inputs);
        repeat(rounds, |k| black_box(strings[k]).to_string().len())
    }),
    ("CString16::try_from(&str)", |inputs, rounds| {
        repeat(rounds, |k| CString16::try_from(black_box(&*inputs.texts[k])).map_or(1, |it| it.num_chars()))
    }),
    ("CString16::push_str", |inputs, rounds| {
        let (strings, mut whole) = (strings(inputs), CString16::new());
        repeat(rounds, |k| {
            whole.clear();
            whole.push_str(black_box(strings[k]));
            whole.num_chars()
        })
    }),
    ("Path ==", |inputs, rounds| {
        let paths = paths(inputs);
        repeat(rounds, |k| (*black_box(&paths[k]) == *black_box(&paths[1 - k])).into())
    }),
    ("Path::components", |inputs, rounds| {
        let paths = paths(inputs);
        repeat(rounds, |k| black_box(&paths[k]).components().map(|it| it.len()).sum())
    }),
    ("Path::join", |inputs, rounds| {
        let paths = paths(inputs);
        repeat(rounds, |k| black_box(&paths[k]).join(&paths[1 - k]).to_cstr16().num_chars())
    }),
    ("PathBuf::push", |inputs, rounds| {
        let (paths, mut whole) = (paths(inputs), PathBuf::new());
        repeat(rounds, |k| {
            whole.clear();
            whole.push(black_box(&paths[k]));
            whole.to_cstr16().num_chars()
        })
    }),
    ("Path::parent", |inputs, rounds| {
        let paths = paths(inputs);
        repeat(rounds, |k| black_box(&paths[k]).parent().map_or(0, |it| it.to_cstr16().num_chars()))
    }),
];
