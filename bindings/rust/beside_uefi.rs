//! Compares this crate with the crate `uefi`: every call that both have, with the same random inputs, which have NULs, surrogates,
//! characters above U+FFFF, separators, and buffers of each size. `bindings/rust/check ARCHIVE CRATE` builds and runs it.
//!
//! The answers are results, buffers, errors and what they display. Where README.md says that answers differ, they must.

use std::collections::BTreeMap;
use std::fmt::{self, Write};
use std::panic::{self, AssertUnwindSafe};

/// The number of inputs.
const TURNS: u64 = 25_000;

/// The inputs of the calls.
struct Input {
    text: String,
    other_text: String,
    /// Any units, and units of strings.
    units: Vec<u16>,
    string: Vec<u16>,
    other: Vec<u16>,
    bytes: Vec<u8>,
    character: char,
    unit: u16,
    room: usize,
}

/// A source of random numbers that are the same each time.
struct Random(u64);

impl Random {
    fn below(&mut self, limit: usize) -> usize {
        self.0 ^= self.0 << 13;
        self.0 ^= self.0 >> 7;
        self.0 ^= self.0 << 17;
        (self.0 >> 11) as usize % limit
    }

    fn list<T: Copy>(&mut self, items: &[T]) -> Vec<T> {
        let most = [0, 2, 4, 12][self.below(4)];
        (0..self.below(most + 1))
            .map(|_| items[self.below(items.len())])
            .collect()
    }

    /// The units of a string, without a NUL and surrogates before its end.
    fn string(&mut self) -> Vec<u16> {
        let mut units: Vec<u16> = self
            .list(&CHARACTERS)
            .into_iter()
            .filter(|it| *it != '\0')
            .flat_map(|it| u16::try_from(it as u32))
            .collect();
        units.push(0);
        units
    }

    fn input(&mut self) -> Input {
        let units: Vec<u16> = CHARACTERS
            .iter()
            .flat_map(|it| it.encode_utf16(&mut [0; 2]).to_vec())
            .collect();
        Input {
            text: self.list(&CHARACTERS).into_iter().collect(),
            other_text: self.list(&CHARACTERS[..6]).into_iter().collect(),
            units: self.list(&units),
            string: self.string(),
            other: self.string(),
            bytes: self.list(&[0, 0, 0, 0x5c, 0x61, 0xd8, 0xe9, 0xff]),
            character: CHARACTERS[self.below(CHARACTERS.len())],
            unit: units[self.below(units.len())],
            room: self.below(14),
        }
    }
}

const CHARACTERS: [char; 18] = [
    'a',
    '\\',
    '\0',
    'b',
    '\\',
    '.',
    '/',
    '\\',
    '.',
    ':',
    '>',
    'é',
    'ÿ',
    'Ā',
    '€',
    '\u{ffff}',
    '😀',
    '\u{10ffff}',
];

/// A writer that fails when it is full.
struct Small(String, usize);

impl Write for Small {
    fn write_str(&mut self, text: &str) -> fmt::Result {
        self.1 = self.1.checked_sub(text.len()).ok_or(fmt::Error)?;
        self.0.push_str(text);
        Ok(())
    }
}

/// A call and its answer.
type Answer = (&'static str, String);

/// The answer of a call that may panic, which prints nothing then.
fn caught<T: fmt::Debug>(call: impl FnOnce() -> T) -> String {
    let print = panic::take_hook();
    panic::set_hook(Box::new(|_| ()));
    let answer = panic::catch_unwind(AssertUnwindSafe(call));
    panic::set_hook(print);
    answer.map_or("panics".into(), |it| format!("{it:?}"))
}

fn answer<T: fmt::Debug, E: fmt::Debug + fmt::Display>(result: Result<T, E>) -> String {
    match result {
        Ok(it) => format!("{it:?}"),
        Err(error) => format!("fails: {error:?}: {error}"),
    }
}

/// The answers of a crate.
macro_rules! answers_of {
    ($name:ident) => {
        mod $name {
            use super::{answer, caught, Answer, Input, Small};
            use std::mem::MaybeUninit;
            use $name::data_types::{EqStrUntilNul, UnalignedSlice};
            use $name::fs::{Path, PathBuf};
            use $name::{CStr16, CStr8, CString16, Char16, Char8};

            fn units(chars: &[Char16]) -> Vec<u16> {
                chars.iter().map(|it| u16::from(*it)).collect()
            }

            pub fn characters(to: &mut Vec<Answer>, input: &Input) {
                let (character, latin) = (input.character, Char8::from(input.unit as u8));
                to.push(("Char8::try_from(char)", answer(Char8::try_from(character))));
                to.push((
                    "Char16::try_from(char)",
                    answer(Char16::try_from(character)),
                ));
                to.push((
                    "Char16::try_from_char",
                    answer(Char16::try_from_char(character)),
                ));
                to.push((
                    "Char16::try_from(u16)",
                    answer(Char16::try_from(input.unit)),
                ));
                let shown = format!(
                    "{latin} {latin:?} {latin:<3} {} {} {}",
                    latin == character,
                    char::from(latin),
                    u8::from(latin)
                );
                to.push(("Char8", shown));
                if let Ok(it) = Char16::try_from(input.unit) {
                    let shown = format!(
                        "{it} {it:?} {it:>3} {} {} {}",
                        it == character,
                        char::from(it),
                        u16::from(it)
                    );
                    to.push(("Char16", shown + if it.is_ascii() { "ASCII" } else { "" }));
                }
            }

            pub fn latin(to: &mut Vec<Answer>, input: &Input) {
                let string = CStr8::from_bytes_with_nul(&input.bytes);
                to.push((
                    "CStr8::from_bytes_with_nul",
                    answer(string.map(CStr8::as_bytes)),
                ));
                let terminated: Vec<u8> = input
                    .bytes
                    .iter()
                    .copied()
                    .filter(|it| *it != 0)
                    .chain([0])
                    .collect();
                let string: &CStr8 = std::ffi::CStr::from_bytes_with_nul(&terminated)
                    .unwrap()
                    .try_into()
                    .unwrap();
                to.push((
                    "CStr8",
                    format!("{string} {string:-^3} {:?}", string.as_bytes()),
                ));
                to.push((
                    "CStr8 == str",
                    format!(
                        "{} {}",
                        string.eq_str_until_nul(&input.text),
                        input.text.eq_str_until_nul(string)
                    ),
                ));
                to.push(("Debug of CStr8", format!("{string:?}")));
            }

            pub fn strings(to: &mut Vec<Answer>, input: &Input) {
                let until = CStr16::from_u16_until_nul(&input.units);
                to.push((
                    "CStr16::from_u16_until_nul",
                    answer(until.map(CStr16::to_u16_slice_with_nul)),
                ));
                let with = CStr16::from_u16_with_nul(&input.units);
                to.push((
                    "CStr16::from_u16_with_nul",
                    answer(with.map(CStr16::to_u16_slice_with_nul)),
                ));
                let chars: Vec<_> = input
                    .units
                    .iter()
                    .flat_map(|it| Char16::try_from(*it))
                    .collect();
                let until = CStr16::from_char16_until_nul(&chars);
                to.push((
                    "CStr16::from_char16_until_nul",
                    answer(until.map(CStr16::to_u16_slice_with_nul)),
                ));
                let with = CStr16::from_char16_with_nul(&chars);
                to.push((
                    "CStr16::from_char16_with_nul",
                    answer(with.map(CStr16::to_u16_slice_with_nul)),
                ));
                let mut buffer = vec![9; input.room];
                let written = answer(
                    CStr16::from_str_with_buf(&input.text, &mut buffer)
                        .map(CStr16::to_u16_slice_with_nul),
                );
                to.push(("CStr16::from_str_with_buf", format!("{written} {buffer:?}")));
                // Bytes at an even or an odd address.
                let words: Vec<u16> = [0].into_iter().chain(input.units.iter().copied()).collect();
                // SAFETY: the bytes of units.
                let bytes = unsafe {
                    std::slice::from_raw_parts(words.as_ptr().cast::<u8>(), 2 * words.len())
                };
                let (start, end) = (2 - input.room % 3 / 2, bytes.len() - input.room % 2);
                let part = CStr16::from_bytes_with_nul(&bytes[start.min(end)..end]);
                to.push((
                    "CStr16::from_bytes_with_nul",
                    answer(part.map(CStr16::to_u16_slice_with_nul)),
                ));
                // SAFETY: there are so many units.
                let slice = unsafe {
                    UnalignedSlice::<u16>::new(bytes[start..].as_ptr().cast(), input.units.len())
                };
                let mut buffer = vec![MaybeUninit::new(9); input.room];
                let read = answer(
                    slice
                        .to_cstr16(&mut buffer)
                        .map(CStr16::to_u16_slice_with_nul),
                );
                // SAFETY: all were initialized.
                let buffer: Vec<u16> = buffer
                    .iter()
                    .map(|it| unsafe { it.assume_init() })
                    .collect();
                to.push(("UnalignedSlice::to_cstr16", format!("{read} {buffer:?}")));
                to.push((
                    "UnalignedSlice::to_cstring16",
                    answer(
                        slice
                            .to_cstring16()
                            .map(|it| it.to_u16_slice_with_nul().to_vec()),
                    ),
                ));
                let items = format!(
                    "{:?} {:?} {:?} {slice:?}",
                    slice.get(input.room),
                    slice.iter().collect::<Vec<_>>(),
                    slice.to_vec()
                );
                to.push(("UnalignedSlice", items));
                let mut copy = vec![9; input.room];
                to.push((
                    "UnalignedSlice::copy_to",
                    caught(|| slice.copy_to(&mut copy)),
                ));
                to.push((
                    "UnalignedSlice::size_hint",
                    format!("{:?}", slice.into_iter().size_hint()),
                ));
            }

            pub fn views(to: &mut Vec<Answer>, input: &Input) {
                let string = CStr16::from_u16_with_nul(&input.string).unwrap();
                let other = CStr16::from_u16_with_nul(&input.other).unwrap();
                to.push((
                    "CStr16 as text",
                    format!(
                        "{string} {string:>2} {string:-<3.1} {}",
                        String::from(string)
                    ),
                ));
                let parts = (
                    units(string.as_slice()),
                    units(string.as_slice_with_nul()),
                    string.to_u16_slice(),
                    string.as_bytes(),
                );
                to.push((
                    "CStr16 in parts",
                    format!("{parts:?} {:?}", string.iter().collect::<Vec<_>>()),
                ));
                let numbers = (
                    string.num_chars(),
                    string.num_bytes(),
                    string.is_empty(),
                    string.is_ascii(),
                );
                to.push(("CStr16 in numbers", format!("{numbers:?}")));
                to.push((
                    "CStr16::cmp",
                    format!("{:?} {:?}", string.cmp(other), string == other),
                ));
                let mut small = Small(String::new(), input.room);
                let written = string.as_str_in_buf(&mut small);
                to.push(("CStr16::as_str_in_buf", format!("{written:?} {}", small.0)));
                let equal = (
                    string.eq_str_until_nul(&input.other_text),
                    input.other_text.eq_str_until_nul(string),
                );
                to.push(("CStr16 == str", format!("{equal:?}")));
                to.push((
                    "CStr16Iter::size_hint",
                    format!("{:?}", string.iter().size_hint()),
                ));
                to.push(("Debug of CStr16", format!("{string:?}")));
            }

            pub fn owned(to: &mut Vec<Answer>, input: &Input) {
                let made = CString16::try_from(input.text.as_str());
                to.push((
                    "CString16::try_from(str)",
                    answer(made.map(|it| it.to_u16_slice_with_nul().to_vec())),
                ));
                let made = CString16::try_from(input.units.clone());
                to.push((
                    "CString16::try_from(Vec)",
                    answer(made.map(|it| it.to_u16_slice_with_nul().to_vec())),
                ));
                let other = CStr16::from_u16_with_nul(&input.other).unwrap();
                let mut string = CString16::try_from(input.string.clone()).unwrap();
                to.push((
                    "CString16 == CStr16",
                    format!("{} {}", string == other, other == string),
                ));
                let character = Char16::try_from(input.unit).unwrap_or_default();
                to.push((
                    "CString16::push",
                    caught(|| string.push(character)) + &string.to_string(),
                ));
                string.push_str(other);
                to.push((
                    "CString16::push_str",
                    format!("{string} {}", string.num_chars()),
                ));
                let search = string.as_slice_with_nul()[0];
                to.push((
                    "CString16::replace_char",
                    caught(|| string.replace_char(search, character)) + &string.to_string(),
                ));
                let equal = (
                    string.eq_str_until_nul(&input.other_text),
                    input.other_text.eq_str_until_nul(&string),
                );
                to.push(("CString16 == str", format!("{equal:?}")));
                string.extend(other.as_slice());
                to.push((
                    "CString16::extend",
                    format!("{string} {}", String::from(&string)),
                ));
                to.push((
                    "CString16::clone",
                    format!(
                        "{} {:?}",
                        string.clone() == string,
                        string.clone().cmp(&other.to_owned())
                    ),
                ));
                string.clear();
                to.push((
                    "CString16::clear",
                    format!("{:?} {}", string.to_u16_slice_with_nul(), string.is_empty()),
                ));
                to.push(("Debug of CString16", format!("{string:?}")));
            }

            pub fn paths(to: &mut Vec<Answer>, input: &Input) {
                let string = CStr16::from_u16_with_nul(&input.string).unwrap();
                let other = CStr16::from_u16_with_nul(&input.other).unwrap();
                let (path, second) = (Path::new(string), Path::new(other));
                let components = path.components().map(|it| units(&it)).collect::<Vec<_>>();
                to.push(("Path::components", format!("{components:?}")));
                to.push((
                    "Path as text",
                    format!(
                        "{path} {path:<2} {:?} {}",
                        path.to_cstr16().to_u16_slice(),
                        path.is_empty()
                    ),
                ));
                to.push(("Path::eq", format!("{}", path == second)));
                to.push(("Path::cmp", format!("{:?}", path.cmp(second))));
                to.push((
                    "Path::parent",
                    format!("{:?}", path.parent().map(|it| it.to_string())),
                ));
                to.push(("Path::to_path_buf", path.to_path_buf().to_string()));
                to.push(("Path::join", path.join(second).to_string()));
                let mut owned = PathBuf::from(string);
                to.push((
                    "PathBuf::eq",
                    format!(
                        "{} {}",
                        owned == PathBuf::from(other),
                        owned == PathBuf::from(CString16::from(string))
                    ),
                ));
                to.push((
                    "PathBuf::cmp",
                    format!("{:?}", owned.cmp(&PathBuf::from(other))),
                ));
                owned.push(second);
                to.push(("PathBuf::push", owned.to_string()));
                owned.clear();
                to.push(("PathBuf::clear", format!("{owned} {}", owned.is_empty())));
                to.push(("validate_path", answer($name::fs::validate_path(path))));
                to.push((
                    "Components::size_hint",
                    format!("{:?}", path.components().size_hint()),
                ));
                to.push(("Debug of Path", format!("{path:?}")));
                to.push(("Debug of PathBuf", format!("{:?}", path.to_path_buf())));
            }

            pub fn all(input: &Input) -> Vec<Answer> {
                let mut answers = Vec::new();
                for call in [characters, latin, strings, views, owned, paths] {
                    call(&mut answers, input);
                }
                answers
            }
        }
    };
}
answers_of!(nardcorbel);
answers_of!(uefi);

/// Returns whether README.md says that the answers to a call differ.
fn differ(call: &str, input: &Input) -> bool {
    let text = |units: &[u16]| String::from_utf16(&units[..units.len() - 1]).unwrap();
    let slashes = |units: &[u16]| text(units).replace('/', "\\");
    let [string, other] = [&input.string, &input.other].map(|it| text(it));
    let order = |one: &str, two: &str| {
        let canonical = |it: &str| {
            it.strip_prefix('\\')
                .unwrap_or(it)
                .encode_utf16()
                .collect::<Vec<_>>()
        };
        let raw = |it: &str| it.encode_utf16().collect::<Vec<_>>();
        canonical(one).cmp(&canonical(two)) != raw(one).cmp(&raw(two))
    };
    let joined = slashes(&input.string).ends_with('\\') && !other.is_empty();
    match call {
        "Path::cmp" => order(&string, &other),
        "PathBuf::cmp" => order(&slashes(&input.string), &slashes(&input.other)),
        "Path::join" | "PathBuf::push" => joined,
        // One component after a separator.
        "Path::parent" => {
            string.starts_with('\\') && string.len() > 1 && !string[1..].contains('\\')
        }
        "validate_path" => climbs(&string),
        _ => call.starts_with("Debug of") || call.ends_with("size_hint"),
    }
}

/// Returns whether a path that names a file otherwise leads above the root.
fn climbs(path: &str) -> bool {
    let canonical = path.strip_prefix('\\').unwrap_or(path);
    let (mut depth, mut lowest) = (0, 0);
    for component in canonical.split('\\') {
        // The first fault decides.
        if component.is_empty() || component.contains([':', '>', '/']) {
            break;
        }
        depth += match component {
            "." => 0,
            ".." => -1,
            _ => 1,
        };
        lowest = lowest.min(depth);
    }
    lowest < 0
}

fn main() {
    let (mut random, mut compared, mut different) =
        (Random(0x6e61_7264), BTreeMap::new(), BTreeMap::new());
    let mut failed = 0;
    for _ in 0..TURNS {
        let input = random.input();
        let (ours, theirs) = (nardcorbel::all(&input), uefi::all(&input));
        assert_eq!(ours.len(), theirs.len());
        for ((call, one), (_, two)) in ours.into_iter().zip(theirs) {
            let known = differ(call, &input);
            if (one != two) != known {
                let Input {
                    text,
                    other_text,
                    units,
                    string,
                    other,
                    bytes,
                    room,
                    ..
                } = &input;
                eprintln!(
                    "{call}: '{one}', and '{two}' by uefi, although {}",
                    if known {
                        "README has a row"
                    } else {
                        "README has no row"
                    }
                );
                eprintln!("text {text:?} {other_text:?}, units {units:x?}, strings {string:x?} {other:x?}, bytes {bytes:x?}, room {room}");
                std::process::exit(1);
            }
            *compared.entry(call).or_insert(0) += 1;
            failed += u64::from(two.starts_with("fails: "));
            *different.entry(call).or_insert(0) += u64::from(known);
        }
    }
    let total: u64 = compared.values().sum();
    different.retain(|_, count| *count > 0);
    let rows: Vec<String> = different
        .iter()
        .map(|(call, count)| format!("{call} {count}"))
        .collect();
    println!(
        "{total} answers of {} calls, {failed} of them errors; those differ that README names: {}",
        compared.len(),
        rows.join(", ")
    );
    // Each row is seen.
    assert_eq!(different.len(), 14, "{different:?}");
}
