//! Compares the crate's own Rust code with the calls of the library that do the same, for all short texts of some characters.

use crate::data_types::{CStr16, EqStrUntilNul};
#[cfg(feature = "alloc")]
use crate::fs::PathBuf;
use crate::fs::{validate_path, Path};
use crate::sys;
use std::string::String;
use std::vec::Vec;

/// Returns all texts of up to four of the characters, as units with a NUL and as Rust strings.
fn texts() -> Vec<(Vec<u16>, String)> {
    let (mut texts, mut start) = (std::vec![String::new()], 0);
    for _ in 0..4 {
        let end = texts.len();
        for index in start..end {
            for character in ['\\', 'a', '.', '\u{e9}'] {
                let text = texts[index].chars().chain([character]).collect();
                texts.push(text);
            }
        }
        start = end;
    }
    let units = |text: &String| text.encode_utf16().chain([0]).collect();
    texts.into_iter().map(|it| (units(&it), it)).collect()
}

/// The components that the library finds.
fn components(text: &[u16]) -> Vec<&[u16]> {
    let (mut place, mut found) = (0, Vec::new());
    let (mut start, mut length) = (0, 0);
    while sys::nard_path_next_component(text, &mut place, &mut start, &mut length) {
        found.push(&text[start..start + length]);
    }
    found
}

#[test]
fn each_text() {
    for (units, text) in &texts() {
        let string = CStr16::from_u16_with_nul(units).unwrap();
        let path = Path::new(string);
        assert_eq!(string.is_ascii(), sys::nard_string_is_ascii(units));
        assert_eq!(string, &**text);
        let parts = path
            .components()
            .map(|it| crate::data_types::strs::units_of(it.as_slice()));
        assert_eq!(
            parts.collect::<Vec<_>>(),
            components(string.to_u16_slice()),
            "{text}"
        );
        let mut back: Vec<_> = path.iter().rev().collect();
        back.reverse();
        assert_eq!(back, path.iter().collect::<Vec<_>>(), "{text}");
        assert_eq!(path.validate().is_ok(), validate_path(path).is_ok());
    }
}

#[cfg(feature = "alloc")]
#[test]
fn a_failed_push_changes_nothing() {
    // No safe call makes such a string.
    let wrong = Path::new(CStr16::of(&[0xd800, 0]));
    let mut path: PathBuf = "a".parse().unwrap();
    let pushed = std::panic::catch_unwind(std::panic::AssertUnwindSafe(|| path.push(wrong)));
    assert!(pushed.is_err() && path.to_cstr16().to_u16_slice_with_nul() == [0x61, 0]);
}

#[test]
fn each_pair() {
    let texts = texts();
    for (units, text) in &texts {
        let string = CStr16::from_u16_with_nul(units).unwrap();
        for (other_units, other_text) in &texts {
            let other = CStr16::from_u16_with_nul(other_units).unwrap();
            let (path, other_path) = (Path::new(string), Path::new(other));
            assert_eq!(string == other, sys::nard_string_equal(units, other_units));
            assert_eq!(
                string.cmp(other) as i32,
                sys::nard_string_compare(units, other_units)
            );
            let bytes = other_text.as_bytes();
            let until_nul = sys::nard_string_equal_until_nul(units, bytes);
            assert_eq!(string.eq_str_until_nul(other_text), until_nul);
            assert_eq!(
                path == other_path,
                sys::nard_path_equal(units, other_units),
                "{text} {other_text}"
            );
            assert_eq!(
                path.cmp(other_path) as i32,
                sys::nard_path_compare(units, other_units),
                "{text} {other_text}"
            );
            assert_eq!(
                *path == **other_text,
                path == other_path,
                "{text} {other_text}"
            );
        }
    }
}
