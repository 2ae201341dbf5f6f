//! Calls the library from Rust, as a firmware program does that is built only with `rustc`: the functions of
//! `include/nardcorbel.h`, each in a safe wrapper of a few lines.
//!
//! Build, at the top of the repository: `rustc examples/paths.rs -L crates/nardcorbel/out/firmware/x86_64-linux-gnu -l static=nardcorbel`.

use std::ops::Range;
use std::ptr;

/// The declarations of `include/nardcorbel.h` that this program calls.
mod header {
    extern "C" {
        pub fn nard_string_from_utf8(
            text: *const u8,
            text_size: usize,
            buffer: *mut u16,
            capacity: usize,
            length: *mut usize,
            fault: *mut usize,
        ) -> u32;
        pub fn nard_path_check(
            path: *const u16,
            path_length: usize,
            length: *mut usize,
            fault: *mut usize,
            character: *mut u16,
        ) -> u32;
        pub fn nard_path_equal(
            first: *const u16,
            first_length: usize,
            second: *const u16,
            second_length: usize,
        ) -> bool;
        pub fn nard_path_next_component(
            path: *const u16,
            path_length: usize,
            place: *mut usize,
            start: *mut usize,
            component_length: *mut usize,
        ) -> bool;
        pub fn nard_path_parent_length(
            path: *const u16,
            path_length: usize,
            parent_length: *mut usize,
        ) -> bool;
        pub fn nard_path_push(
            buffer: *mut u16,
            capacity: usize,
            path_length: usize,
            other: *const u16,
            other_length: usize,
            length: *mut usize,
            fault: *mut usize,
        ) -> u32;
        pub fn nard_path_join(
            path: *const u16,
            path_length: usize,
            other: *const u16,
            other_length: usize,
            buffer: *mut u16,
            capacity: usize,
            length: *mut usize,
            fault: *mut usize,
        ) -> u32;
        pub fn nard_path_parent(
            path: *const u16,
            path_length: usize,
            buffer: *mut u16,
            capacity: usize,
            length: *mut usize,
            fault: *mut usize,
        ) -> u32;
        pub fn nard_path_normalize_utf16(
            path: *const u16,
            path_length: usize,
            buffer: *mut u16,
            capacity: usize,
            length: *mut usize,
            fault: *mut usize,
            character: *mut u16,
        ) -> u32;
    }
}

/// Why a call fails: the number of its `nard_status`.
struct Status(u32);

/// Writes a text and a NUL into a buffer, and returns the string.
fn string_in<'a>(text: &str, buffer: &'a mut [u16]) -> Result<&'a [u16], Status> {
    let mut len = 0;
    // SAFETY: both slices are passed with their lengths, and neither overlaps `len`.
    let status = unsafe {
        header::nard_string_from_utf8(
            text.as_ptr(),
            text.len(),
            buffer.as_mut_ptr(),
            buffer.len(),
            &mut len,
            ptr::null_mut(),
        )
    };
    match status {
        0 => Ok(&buffer[..len + 1]),
        _ => Err(Status(status)),
    }
}

/// The text of a string whose path names a file.
fn valid_text(string: &[u16]) -> Result<&[u16], Status> {
    let mut len = 0;
    // SAFETY: the slice is passed with its length.
    let status = unsafe {
        header::nard_path_check(
            string.as_ptr(),
            string.len(),
            &mut len,
            ptr::null_mut(),
            ptr::null_mut(),
        )
    };
    match status {
        0 => Ok(&string[..len]),
        _ => Err(Status(status)),
    }
}

/// Returns whether two strings are equal as paths.
fn are_equal(first: &[u16], second: &[u16]) -> bool {
    // SAFETY: each slice is passed with its length.
    unsafe { header::nard_path_equal(first.as_ptr(), first.len(), second.as_ptr(), second.len()) }
}

/// The text of all components but the last.
fn parent(text: &[u16]) -> Option<&[u16]> {
    let mut len = 0;
    // SAFETY: the slice is passed with its length.
    let has_parent =
        unsafe { header::nard_path_parent_length(text.as_ptr(), text.len(), &mut len) };
    has_parent.then(|| &text[..len])
}

/// Returns the range of the next component of a text from a place on, if there is one, and moves the place on.
fn next_component(text: &[u16], place: &mut usize) -> Option<Range<usize>> {
    let (mut start, mut len) = (0, 0);
    // SAFETY: the slice is passed with its length, and nothing overlaps.
    let is_there = unsafe {
        header::nard_path_next_component(text.as_ptr(), text.len(), place, &mut start, &mut len)
    };
    is_there.then(|| start..start + len)
}

/// The components of a text, in order.
struct Components<'a> {
    text: &'a [u16],
    place: usize,
}

impl<'a> Iterator for Components<'a> {
    type Item = &'a [u16];

    fn next(&mut self) -> Option<&'a [u16]> {
        next_component(self.text, &mut self.place).map(|places| &self.text[places])
    }
}

/// Writes the path of two strings to a buffer. If the buffer is too small, returns the number of units of the path.
fn join<'a>(first: &[u16], second: &[u16], buffer: &'a mut [u16]) -> Result<&'a [u16], usize> {
    let mut len = 0;
    // SAFETY: each slice is passed with its length, and nothing overlaps.
    let status = unsafe {
        header::nard_path_join(
            first.as_ptr(),
            first.len(),
            second.as_ptr(),
            second.len(),
            buffer.as_mut_ptr(),
            buffer.len(),
            &mut len,
            ptr::null_mut(),
        )
    };
    match status {
        0 => Ok(&buffer[..len]),
        _ => Err(len),
    }
}

/// Pushes a string onto the path in the first `path_len` units of a buffer. If the buffer is too small, returns the number of units
/// of both.
fn push<'a>(buffer: &'a mut [u16], path_len: usize, path: &[u16]) -> Result<&'a [u16], usize> {
    let mut len = 0;
    // SAFETY: each slice is passed with its length, and nothing overlaps.
    let status = unsafe {
        header::nard_path_push(
            buffer.as_mut_ptr(),
            buffer.len(),
            path_len,
            path.as_ptr(),
            path.len(),
            &mut len,
            ptr::null_mut(),
        )
    };
    match status {
        0 => Ok(&buffer[..len]),
        _ => Err(len),
    }
}

/// Writes the parent of a string's path to a buffer, with each slash replaced, and returns its number of units, if there is one.
fn parent_in<'a>(path: &[u16], buffer: &'a mut [u16]) -> (Result<&'a [u16], Status>, usize) {
    let mut len = 0;
    // SAFETY: each slice is passed with its length, and nothing overlaps.
    let status = unsafe {
        header::nard_path_parent(
            path.as_ptr(),
            path.len(),
            buffer.as_mut_ptr(),
            buffer.len(),
            &mut len,
            ptr::null_mut(),
        )
    };
    match status {
        0 => (Ok(&buffer[..len]), len),
        _ => (Err(Status(status)), len),
    }
}

/// Writes the normal path of a string's path to a buffer; or returns why there is none, with the number of units that it has if the buffer is too small, and the character.
fn normal_in<'a>(path: &[u16], buffer: &'a mut [u16]) -> Result<&'a [u16], (Status, usize, u16)> {
    let (mut len, mut character) = (0, 0);
    // SAFETY: each slice is passed with its length, and nothing overlaps.
    let status = unsafe {
        header::nard_path_normalize_utf16(
            path.as_ptr(),
            path.len(),
            buffer.as_mut_ptr(),
            buffer.len(),
            &mut len,
            ptr::null_mut(),
            &mut character,
        )
    };
    match status {
        0 => Ok(&buffer[..len]),
        _ => Err((Status(status), len, character)),
    }
}

fn shown(text: &[u16]) -> String {
    String::from_utf16_lossy(text)
}

fn print_path(text: &str) -> Result<(), Status> {
    let mut buffer = [0; 64];
    let string = string_in(text, &mut buffer)?;
    let path = valid_text(string)?;
    println!("{}", shown(path));
    for component in (Components {
        text: path,
        place: 0,
    }) {
        println!("  component {}", shown(component));
    }
    let mut below = path;
    while let Some(above) = parent(below) {
        println!("  parent {}", shown(above));
        below = above;
    }
    let mut other = [0; 64];
    let relative = string_in(text.trim_start_matches('\\'), &mut other)?;
    println!(
        "  equal without its first separator: {}",
        are_equal(string, relative)
    );
    Ok(())
}

/// Prints the ranges of the components of a text, each with the place at which the next call continues, and the
/// number of units of its parent.
fn print_places(text: &str) {
    let units: Vec<u16> = text.encode_utf16().collect();
    let mut place = 0;
    let mut shown = String::new();
    while let Some(component) = next_component(&units, &mut place) {
        shown += &format!(" {component:?} then {place},");
    }
    match parent(&units) {
        Some(parent) => println!(
            "{text} has components at{shown} and a parent of {}",
            parent.len()
        ),
        None => println!("{text} has components at{shown} and no parent"),
    }
}

fn print_joined(first: &str, second: &str) -> Result<(), Status> {
    let (mut one, mut two) = ([0; 16], [0; 16]);
    let (first, second) = (string_in(first, &mut one)?, string_in(second, &mut two)?);
    let mut buffer = [0; 12];
    let len = match join(first, second, &mut buffer) {
        Ok(path) => {
            println!("joined {}", shown(path));
            path.len()
        }
        Err(len) => {
            println!("joined they have {len} units, which is too many");
            0
        }
    };
    match push(&mut buffer, len, second) {
        Ok(path) => println!("  and once more {}", shown(path)),
        Err(len) => println!("  and once more {len} units, which is too many"),
    }
    Ok(())
}

fn print_parent(text: &str) -> Result<(), Status> {
    let mut one = [0; 16];
    let path = string_in(text, &mut one)?;
    let mut buffer = [0; 9];
    match parent_in(path, &mut buffer) {
        (Ok(parent), len) => println!("{text} has the parent {}, {len} units", shown(parent)),
        (Err(Status(number)), len) => println!("{text} has none: {number}, {len} units"),
    }
    Ok(())
}

fn print_normal(text: &str) -> Result<(), Status> {
    let mut one = [0; 24];
    let path = string_in(text, &mut one)?;
    let mut buffer = [u16::from(b'!'); 8];
    match normal_in(path, &mut buffer) {
        Ok(normal) => println!("{text} leads to {}", shown(normal)),
        Err((Status(number), len, character)) => {
            println!("{text} leads to none: {number}, {len} units, {character}")
        }
    }
    println!("  {}", shown(&buffer).replace('\0', "|"));
    Ok(())
}

fn main() {
    let long = "\\a".repeat(40);
    let texts = [
        "\\EFI\\BOOT\\BOOTX64.EFI",
        "kernel",
        "\\",
        "",
        "a\\\\b",
        "a:b",
        "..\\a",
        "a\u{1f600}",
        &long,
    ];
    for text in texts {
        if let Err(Status(number)) = print_path(text) {
            println!("{text:?} is refused: {number}");
        }
    }
    for text in [
        "", "\\", "kernel", "\\\\", "\\\\a", "\\\\\\a", "a\\b\\a", "a\\\\b", "\\a\\",
    ] {
        print_places(text);
    }
    let pairs = [
        ("/efi", "a/b"),
        ("\\", "a"),
        ("a\\", ""),
        ("", "b"),
        ("\\efi\\boot", "abc"),
    ];
    for (first, second) in pairs {
        if let Err(Status(number)) = print_joined(first, second) {
            println!("{first:?} and {second:?} are refused: {number}");
        }
    }
    for text in [
        "\\efi/boot\\x",
        "a\\\\b",
        "\\\\b",
        "kernel",
        "\\efi\\boot2\\x",
    ] {
        if let Err(Status(number)) = print_parent(text) {
            println!("{text:?} is refused: {number}");
        }
    }
    for text in [
        "\\efi\\.\\boot\\..\\x",
        "a\\..\\.",
        "a\\b\\..\\..\\efgh\\i",
        "a\\b\\..\\..\\efgh\\ij",
        "a\\b\\..\\..\\efgh\\ijk",
        "a\\..\\..\\b",
        "a\\b*\\..",
        "",
        "a\\\\b",
    ] {
        if let Err(Status(number)) = print_normal(text) {
            println!("{text:?} is refused: {number}");
        }
    }
}
