//! Readers of device paths and load options, a judge of paths, a maker of normal paths and a push, in plain Rust, as one would
//! write them without this library: each length is tested before it is used.
use crate::inputs::Inputs;

fn number(bytes: &[u8], at: usize) -> Option<usize> {
    Some(usize::from(u16::from_le_bytes([
        *bytes.get(at)?,
        *bytes.get(at + 1)?,
    ])))
}

/// How many bytes of data the nodes have that bytes begin with, up to one that ends a path, and the bytes after that.
fn path_data(bytes: &[u8]) -> Option<(usize, &[u8])> {
    let (mut total, mut rest) = (0usize, bytes);
    loop {
        let (kind, sub_type, length) = (*rest.first()?, *rest.get(1)?, number(rest, 2)?);
        if length < 4 || rest.len() < length {
            return None;
        }
        let after = &rest[length..];
        match (kind, sub_type, length) {
            (0x7f, 0xff, 4) => return Some((total, after)),
            (0x7f, 0x01, 4) => {}
            (0x7f, ..) => return None,
            _ => total += length - 4,
        }
        rest = after;
    }
}

#[inline(never)]
fn device_path_data(bytes: &[u8]) -> usize {
    path_data(bytes).map_or(1, |(total, _)| total)
}

fn option_data(bytes: &[u8]) -> Option<usize> {
    let length = number(bytes, 4)?;
    let described = bytes.get(6..)?;
    let units = described.chunks_exact(2).position(|unit| unit == [0, 0])? + 1;
    let mut list = described[2 * units..].get(..length)?;
    let mut total = units;
    while !list.is_empty() {
        let (data, rest) = path_data(list)?;
        total += data;
        list = rest;
    }
    (length != 0).then_some(total)
}

#[inline(never)]
fn load_option_data(bytes: &[u8]) -> usize {
    option_data(bytes).unwrap_or(1)
}

const SEPARATOR: u16 = b'\\' as u16;
const SLASH: u16 = b'/' as u16;
const DOT: u16 = b'.' as u16;

/// The characters that no file's name holds.
const DENIED: [bool; 128] = {
    let (list, mut denied, mut k) = (b"\0\"*/:<>?\\|", [false; 128], 0);
    while k < list.len() {
        denied[list[k] as usize] = true;
        k += 1;
    }
    denied
};

/// Why a path is refused.
enum Fault {
    Empty,
    EmptyComponent,
    IllegalChar(u16),
    ClimbsAboveRoot,
}

/// The pieces between the separators, without one leading separator. The empty text has none.
fn components(units: &[u16]) -> impl Iterator<Item = &[u16]> {
    let text = units.strip_prefix(&[SEPARATOR]).unwrap_or(units);
    let most = if text.is_empty() { 0 } else { usize::MAX };
    text.split(|unit| *unit == SEPARATOR).take(most)
}

/// The fault of a name, if it has one.
fn check_name(name: &[u16]) -> Result<(), Fault> {
    let is_denied = |unit: &u16| DENIED.get(usize::from(*unit)) == Some(&true);
    match name.iter().copied().find(is_denied) {
        Some(unit) => Err(Fault::IllegalChar(unit)),
        None if name.is_empty() => Err(Fault::EmptyComponent),
        None => Ok(()),
    }
}

fn check(units: &[u16]) -> Result<(), Fault> {
    if units.is_empty() {
        return Err(Fault::Empty);
    }
    let mut depth = 0usize;
    for component in components(units) {
        match component {
            [DOT] => {}
            [DOT, DOT] => depth = depth.checked_sub(1).ok_or(Fault::ClimbsAboveRoot)?,
            name => {
                check_name(name)?;
                depth += 1;
            }
        }
    }
    Ok(())
}

/// The normal path, in one pass and one piece of memory.
fn normal(units: &[u16]) -> Result<Vec<u16>, Fault> {
    if units.is_empty() {
        return Err(Fault::Empty);
    }
    let mut normal = Vec::with_capacity(units.len() + 1);
    for component in components(units) {
        match component {
            [DOT] => {}
            [DOT, DOT] if normal.is_empty() => return Err(Fault::ClimbsAboveRoot),
            [DOT, DOT] => {
                let cut = normal.iter().rposition(|unit| *unit == SEPARATOR);
                normal.truncate(cut.unwrap_or(0));
            }
            name => {
                check_name(name)?;
                if !normal.is_empty() {
                    normal.push(SEPARATOR);
                }
                normal.extend_from_slice(name);
            }
        }
    }
    if normal.is_empty() {
        normal.push(SEPARATOR);
    }
    normal.push(0);
    Ok(normal)
}

/// What a fault counts as, so that no side can leave out which one it is.
fn number_of(fault: &Fault) -> usize {
    match fault {
        Fault::Empty => 2,
        Fault::EmptyComponent => 4,
        Fault::IllegalChar(unit) => usize::from(*unit),
        Fault::ClimbsAboveRoot => 6,
    }
}

#[inline(never)]
fn fault_of(units: &[u16]) -> usize {
    check(units).map_or_else(|fault| number_of(&fault), |()| 1)
}

#[inline(never)]
fn normal_len(units: &[u16]) -> usize {
    normal(units).map_or_else(|fault| number_of(&fault), |path| path.len() - 1)
}

fn repeat(rounds: usize, mut call: impl FnMut(usize) -> usize) -> usize {
    let mut total = 0usize;
    for _ in 0..rounds {
        total = total.wrapping_add(call(total % 2));
    }
    total
}

pub fn device_path(inputs: &mut Inputs, rounds: usize) -> usize {
    repeat(rounds, |k| device_path_data(&inputs.device_paths[k]))
}

pub fn load_option(inputs: &mut Inputs, rounds: usize) -> usize {
    repeat(rounds, |k| load_option_data(&inputs.load_options[k]))
}

/// The units of an input without the NUL.
fn text(inputs: &Inputs, k: usize) -> &[u16] {
    let units = &inputs.units[k];
    &units[..units.len() - 1]
}

pub fn validate(inputs: &mut Inputs, rounds: usize) -> usize {
    repeat(rounds, |k| fault_of(text(inputs, k)))
}

pub fn normalize(inputs: &mut Inputs, rounds: usize) -> usize {
    repeat(rounds, |k| normal_len(text(inputs, k)))
}

/// Adds a path to a text, each slash replaced, after a separator where the text needs one.
#[inline(never)]
fn push(text: &mut Vec<u16>, part: &[u16]) -> usize {
    if !part.is_empty() && text.last().is_some_and(|unit| *unit != SEPARATOR) {
        text.push(SEPARATOR);
    }
    let replaced = |unit: &u16| if *unit == SLASH { SEPARATOR } else { *unit };
    text.extend(part.iter().map(replaced));
    1
}

pub fn path_push(inputs: &mut Inputs, rounds: usize) -> usize {
    let (part, mut path, mut total) = (text(inputs, 0), Vec::new(), 0);
    for _ in 0..rounds {
        path.clear();
        for _ in 0..crate::calls::PUSHES {
            total += push(&mut path, part);
        }
    }
    total + path.len()
}
