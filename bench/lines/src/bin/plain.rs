//! What `upath_cli` prints, by the standard library alone: `docs/PROGRAMS.md` has the lines. Written for speed: units go straight
//! into one output buffer, and no line allocates.
use std::cmp::Ordering;
use std::fmt::{self, Display};
use std::io::{self, BufRead, Write};
use std::process::ExitCode;

const SEPARATOR: u16 = b'\\' as u16;
const SLASH: u16 = b'/' as u16;
const DOT: u16 = b'.' as u16;
/// How much is read, and printed, at a time.
const ROOM: usize = 1 << 16;
const DENIED: &[u8] = b"\"*/:<>?|";

enum TextError {
    InvalidChar,
    InteriorNul,
}

impl Display for TextError {
    fn fmt(&self, f: &mut fmt::Formatter<'_>) -> fmt::Result {
        f.write_str(match self {
            TextError::InvalidChar => "UCS-2 Conversion Error: Invalid character",
            TextError::InteriorNul => "UCS-2 Conversion Error: Interior null terminator",
        })
    }
}

enum PathError {
    Empty,
    EmptyComponent,
    IllegalChar(u16),
    ClimbsAboveRoot,
}

impl Display for PathError {
    fn fmt(&self, f: &mut fmt::Formatter<'_>) -> fmt::Result {
        match self {
            PathError::Empty => f.write_str("path is empty"),
            PathError::EmptyComponent => f.write_str("path contains an empty component"),
            PathError::IllegalChar(unit) => {
                write!(f, "path contains an illegal character (value {unit})")
            }
            PathError::ClimbsAboveRoot => f.write_str("path climbs above the root"),
        }
    }
}

/// The code units of a text of UCS-2, in place of what `units` held.
fn read_units(units: &mut Vec<u16>, text: &str) -> Result<(), TextError> {
    units.clear();
    if text.is_ascii() && !text.contains('\0') {
        units.extend(text.bytes().map(u16::from));
        return Ok(());
    }
    units.reserve(text.len());
    for character in text.chars() {
        match u16::try_from(u32::from(character)) {
            Ok(0) => return Err(TextError::InteriorNul),
            Ok(unit) => units.push(unit),
            Err(_) => return Err(TextError::InvalidChar),
        }
    }
    Ok(())
}

/// Adds the UTF-8 of units, which hold no surrogate: one to three bytes each.
fn add_units(output: &mut Vec<u8>, units: &[u16]) {
    if units.iter().all(|&unit| unit < 0x80) {
        output.extend(units.iter().map(|&unit| unit as u8));
        return;
    }
    output.reserve(3 * units.len());
    for &unit in units {
        match unit {
            ..0x80 => output.push(unit as u8),
            ..0x800 => output.extend([0xc0 | (unit >> 6) as u8, 0x80 | (unit & 63) as u8]),
            _ => output.extend([
                0xe0 | (unit >> 12) as u8,
                0x80 | (unit >> 6 & 63) as u8,
                0x80 | (unit & 63) as u8,
            ]),
        }
    }
}

/// Adds a line of a mark and units.
fn add_line(output: &mut Vec<u8>, mark: &[u8; 2], units: &[u16]) {
    output.extend(mark);
    add_units(output, units);
    output.push(b'\n');
}

fn replace_slashes(units: &mut [u16]) {
    for unit in units {
        if *unit == SLASH {
            *unit = SEPARATOR;
        }
    }
}

/// The text without one leading separator.
fn canonical(path: &[u16]) -> &[u16] {
    path.strip_prefix(&[SEPARATOR]).unwrap_or(path)
}

fn components(path: &[u16]) -> impl Iterator<Item = &[u16]> {
    let text = canonical(path);
    // Of the empty text `split` would give one empty component.
    let left = if text.is_empty() { 0 } else { usize::MAX };
    text.split(|&unit| unit == SEPARATOR).take(left)
}

fn push(path: &mut Vec<u16>, part: &[u16]) {
    if part.is_empty() {
        return;
    }
    if path.last().is_some_and(|&last| last != SEPARATOR) {
        path.push(SEPARATOR);
    }
    let start = path.len();
    path.extend_from_slice(part);
    replace_slashes(&mut path[start..]);
}

/// The components but the last, without the empty ones, in place of what `parent` held; after them
/// stands a separator where the last of those is empty. False where the path has none.
fn read_parent(parent: &mut Vec<u16>, path: &[u16]) -> bool {
    parent.clear();
    let text = canonical(path);
    let Some(end) = text.iter().rposition(|&unit| unit == SEPARATOR) else {
        return false;
    };
    let kept = &text[..end];
    let is_name = |name: &&[u16]| !name.is_empty();
    for name in kept.split(|&unit| unit == SEPARATOR).filter(is_name) {
        if !parent.is_empty() {
            parent.push(SEPARATOR);
        }
        parent.extend_from_slice(name);
    }
    if !parent.is_empty() && kept.ends_with(&[SEPARATOR]) {
        parent.push(SEPARATOR);
    }
    true
}

fn is_denied(unit: u16) -> bool {
    u8::try_from(unit).is_ok_and(|byte| DENIED.contains(&byte))
}

fn validate(path: &[u16]) -> Result<(), PathError> {
    if path.is_empty() {
        return Err(PathError::Empty);
    }
    let mut depth = 0usize;
    for component in components(path) {
        if component.is_empty() {
            return Err(PathError::EmptyComponent);
        }
        if let Some(&unit) = component.iter().find(|&&unit| is_denied(unit)) {
            return Err(PathError::IllegalChar(unit));
        }
        match component {
            [DOT] => {}
            [DOT, DOT] => depth = depth.checked_sub(1).ok_or(PathError::ClimbsAboveRoot)?,
            _ => depth += 1,
        }
    }
    Ok(())
}

/// The normal path, in place of what `normal` held.
fn read_normal(normal: &mut Vec<u16>, path: &[u16]) -> Result<(), PathError> {
    validate(path)?;
    normal.clear();
    for component in components(path) {
        match component {
            [DOT] => {}
            [DOT, DOT] => {
                let end = normal.iter().rposition(|&unit| unit == SEPARATOR);
                normal.truncate(end.unwrap_or(0));
            }
            _ => {
                if !normal.is_empty() {
                    normal.push(SEPARATOR);
                }
                normal.extend_from_slice(component);
            }
        }
    }
    if normal.is_empty() {
        normal.push(SEPARATOR);
    }
    Ok(())
}

/// The path between the lines, what is printed, and buffers that each line uses again.
#[derive(Default)]
struct Run {
    path: Vec<u16>,
    output: Vec<u8>,
    units: Vec<u16>,
    next: Vec<u16>,
    lines: Vec<u8>,
}

impl Run {
    fn add(&mut self, line: impl Display) {
        writeln!(self.output, "{line}").expect("a vector takes what is written");
    }

    fn add_path(&mut self) {
        add_line(&mut self.output, b"= ", &self.path);
    }

    fn add_parents(&mut self) {
        self.lines.clear();
        let mut count = 0;
        self.units.clone_from(&self.path);
        while read_parent(&mut self.next, &self.units) {
            add_line(&mut self.lines, b"| ", &self.next);
            std::mem::swap(&mut self.units, &mut self.next);
            count += 1;
        }
        self.add(format_args!("parents {count}"));
        self.output.append(&mut self.lines);
    }

    /// A verb with a text.
    fn run_text(&mut self, verb: &str, text: &str) {
        if !["from", "push", "join", "eq", "cmp"].contains(&verb) {
            return self.add("? unknown command");
        }
        if let Err(error) = read_units(&mut self.units, text) {
            return self.add(error);
        }
        match verb {
            "eq" if canonical(&self.path) == canonical(&self.units) => self.add("equal"),
            "eq" => self.add("different"),
            "cmp" => match canonical(&self.path).cmp(canonical(&self.units)) {
                Ordering::Less => self.add("less"),
                Ordering::Equal => self.add("equal"),
                Ordering::Greater => self.add("greater"),
            },
            "from" => {
                replace_slashes(&mut self.units);
                std::mem::swap(&mut self.path, &mut self.units);
                self.add_path();
            }
            _ => {
                push(&mut self.path, &self.units);
                self.add_path();
            }
        }
    }

    /// A verb without a text.
    fn run_verb(&mut self, verb: &str) {
        match verb {
            "clear" => {
                self.path.clear();
                self.add_path();
            }
            "parent" => {
                if read_parent(&mut self.next, &self.path) {
                    std::mem::swap(&mut self.path, &mut self.next);
                    self.add_path();
                } else {
                    self.add("none");
                }
            }
            "pieces" => {
                self.add(format_args!("pieces {}", components(&self.path).count()));
                for piece in components(&self.path) {
                    add_line(&mut self.output, b"| ", piece);
                }
            }
            "up" => self.add_parents(),
            "check" => match validate(&self.path) {
                Ok(()) => self.add("ok"),
                Err(error) => self.add(error),
            },
            "norm" => match read_normal(&mut self.next, &self.path) {
                Ok(()) => add_line(&mut self.output, b"= ", &self.next),
                Err(error) => self.add(error),
            },
            _ => self.add("? unknown command"),
        }
    }

    fn run_line(&mut self, line: &[u8]) {
        match std::str::from_utf8(line) {
            Err(_) => self.add("? not UTF-8"),
            Ok(line) => match line.split_once(' ') {
                Some((verb, text)) => self.run_text(verb, text),
                None => self.run_verb(line),
            },
        }
    }
}

fn run() -> io::Result<()> {
    let mut input = io::BufReader::with_capacity(ROOM, io::stdin().lock());
    let mut out = io::stdout().lock();
    let mut run = Run::default();
    let mut line = Vec::new();
    // The search for the end of a line is std's, which is one of many bytes at a time.
    while input.read_until(b'\n', &mut line)? != 0 {
        run.run_line(line.strip_suffix(b"\n").unwrap_or(&line));
        line.clear();
        if ROOM <= run.output.len() {
            out.write_all(&run.output)?;
            run.output.clear();
        }
    }
    out.write_all(&run.output)?;
    out.flush()
}

fn main() -> ExitCode {
    match run() {
        Ok(()) => ExitCode::SUCCESS,
        Err(_) => ExitCode::from(2),
    }
}
