//! Times the line program beside a plain Rust program that prints the same, in turns, and compares
//! what they print.
//!
//! usage: lines OURS PLAIN FOLDER [INPUT..]
//!
//! The folder is for the inputs and for what is printed, which are removed, and for the table,
//! `lines.md`; words after it choose inputs by name. Both programs read a file and write to the null
//! device, 15 times in turns, and the least time is taken. Each input is run twice as long too.
mod inputs;

use inputs::{INPUTS, Input};
use std::fs::{self, File};
use std::io::{self, BufRead, BufReader, BufWriter, Write};
use std::path::Path;
use std::process::Command;
use std::time::Instant;

/// How many runs the least is taken of.
const RUNS: usize = 15;

const HEAD: &str = "\
| input | what it holds | prints, MB | plain, ms | ours, ms | ratio | ours, twice as long, ms | times | peak, MB: plain | ours | ours, twice as long |
|---|---|--:|--:|--:|--:|--:|--:|--:|--:|--:|";

/// What the system says of a process that ended: the fields of `struct rusage`.
#[repr(C)]
#[derive(Default)]
struct Usage {
    times: [i64; 4],
    most_kib: i64,
    others: [i64; 13],
}

unsafe extern "C" {
    fn wait4(process: i32, status: &mut i32, options: i32, usage: &mut Usage) -> i32;
}

/// A time in ms, and the most memory in MB.
#[derive(Clone, Copy)]
struct Cost {
    time: f64,
    memory: f64,
}

impl Cost {
    /// The least time of two runs, and the most memory.
    fn and(self, other: Cost) -> Cost {
        Cost {
            time: self.time.min(other.time),
            memory: self.memory.max(other.memory),
        }
    }
}

/// Runs a program once. Panics where it ends with a fault.
fn run(program: &str, input: &Path, output: &Path) -> io::Result<Cost> {
    let (input, output) = (File::open(input)?, File::create(output)?);
    let start = Instant::now();
    let child = Command::new(program).stdin(input).stdout(output).spawn()?;
    let (mut status, mut usage) = (0, Usage::default());
    // SAFETY: both places are of the types that the call writes.
    let ended = unsafe { wait4(child.id() as i32, &mut status, 0, &mut usage) };
    let time = start.elapsed().as_secs_f64() * 1e3;
    assert!(ended > 0 && status == 0, "{program} failed");
    let memory = usage.most_kib as f64 * 1024.0 / 1e6;
    Ok(Cost { time, memory })
}

/// Whether two files hold the same. They are read in parts, since the peak of a process begins at
/// that of the one that started it.
fn are_equal(one: &Path, two: &Path) -> io::Result<bool> {
    let mut one = BufReader::new(File::open(one)?);
    let mut two = BufReader::new(File::open(two)?);
    loop {
        let (a, b) = (one.fill_buf()?, two.fill_buf()?);
        let count = a.len().min(b.len());
        if count == 0 {
            return Ok(a.len() == b.len());
        }
        if a[..count] != b[..count] {
            return Ok(false);
        }
        one.consume(count);
        two.consume(count);
    }
}

/// What an input of some size costs both programs, and how many MB they print.
struct Measured {
    plain: Cost,
    ours: Cost,
    printed: f64,
}

struct Programs<'a> {
    plain: &'a str,
    ours: &'a str,
    folder: &'a Path,
}

impl Programs<'_> {
    fn measure(&self, input: &Input, size: usize) -> io::Result<Measured> {
        let file = self.folder.join("input");
        let mut writer = BufWriter::new(File::create(&file)?);
        (input.write)(&mut writer, size)?;
        writer.flush()?;

        let outputs = [self.folder.join("plain-output"), self.folder.join("output")];
        run(self.plain, &file, &outputs[0])?;
        run(self.ours, &file, &outputs[1])?;
        let same = are_equal(&outputs[0], &outputs[1])?;
        assert!(same, "the outputs differ on `{}` of {size}", input.name);

        let once = |program| run(program, &file, Path::new("/dev/null"));
        let (mut plain, mut ours) = (once(self.plain)?, once(self.ours)?);
        for _ in 1..RUNS {
            plain = plain.and(once(self.plain)?);
            ours = ours.and(once(self.ours)?);
        }
        let printed = fs::metadata(&outputs[1])?.len() as f64 / 1e6;
        for file in outputs.iter().chain([&file]) {
            fs::remove_file(file)?;
        }
        Ok(Measured {
            plain,
            ours,
            printed,
        })
    }

    /// A line of the table.
    fn line(&self, input: &Input) -> io::Result<String> {
        let once = self.measure(input, input.size)?;
        let twice = self.measure(input, input.twice)?;
        Ok(format!(
            "| `{}` | {} | {:.1} | {:.1} | {:.1} | {:.2} | {:.1} | {:.2} | {:.1} | {:.1} | {:.1} |",
            input.name,
            input.says,
            once.printed,
            once.plain.time,
            once.ours.time,
            once.ours.time / once.plain.time,
            twice.ours.time,
            twice.ours.time / once.ours.time,
            once.plain.memory,
            once.ours.memory,
            twice.ours.memory,
        ))
    }
}

fn main() -> io::Result<()> {
    let arguments: Vec<String> = std::env::args().skip(1).collect();
    let [ours, plain, folder, wanted @ ..] = arguments.as_slice() else {
        panic!("usage: lines OURS PLAIN FOLDER [INPUT..]");
    };
    let folder = Path::new(folder);
    let programs = Programs {
        plain,
        ours,
        folder,
    };
    let mut table = BufWriter::new(File::create(folder.join("lines.md"))?);
    println!("{HEAD}");
    writeln!(table, "{HEAD}")?;
    let is_wanted = |name: &str| wanted.is_empty() || wanted.iter().any(|word| word == name);
    for input in INPUTS.iter().filter(|input| is_wanted(input.name)) {
        let line = programs.line(input)?;
        println!("{line}");
        writeln!(table, "{line}")?;
    }
    table.flush()
}
