//! Times each call of this library beside the same call of the Rust crate `uefi`, in turns.
//!
//! Both sides run the same loop: `rounds` calls, each on one of two equal inputs, chosen by what the
//! calls before it returned. The least of many runs is taken, and the totals of the answers are
//! compared. What a side does once before its rounds, as views of the inputs, is timed with no round
//! and taken off. Without the feature `original`, or where the crate has no such call, ours is timed
//! alone.
//!
//! The first argument is the folder that `speed.csv`, `speed.md` and `speed.svg` are written to. The
//! others are parts of the names of calls; without any, all are timed.
mod calls;
mod files;
mod inputs;
#[cfg(feature = "original")]
mod original;
mod plain;
mod plot;

use inputs::Inputs;
use std::path::Path;
use std::time::{Duration, Instant};

/// How many runs the least is taken of, and for how long runs are made: at least both.
const RUNS: usize = 41;
const TIME: Duration = Duration::from_millis(200);

/// How long the rounds of a run are to take at least, in nanoseconds.
const LEAST_RUN: u128 = 40_000;

pub type Run = fn(&mut Inputs, usize) -> usize;

/// A call: its name, the sizes in units, the text that it is timed on, and both sides.
pub struct Call {
    pub name: &'static str,
    pub sizes: &'static [usize],
    pub inputs: fn(usize) -> Inputs,
    pub original: Option<Run>,
    pub ours: Run,
}

/// What one call took on one size, in nanoseconds.
pub struct Row {
    pub name: &'static str,
    pub size: usize,
    pub original: Option<f64>,
    pub ours: f64,
    /// Whether both sides returned the same.
    pub same: bool,
}

impl Row {
    pub fn ratio(&self) -> Option<f64> {
        self.original.map(|original| self.ours / original)
    }
}

fn time(run: Run, inputs: &mut Inputs, rounds: usize) -> (u128, usize) {
    let start = Instant::now();
    let total = run(inputs, rounds);
    (start.elapsed().as_nanos(), total)
}

/// The least times of a side so far, in nanoseconds: with no round, and with all.
struct Least {
    setup: u128,
    whole: u128,
}

impl Least {
    fn new() -> Least {
        Least {
            setup: u128::MAX,
            whole: u128::MAX,
        }
    }

    fn update(&mut self, run: Run, inputs: &mut Inputs, rounds: usize) -> usize {
        self.setup = self.setup.min(time(run, inputs, 0).0);
        let (whole, total) = time(run, inputs, rounds);
        self.whole = self.whole.min(whole);
        total
    }

    /// What the rounds take, without what is done once before them.
    fn rounds(&self) -> u128 {
        self.whole.saturating_sub(self.setup)
    }

    fn call(&self, rounds: usize) -> f64 {
        self.rounds() as f64 / rounds as f64
    }
}

/// As many rounds as a side takes the least run for, and as long as what it does once.
fn rounds_of(run: Run, inputs: &mut Inputs) -> usize {
    let mut rounds = 2;
    while rounds < 1 << 20 {
        let mut least = Least::new();
        for _ in 0..3 {
            least.update(run, inputs, rounds);
        }
        if least.rounds() >= LEAST_RUN.max(least.setup) {
            break;
        }
        rounds *= 2;
    }
    rounds
}

fn measure(call: &Call, size: usize) -> Row {
    let mut inputs = (call.inputs)(size);
    let rounds = rounds_of(call.original.unwrap_or(call.ours), &mut inputs);
    let (mut original, mut ours, mut same) = (Least::new(), Least::new(), true);
    let (start, mut runs) = (Instant::now(), 0);
    while runs < RUNS || start.elapsed() < TIME {
        runs += 1;
        let theirs = call
            .original
            .map(|run| original.update(run, &mut inputs, rounds));
        let answer = ours.update(call.ours, &mut inputs, rounds);
        same &= theirs.is_none_or(|theirs| theirs == answer);
    }
    Row {
        name: call.name,
        size,
        original: call.original.map(|_| original.call(rounds)),
        ours: ours.call(rounds),
        same,
    }
}

fn print(row: &Row) {
    let column = |number: Option<f64>, places| {
        number.map_or("-".to_owned(), |number| format!("{number:.places$}"))
    };
    println!(
        "{:34} {:>8} {:>12} {:>12.1} {:>7}{}",
        row.name,
        row.size,
        column(row.original, 1),
        row.ours,
        column(row.ratio(), 3),
        if row.same { "" } else { "  ANSWERS DIFFER" }
    );
}

fn main() -> std::io::Result<()> {
    let mut arguments = std::env::args().skip(1);
    let folder = arguments.next().expect("the folder of the files");
    let wanted: Vec<String> = arguments.collect();
    let is_wanted =
        |name: &str| wanted.is_empty() || wanted.iter().any(|word| name.contains(word.as_str()));
    println!(
        "{:34} {:>8} {:>12} {:>12} {:>7}",
        "call", "size", "original ns", "ours ns", "ratio"
    );
    let mut rows = Vec::new();
    for call in calls::CALLS.iter().filter(|call| is_wanted(call.name)) {
        for &size in call.sizes {
            let row = measure(call, size);
            print(&row);
            rows.push(row);
        }
    }
    files::write(Path::new(&folder), &rows)
}
