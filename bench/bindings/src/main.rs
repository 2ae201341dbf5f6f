//! Times calls of the bindings beside the same calls of the crate `uefi`. Both are the same lines: `calls.rs` is compiled over
//! each crate.

use std::time::{Duration, Instant};

/// A name, and what calls so often.
pub type Call = (&'static str, fn(&Inputs, usize) -> usize);

/// Two equal inputs: a path of names of eight characters.
pub struct Inputs {
    units: [Vec<u16>; 2],
    texts: [String; 2],
}

mod ours {
    use nardcorbel as both;
    include!("calls.rs");
}

#[cfg(feature = "original")]
mod original {
    use uefi as both;
    include!("calls.rs");
}

/// How many units the texts have.
const SIZES: &[usize] = &[8, 40, 256];

/// How long runs of a call are made, of which the least counts.
const TIME: Duration = Duration::from_millis(100);

fn inputs(size: usize) -> Inputs {
    let text: String = "\\EFIBOOT".chars().cycle().take(size).collect();
    let units: Vec<u16> = text.encode_utf16().chain([0]).collect();
    Inputs {
        units: [units.clone(), units],
        texts: [text.clone(), text],
    }
}

/// The least time of a call, in nanoseconds, of some runs, and what one returns.
fn run((_, call): &Call, inputs: &Inputs, least: &mut f64) -> usize {
    const ROUNDS: usize = 2000;
    let (start, mut total) = (Instant::now(), 0);
    while start.elapsed() < TIME / 5 {
        let start = Instant::now();
        total = call(inputs, ROUNDS);
        *least = least.min(start.elapsed().as_nanos() as f64 / ROUNDS as f64);
    }
    total
}

fn main() {
    println!("| call | units | uefi, ns | nardcorbel, ns | ratio |\n|---|---|---|---|---|");
    for (index, ours) in ours::CALLS.iter().enumerate() {
        for size in SIZES {
            let (inputs, mut theirs, mut own) = (inputs(*size), f64::MAX, f64::MAX);
            for _ in 0..5 {
                let _same = run(ours, &inputs, &mut own);
                #[cfg(feature = "original")]
                {
                    let total = run(&original::CALLS[index], &inputs, &mut theirs);
                    // Where one separator stands before a parent differs, and what a hash is.
                    let differs = ["Path::parent", "CStr16::hash"].contains(&ours.0);
                    assert!(
                        total == _same || differs,
                        "{} returns something else",
                        ours.0
                    );
                }
            }
            let _ = (index, &mut theirs);
            let shown = |it: f64| {
                if it == f64::MAX {
                    String::new()
                } else {
                    format!("{it:.1}")
                }
            };
            let ratio = if theirs == f64::MAX {
                String::new()
            } else {
                format!("{:.2}", own / theirs)
            };
            println!(
                "| `{}` | {size} | {} | {} | {ratio} |",
                ours.0,
                shown(theirs),
                shown(own)
            );
        }
    }
}
