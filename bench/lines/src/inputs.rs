//! The inputs: lines of commands, made anew for each run.
use std::io::{self, Write};

/// An input: its name, what it holds, its size, and the size at which it, or where what it prints
/// grows with the square of it that, is twice as long.
pub struct Input {
    pub name: &'static str,
    pub says: &'static str,
    pub size: usize,
    pub twice: usize,
    pub write: fn(&mut dyn Write, usize) -> io::Result<()>,
}

/// A text of 60 characters.
fn ascii(k: usize) -> String {
    format!(
        r"{:x<60}",
        format!(r"\EFI\vendor{k:06}\drivers\module{k:06}\image")
    )
}

/// A text of 60 characters, most of them of three bytes in UTF-8.
fn wide(k: usize) -> String {
    format!(
        r"{:字<60}",
        format!(r"\漢字仮名{k:06}\交じり文の例\として用いる\é")
    )
}

fn from_ascii(output: &mut dyn Write, lines: usize) -> io::Result<()> {
    (0..lines).try_for_each(|k| writeln!(output, "from {}", ascii(k)))
}

fn from_wide(output: &mut dyn Write, lines: usize) -> io::Result<()> {
    (0..lines).try_for_each(|k| writeln!(output, "from {}", wide(k)))
}

fn compare(output: &mut dyn Write, lines: usize) -> io::Result<()> {
    writeln!(output, "from {}", ascii(7))?;
    (0..lines).try_for_each(|k| {
        let verb = if k % 2 == 0 { "eq" } else { "cmp" };
        writeln!(output, "{verb} {}", ascii(k % 10))
    })
}

fn mixed(output: &mut dyn Write, rounds: usize) -> io::Result<()> {
    (0..rounds).try_for_each(|k| {
        writeln!(output, "from {}", ascii(k))?;
        writeln!(
            output,
            "push drivers/./module{k}\njoin ../fonts\npieces\nup"
        )?;
        writeln!(output, "check\nnorm\neq {}\ncmp a{k}\nparent", ascii(k + 1))?;
        writeln!(
            output,
            "push é{k}\nparents\npush \u{1f600}\nclear\nparent\ncheck"
        )
    })
}

fn names(output: &mut dyn Write, names: usize) -> io::Result<()> {
    write!(output, "from ")?;
    (0..names).try_for_each(|k| write!(output, r"\name{:03}", k % 1000))?;
    writeln!(output)
}

fn check(output: &mut dyn Write, size: usize) -> io::Result<()> {
    names(output, size)?;
    writeln!(output, "check")
}

fn parents(output: &mut dyn Write, lines: usize) -> io::Result<()> {
    (0..lines).try_for_each(|k| {
        writeln!(output, "from {}", r"\vendor".repeat(20 + k % 20))?;
        writeln!(output, "up")
    })
}

fn deep(output: &mut dyn Write, names: usize) -> io::Result<()> {
    writeln!(output, "from {}\nup", r"\ab".repeat(names))?;
    (0..names).try_for_each(|_| writeln!(output, "parent"))
}

fn listings(output: &mut dyn Write, size: usize) -> io::Result<()> {
    names(output, size)?;
    (0..20).try_for_each(|_| writeln!(output, "pieces"))
}

fn build(output: &mut dyn Write, pushes: usize) -> io::Result<()> {
    (0..pushes).try_for_each(|k| writeln!(output, "push name{:03}", k % 1000))
}

fn one_wide(output: &mut dyn Write, characters: usize) -> io::Result<()> {
    let text: String = r"\漢字仮名交じり文\の例として用いる"
        .chars()
        .cycle()
        .take(characters)
        .collect();
    writeln!(output, "from {text}\ncheck\neq {text}\nparent")
}

pub const INPUTS: &[Input] = &[
    Input {
        name: "from",
        says: "200,000 lines `from` of 60 characters",
        size: 200_000,
        twice: 400_000,
        write: from_ascii,
    },
    Input {
        name: "from wide",
        says: "the same, most of them beyond ASCII",
        size: 200_000,
        twice: 400_000,
        write: from_wide,
    },
    Input {
        name: "compare",
        says: "200,000 lines `eq` and `cmp` of 60 characters",
        size: 200_000,
        twice: 400_000,
        write: compare,
    },
    Input {
        name: "mixed",
        says: "15,000 rounds of 16 lines of all verbs",
        size: 15_000,
        twice: 30_000,
        write: mixed,
    },
    Input {
        name: "check",
        says: "one `check` of 100,000 names",
        size: 100_000,
        twice: 200_000,
        write: check,
    },
    Input {
        name: "parents",
        says: "5,000 `up` of 20 to 39 components",
        size: 5_000,
        twice: 10_000,
        write: parents,
    },
    Input {
        name: "deep",
        says: "one `up`, and each `parent`, of 10,000 components",
        size: 10_000,
        twice: 14_142,
        write: deep,
    },
    Input {
        name: "pieces",
        says: "20 `pieces` of 100,000 components",
        size: 100_000,
        twice: 200_000,
        write: listings,
    },
    Input {
        name: "build",
        says: "8,000 `push` of a name",
        size: 8_000,
        twice: 11_314,
        write: build,
    },
    Input {
        name: "wide",
        says: "one path of 1,000,000 characters beyond ASCII",
        size: 1_000_000,
        twice: 2_000_000,
        write: one_wide,
    },
];
