//! The files that a run leaves: all figures, a table of the ratios, and the plot.
use crate::{Row, plot};
use std::collections::BTreeSet;
use std::fmt::Write;
use std::path::Path;
use std::{fs, io};

/// A line for each call and size: both times in nanoseconds, and the ratio.
fn figures(rows: &[Row]) -> String {
    let mut csv = String::from("call,size,original ns,ours ns,ratio\n");
    for row in rows {
        let original = row
            .original
            .map_or(String::new(), |time| format!("{time:.1}"));
        let ratio = row
            .ratio()
            .map_or(String::new(), |ratio| format!("{ratio:.3}"));
        let (name, size, ours) = (row.name, row.size, row.ours);
        writeln!(csv, "{name},{size},{original},{ours:.1},{ratio}").unwrap();
    }
    csv
}

/// The rows with both times by call, in their order.
pub fn compared(rows: &[Row]) -> impl Iterator<Item = &[Row]> {
    rows.chunk_by(|one, two| one.name == two.name)
        .filter(|call| call[0].original.is_some())
}

/// A Markdown table of the ratios, with a line for each call and a column for each size; a table for
/// each set of sizes.
fn ratios(rows: &[Row]) -> String {
    let sizes_of = |call: &[Row]| call.iter().map(|row| row.size).collect::<Vec<_>>();
    let mut table = String::new();
    let all: BTreeSet<Vec<usize>> = compared(rows).map(sizes_of).collect();
    for sizes in all {
        write!(table, "| call, by units |").unwrap();
        for size in &sizes {
            write!(table, " {size} |").unwrap();
        }
        writeln!(table, "\n|---|{}", "--:|".repeat(sizes.len())).unwrap();
        for call in compared(rows).filter(|call| sizes_of(call) == sizes) {
            write!(table, "| `{}` |", call[0].name).unwrap();
            for ratio in call.iter().filter_map(Row::ratio) {
                write!(table, " {ratio:.2} |").unwrap();
            }
            table.push('\n');
        }
        table.push('\n');
    }
    table
}

/// Writes the files; the table and the plot only where there are ratios.
pub fn write(folder: &Path, rows: &[Row]) -> io::Result<()> {
    fs::write(folder.join("speed.csv"), figures(rows))?;
    if compared(rows).next().is_some() {
        fs::write(folder.join("speed.md"), ratios(rows))?;
        fs::write(folder.join("speed.svg"), plot::svg(rows))?;
    }
    Ok(())
}
