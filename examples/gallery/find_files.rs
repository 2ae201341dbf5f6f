//! Finds the files below a folder whose names match a pattern without case, as UEFI's `MetaiMatch` compares them: `*` is any
//! text, `?` one character, `[a-z]` one of a set.
//!
//!     cargo run --manifest-path examples/gallery/Cargo.toml --bin find_files boot '*[36][24].efi'
//!
//!     boot/EFI/BOOT/BOOTX64.EFI

use nardcorbel::{CStr16, CString16};
use std::error::Error;
use std::{env, fs, io, path::Path, path::PathBuf};

/// Whether a name matches. One that UCS-2 cannot say is the name of no file in firmware.
fn matches(name: &str, pattern: &CStr16) -> bool {
    CString16::try_from(name).is_ok_and(|it| it.matches(pattern))
}

fn find(folder: &Path, pattern: &CStr16, found: &mut Vec<PathBuf>) -> io::Result<()> {
    for entry in fs::read_dir(folder)? {
        let entry = entry?;
        if entry.file_type()?.is_dir() {
            find(&entry.path(), pattern, found)?;
        } else if entry
            .file_name()
            .to_str()
            .is_some_and(|it| matches(it, pattern))
        {
            found.push(entry.path());
        }
    }
    Ok(())
}

fn main() -> Result<(), Box<dyn Error>> {
    let words: Vec<String> = env::args().collect();
    let [_, folder, pattern] = &words[..] else {
        return Err("usage: find_files FOLDER PATTERN".into());
    };
    let (pattern, mut found) = (CString16::try_from(&**pattern)?, Vec::new());
    find(Path::new(folder), &pattern, &mut found)?;
    found.sort();
    for path in found {
        println!("{}", path.display());
    }
    Ok(())
}
