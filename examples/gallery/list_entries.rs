//! Lists the boot entries of a folder of variables as Linux shows them, in their order: of each entry its description, its device
//! paths and the files that these name. An active entry has a star.
//!
//!     cargo run --manifest-path examples/gallery/Cargo.toml --bin list_entries /sys/firmware/efi/efivars
//!
//!     Boot0001* debian: HD(1,GPT,03020100-0504-0706-0809-0A0B0C0D0E0F,0x800,0x100000)/\EFI\debian\shimx64.efi

use nardcorbel::{order_numbers, LoadOption, LoadOptionKind, LoadOptionName};
use std::{env, error::Error, fs, io};

/// The owner of the variables, which ends the names of their files.
const GLOBAL: &str = "8be4df61-93ca-11d2-aa0d-00e098032b8c";

/// Reads the value of a variable, before which stand four bytes of attributes.
fn value(folder: &str, name: &str) -> io::Result<Vec<u8>> {
    let mut bytes = fs::read(format!("{folder}/{name}-{GLOBAL}"))?;
    Ok(bytes.split_off(bytes.len().min(4)))
}

/// Prints an entry, or fails if there is none, or it is malformed.
fn print(folder: &str, name: &LoadOptionName) -> Result<(), Box<dyn Error>> {
    let bytes = value(folder, &name.to_string())?;
    let option = LoadOption::from_bytes(&bytes)?;
    let star = if option.is_active() { "*" } else { "" };
    for path in option.device_paths() {
        println!("{name}{star} {}: {path}", option.description());
        let file = path.file_path();
        match file.and_then(|it| it.validate().map(|()| it)) {
            Ok(file) => println!("  file: {file}"),
            Err(error) => println!("  no file: {error}"),
        }
    }
    Ok(())
}

fn main() -> Result<(), Box<dyn Error>> {
    let folder = env::args().nth(1).ok_or("usage: list_entries FOLDER")?;
    let order = value(&folder, "BootOrder")?;
    for number in order_numbers(&order)? {
        let kind = LoadOptionKind::Boot;
        let name = LoadOptionName { kind, number };
        print(&folder, &name).unwrap_or_else(|error| println!("{name}: {error}"));
    }
    Ok(())
}
