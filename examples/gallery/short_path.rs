//! Prints the device paths for which a short form such as `HD(..)/\file` stands, of those on the lines of standard input. All
//! are in hexadecimal.
//!
//!     cargo run --manifest-path examples/gallery/Cargo.toml --bin short_path SHORT < devices
//!
//!     PciRoot(0x0)/Pci(0x1F,0x2)/Sata(0x0,0xFFFF,0x0)/HD(1,GPT,03020100-0504-0706-0809-0A0B0C0D0E0F,0x800,0x100000)/\a

use nardcorbel::DevicePath;
use std::error::Error;
use std::io;

/// The bytes of a line in hexadecimal.
fn bytes_of(line: &str) -> Result<Vec<u8>, Box<dyn Error>> {
    let digits: Vec<char> = line.trim().chars().collect();
    let pairs = digits.chunks(2).map(String::from_iter);
    let bytes: Result<_, _> = pairs.map(|it| u8::from_str_radix(&it, 16)).collect();
    Ok(bytes?)
}

fn main() -> Result<(), Box<dyn Error>> {
    let word = std::env::args()
        .nth(1)
        .ok_or("usage: short_path SHORT < DEVICES")?;
    let short = bytes_of(&word)?;
    let short = DevicePath::from_bytes(&short)?;
    for line in io::stdin().lines() {
        let full = bytes_of(&line?)?;
        let full = DevicePath::from_bytes(&full)?;
        if full.is_expansion_of(short) {
            println!("{full}");
        }
    }
    Ok(())
}
