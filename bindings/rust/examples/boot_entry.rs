//! Prints a boot entry, the value of a variable `Boot####` from standard input, such as `examples/data/Boot0001`.

use nardcorbel::{LoadOption, Shown};
use std::error::Error;
use std::io::{self, Read};

fn main() -> Result<(), Box<dyn Error>> {
    let mut bytes = Vec::new();
    io::stdin().read_to_end(&mut bytes)?;
    // Linux puts four bytes of attributes before a variable.
    let entry = bytes.strip_prefix(&[7, 0, 0, 0]).unwrap_or(&bytes);
    let option = LoadOption::from_bytes(entry)?;
    println!("active: {}", option.is_active());
    println!("description: {}", option.description());
    for path in option.device_paths() {
        println!("device path: {path}");
        let mut units = vec![0; bytes.len()];
        let file = path.file_path_in_buf(&mut units)?;
        match file.validate() {
            Ok(()) => println!("file: {file}"),
            Err(error) => println!("file: {}: {error}", Shown(file.to_cstr16().chars())),
        }
    }
    Ok(())
}
