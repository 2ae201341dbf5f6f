//! Prints the normal form of each path: `/` becomes `\`, and `.`, `..` and the names that these take back are left out.
//!
//!     cargo run --manifest-path examples/gallery/Cargo.toml --bin normalize 'EFI/./debian/../BOOT/BOOTX64.EFI'
//!
//!     EFI\BOOT\BOOTX64.EFI
//!
//! Ends with 1 if a path is refused.

use nardcorbel::PathBuf;
use std::process::ExitCode;

fn main() -> ExitCode {
    let mut status = ExitCode::SUCCESS;
    for name in std::env::args().skip(1) {
        match name.parse::<PathBuf>().and_then(|it| it.normalize()) {
            Ok(path) => println!("{path}"),
            Err(error) => {
                println!("{name}: {error}");
                status = ExitCode::FAILURE;
            }
        }
    }
    status
}
