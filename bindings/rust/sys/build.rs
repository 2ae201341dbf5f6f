//! Finds or builds the static library: in the directory that `NARDCORBEL_LIB_DIR` names; else from `source/nardcorbel.ll` in this
//! crate, by clang; else in `archives/TARGET` of this crate, in the release that contains it, or in the repository.
//!
//! If there is none, `cargo check` and `cargo doc` work, and the linker's message says what a program lacks.

use std::env;
use std::path::{Path, PathBuf};
use std::process::{exit, Command};

/// The compilers of LLVM that are tried, unless `CLANG` names one, and with which suffix their archiver is found.
const COMPILERS: [(&str, &str); 5] = [
    ("clang-22", "-22"),
    ("clang-21", "-21"),
    ("clang-20", "-20"),
    ("clang-19", "-19"),
    ("clang", ""),
];

fn variable(name: &str) -> String {
    println!("cargo:rerun-if-env-changed={name}");
    env::var(name).unwrap_or_default()
}

/// Runs a command, and returns what it prints if it fails.
fn run(command: &mut Command) -> Result<(), String> {
    match command.output() {
        Ok(it) if it.status.success() => Ok(()),
        Ok(it) => Err(format!(
            "{command:?}: {}",
            String::from_utf8_lossy(&it.stderr)
        )),
        Err(error) => Err(format!("{command:?}: {error}")),
    }
}

/// Compiles the source to an archive.
fn compile(
    source: &Path,
    processor: &str,
    is_firmware: bool,
    archive: &Path,
) -> Result<(), String> {
    let (system, flags): (_, &[&str]) = match (is_firmware, processor) {
        (false, _) => ("linux-gnu", &["-fPIC"]),
        // Firmware's interrupts use the current stack, and only some of its code saves more than the general registers.
        (true, "x86_64") => ("windows", &["-mno-red-zone", "-mgeneral-regs-only"]),
        (true, _) => ("windows", &["-mgeneral-regs-only", "-ffixed-x18"]),
    };
    let object = archive.with_extension("o");
    let attempt = |compiler: &str, suffix: &str| {
        run(Command::new(compiler)
            .arg(format!("--target={processor}-unknown-{system}"))
            .args(["-O2", "-Wno-override-module", "-c", "-x", "ir"])
            .args(flags)
            .args([source, Path::new("-o"), &object]))?;
        let _ = std::fs::remove_file(archive);
        let archivers = [format!("llvm-ar{suffix}"), "llvm-ar".into(), "ar".into()];
        let mut made = archivers
            .iter()
            .map(|it| run(Command::new(it).arg("rcs").args([archive, &object])));
        made.find(Result::is_ok)
            .unwrap_or(Err("neither llvm-ar nor ar can be run".into()))
    };
    match variable("CLANG") {
        it if !it.is_empty() => attempt(&it, ""),
        _ => {
            let mut faults = String::new();
            for (compiler, suffix) in COMPILERS {
                match attempt(compiler, suffix) {
                    Ok(()) => return Ok(()),
                    Err(fault) => faults += &fault,
                }
            }
            Err(faults)
        }
    }
}

fn main() {
    let (processor, system) = (
        variable("CARGO_CFG_TARGET_ARCH"),
        variable("CARGO_CFG_TARGET_OS"),
    );
    let (target, given) = (variable("TARGET"), variable("NARDCORBEL_LIB_DIR"));
    let is_known =
        matches!(&*processor, "x86_64" | "aarch64") && matches!(&*system, "linux" | "uefi");
    if !is_known && given.is_empty() && variable("DOCS_RS").is_empty() {
        eprintln!(
            "nardcorbel-sys: no static library for {target}, only for Linux and UEFI on x86_64 and aarch64 (set \
             NARDCORBEL_LIB_DIR to the directory of a libnardcorbel.a of your own)"
        );
        exit(1);
    }
    let here = PathBuf::from(variable("CARGO_MANIFEST_DIR"));
    let made = PathBuf::from(variable("OUT_DIR"));
    // On targets of UEFI rustc looks for libNAME.a, so the file has its whole name.
    let (file, modifiers, name) = match &*system {
        "uefi" => (
            "nardcorbel_firmware.lib",
            "+verbatim",
            "nardcorbel_firmware.lib",
        ),
        _ => ("libnardcorbel.a", "-verbatim", "nardcorbel"),
    };
    let source = here.join("source/nardcorbel.ll");
    println!("cargo:rerun-if-changed={}", source.display());
    let (release, repository) = (
        here.join("../../../.."),
        here.join("../../../crates/nardcorbel/out/firmware"),
    );
    let mut folders = match &*system {
        _ if !given.is_empty() => vec![PathBuf::from(&given)],
        "uefi" => vec![
            release.join("lib/nardcorbel/firmware").join(&processor),
            repository.join(&processor),
        ],
        _ => vec![
            release.join("lib").join(format!("{processor}-linux-gnu")),
            repository.join(format!("{processor}-linux-gnu")),
        ],
    };
    let mut faults = String::new();
    if given.is_empty() {
        folders.insert(0, here.join("archives").join(&target));
        if source.is_file() {
            match compile(&source, &processor, system == "uefi", &made.join(file)) {
                Ok(()) => folders = vec![made],
                Err(said) => faults = said,
            }
        }
    }
    for folder in &folders {
        println!("cargo:rerun-if-changed={}", folder.join(file).display());
    }
    if let Some(folder) = folders.iter().find(|it| it.join(file).is_file()) {
        println!("cargo:rustc-link-search=native={}", folder.display());
        println!("cargo:rustc-link-lib=static:+bundle,{modifiers}={name}");
    } else if !faults.is_empty() {
        eprintln!(
            "nardcorbel-sys: no clang compiles {} (set CLANG to clang 19 or later):\n{faults}",
            source.display()
        );
        exit(1);
    } else {
        println!("cargo:warning={file} for {target} not found (set NARDCORBEL_LIB_DIR to its directory before you link a program)");
        println!("cargo:rustc-link-lib=dylib={MISSING}");
    }
}

/// The name of the library that the linker cannot find.
const MISSING: &str = "nardcorbel (set NARDCORBEL_LIB_DIR to the directory of the static library)";
