"""Copies the crate `uefi`, and its own tests so that they test `nardcorbel`."""
import pathlib
import re
import shutil

HERE = pathlib.Path(__file__).resolve().parent
# What a copy may lack that the feature `uefi` uses, as the stand-in has it.
ITEMS = {"guid": "mod guid;\npub use guid::Guid;\n", "proto": "pub mod proto;\n"}


def copy(crate, to):
    """Copies the crate to a folder. If it has only the modules of texts and paths, it gets GUIDs and device paths, and needs no `std`."""
    shutil.copytree(crate, to, ignore=shutil.ignore_patterns("target"))
    if (to / "src/proto").exists():
        return
    for it in ITEMS:
        shutil.copy(HERE / f"stand_in/src/{it}.rs", to / "src")
    lib, polyfill = to / "src/lib.rs", to / "src/polyfill.rs"
    lib.write_text("#![no_std]\n" + lib.read_text() + "extern crate core as std;\n" + "".join(ITEMS.values()))
    polyfill.write_text(polyfill.read_text() + "use alloc::vec::Vec;\n")


# What the crate's tests use inside their modules, and public calls in place of its private items.
USES = """use nardcorbel::{data_types::*, fs::*, *};
    use std::{borrow::{Borrow, ToOwned}, ffi::CStr, mem::MaybeUninit, slice};"""
PUBLIC = [(r"\bChar8\((0x\w+)\)", r"Char8::from(\1)"), (r"\bChar16\((0x\w+)\)", r"Char16::try_from(\1u16).unwrap()"),
          (r"CString16\(vec!\[(.*?)\]\)", r"CStr16::from_char16_with_nul(&[\1]).unwrap().to_owned()"),
          (r"\b(owned|str|s)\.0\b", r"\1.as_slice_with_nul()"), (r"PathBuf::new_from_cstring16\(", "PathBuf::from("),
          (r"use super::\*;", USES), (r"\bcrate::", "nardcorbel::")]


def tests(crate):
    """Returns the tests in the crate's modules, over `nardcorbel`."""
    found = "#![allow(unused_imports)]\nextern crate alloc;\n"
    for file in sorted(crate.rglob("src/**/*.rs")):
        for body in re.findall(r"(?ms)^#\[cfg\(test\)\]\nmod tests \{\n(.*)^\}\s*\Z", file.read_text()):
            for private, public in PUBLIC:
                body = re.sub(private, public, body)
            found += f"mod {file.stem}_tests {{\n{body}}}\n"
    return found
