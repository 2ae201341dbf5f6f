//! Paths and inputs of 100,000 characters with ample memory: every call succeeds.

use crate::judging::accepts;
use crate::run::{prints, writes};
use for_tests::{repeated, string};
use std::test::Fail;
use uefi_path::{Path, PathBuf};
use upath::{PathCommand, all_parents, pieces, run_commands};

/// Judges and lists 50,000 components; lists the parents of a long name.
#[test]
fn long_lists(rt: HostRuntime) -> Result<(), Fail> {
    let text = repeated(rt.alloc(), r"\a", 50_000)?;
    let long = string(rt.alloc(), &text)?;
    assert!(rt;
        accepts(&rt, &long.as_cstr16().as_bytes(rt.alloc())?, &text)
            && pieces(rt.alloc(), Path::new(long.as_cstr16()))?.len() == 50_000
    );
    let mut text = repeated(rt.alloc(), "ab", 50_000)?;
    text.push_str(r"\c\d")?;
    let path = PathBuf::from(rt.alloc(), string(rt.alloc(), &text)?.as_cstr16())?;
    assert!(rt; all_parents(rt.alloc(), &path)?.len() == 2);
    Ok(())
}

/// Runs each command on a path of 100,000 characters.
#[test]
fn commands_on_long_paths(rt: HostRuntime) -> Result<(), Fail> {
    let long = string(rt.alloc(), &repeated(rt.alloc(), r"ab\", 33_334)?)?;
    let commands = [
        PathCommand::From(long.as_cstr16()),
        PathCommand::Push(Path::new(long.as_cstr16())),
        PathCommand::Join(Path::new(long.as_cstr16())),
        PathCommand::Parent,
        PathCommand::Clear,
    ];
    let mut path = PathBuf::new(rt.alloc())?;
    let is_done = run_commands(rt.alloc(), &mut path, &commands).is_ok();
    assert!(rt; is_done && path.is_empty());
    Ok(())
}

/// Lines with each verb, and what they print. `@` stands for a long name.
const LONG_LINES: &[(&str, &str)] = &[
    (
        "from /@\npush @\njoin b/c\nparent\nclear\n",
        "= \\@\n= \\@\\@\n= \\@\\@\\b\\c\n= @\\@\\b\n= \n",
    ),
    (
        "push @\nparent\njoin @\nparent\nparent",
        "= @\nnone\n= @\\@\n= @\nnone\n",
    ),
    (
        "from @\\b\neq \\@\\b\neq @\ncmp @\ncmp \\@\\b\ncmp @\\c",
        "= @\\b\nequal\ndifferent\ngreater\nequal\nless\n",
    ),
    (
        "from @\\b\\c\npieces\nup\ncheck\nnorm",
        "= @\\b\\c\npieces 3\n| @\n| b\n| c\nparents 2\n| @\\b\n| @\nok\n= @\\b\\c\n",
    ),
    (
        "from @\\..\\b\nnorm\nfrom @\\>\ncheck\nnorm",
        "= @\\..\\b\n= b\n= @\\>\npath contains an illegal character (value 62)\n\
             path contains an illegal character (value 62)\n",
    ),
    (
        "@\nfrom @\0\nfrom @😀\n",
        "? unknown command\nUCS-2 Conversion Error: Interior null terminator\n\
             UCS-2 Conversion Error: Invalid character\n",
    ),
];

/// Returns whether a run over lines and a run over streams both print `want`, with a long name for each `@`.
fn prints_long(rt: &HostRuntime, input: &str, want: &str, name: &str) -> Result<bool, Fail> {
    let input = input.replace(rt.alloc(), '@', name)?;
    let want = want.replace(rt.alloc(), '@', name)?;
    Ok(prints(rt, input.as_bytes(), &want) && writes(rt, input.as_bytes(), want.as_bytes()))
}

#[test]
fn each_verb_on_long_names(rt: HostRuntime) -> Result<(), Fail> {
    for piece in ["aé", "漢b"] {
        let name = repeated(rt.alloc(), piece, 50_000)?;
        for (input, want) in LONG_LINES {
            assert!(rt; prints_long(&rt, input, want, &name)?, "{input:?}");
        }
    }
    Ok(())
}

/// Prints 50,000 components, one per line.
#[test]
fn each_verb_on_many_names(rt: HostRuntime) -> Result<(), Fail> {
    let names = repeated(rt.alloc(), r"\a", 50_000)?;
    let lines = repeated(rt.alloc(), "| a\n", 50_000)?;
    let plain = names.strip_prefix(r"\").unwrap_or("");
    let input = format!(in rt.alloc(); "from {names}\npieces\ncheck\nnorm\neq {plain}\n")?;
    let want = format!(in rt.alloc(); "= {names}\npieces 50000\n{lines}ok\n= {plain}\nequal\n")?;
    assert!(rt;
        prints(&rt, input.as_bytes(), &want) && writes(&rt, input.as_bytes(), want.as_bytes())
    );
    Ok(())
}
