//! Runs over lines.

use upath::{Watched, run_streams, run_text};

/// Returns whether a run over these lines prints `want`.
pub(crate) fn prints(rt: &HostRuntime, input: &[u8], want: &str) -> bool {
    matches!(&run_text(rt.alloc(), input), Ok(output) if output.as_slice() == want.as_bytes())
}

/// Returns whether a run over streams reads the whole input and writes `want`.
pub(crate) fn writes(rt: &HostRuntime, input: &[u8], want: &[u8]) -> bool {
    let mut reader = Watched::new(input);
    let mut writer = Watched::new(Vec::new(rt.alloc()));
    let is_done = run_streams(rt.alloc(), &mut reader, &mut writer).is_ok();
    is_done && reader.into_inner().is_empty() && writer.into_inner().as_slice() == want
}

const NUL: &str = "UCS-2 Conversion Error: Interior null terminator\n";

const NO_UCS2: &str = "UCS-2 Conversion Error: Invalid character\n";

/// Inputs and outputs of runs: lines that read and change the path, line ends, and lines of each verb whose
/// text is not a string.
const RUNS: &[(&str, &str)] = &[
    (
        "from \\foo\\bar\npieces\n",
        "= \\foo\\bar\npieces 2\n| foo\n| bar\n",
    ),
    // The last line has no line end.
    (
        "from /a\\b\neq a\\b\neq \\\\a\\b\npush\npieces",
        "= \\a\\b\nequal\ndifferent\n? unknown command\npieces 2\n| a\n| b\n",
    ),
    (
        "from a\npush \nparent\nclear\ncmp \\\njoin \\x\nfrom \\\njoin \\x\ncmp x\ncheck\nfrom b\ncmp \\c\n",
        "= a\n= a\nnone\n= \nequal\n= \\x\n= \\\n= \\\\x\nless\n\
         path contains an empty component\n= b\nless\n",
    ),
    (
        "from a/../b\nnorm\npieces\nclear\nnorm\nnorm \n",
        "= a\\..\\b\n= b\npieces 3\n| a\n| ..\n| b\n= \npath is empty\n? unknown command\n",
    ),
    (
        "from ..\\a\ncheck\nnorm\nparent\ncheck\n",
        "= ..\\a\npath climbs above the root\npath climbs above the root\n= ..\n\
         path climbs above the root\n",
    ),
    (
        "from \\\\\\\npieces\nup\ncheck\n",
        "= \\\\\\\npieces 3\n| \n| \n| \nparents 1\n| \npath contains an empty component\n",
    ),
    ("from \u{ffff}\n", "= \u{ffff}\n"),
    (
        "from a/b\neq a/b\ncmp \\a\\b\ncmp a\njoin \\\npieces\ncheck\nup\n",
        "= a\\b\ndifferent\nequal\ngreater\n= a\\b\\\\\npieces 4\n| a\n| b\n| \n| \n\
         path contains an empty component\nparents 3\n| a\\b\\\n| a\\b\n| a\n",
    ),
    (
        "from /a\npush b\nup\nparent\nparent\npieces\ncheck\n",
        "= \\a\n= \\a\\b\nparents 1\n| a\n= a\nnone\npieces 1\n| a\nok\n",
    ),
    (
        "check\npush a>b\ncheck\njoin c/d\nfrom ..\\a\ncheck\nnorm\n",
        "path is empty\n= a>b\npath contains an illegal character (value 62)\n= a>b\\c\\d\n= ..\\a\n\
         path climbs above the root\npath climbs above the root\n",
    ),
    ("", ""),
    ("\n", "? unknown command\n"),
    ("pieces\r\n", "? unknown command\n"),
    ("from a\r\npieces", "= a\r\npieces 1\n| a\r\n"),
    ("from  a b \npieces", "=  a b \npieces 1\n|  a b \n"),
    ("from\tx\n from", "? unknown command\n? unknown command\n"),
    ("eq x\0", NUL),
    ("eq 😀\0", NO_UCS2),
    ("from \0😀", NUL),
    ("push x\0", NUL),
    ("join 😀", NO_UCS2),
    ("cmp x\0", NUL),
    ("wat x\0", "? unknown command\n"),
];

/// Texts that are not strings, a line without a verb, and a line that is not UTF-8.
const FAULTY_LINES: &[u8] =
    b"from a\xf0\x9f\x98\x80\n\nfrom \npieces\neq \\\ncheck\n\xff\nfrom x\0\nclear \n";

const FAULTS: &str =
    "UCS-2 Conversion Error: Invalid character\n? unknown command\n= \npieces 0\nequal\n\
    path is empty\n? not UTF-8\nUCS-2 Conversion Error: Interior null terminator\n? unknown command\n";

#[test]
fn runs_and_what_they_print(rt: HostRuntime) {
    assert!(rt; prints(&rt, FAULTY_LINES, FAULTS));
    for (input, want) in RUNS {
        assert!(rt; prints(&rt, input.as_bytes(), want), "{input:?}");
    }
    assert!(rt; writes(&rt, b"from /a/b\npieces", b"= \\a\\b\npieces 2\n| a\n| b\n"));
}
