//! Accepted and refused paths, with one fault at each position. The first faulty component decides.

use crate::fixtures::buffer;
use crate::validation::Verdict::{Accepted, ClimbsAboveRoot, Empty, EmptyComponent, IllegalChar};
use for_tests::{hostile_places, repeated, says, string};
use std::test::Fail;
use uefi_path::{CHARACTER_DENY_LIST, Path, PathError, separator_str, validate_path};
use uefi_text::Char16;

/// The result of validating a path, with the number of an illegal character.
#[derive(Clone, Copy)]
enum Verdict {
    Accepted,
    Empty,
    EmptyComponent,
    IllegalChar(u16),
    ClimbsAboveRoot,
}

/// Returns whether a path has this verdict.
fn is_judged(path: Path<'_>, want: Verdict) -> bool {
    let judged = validate_path(path);
    match want {
        Accepted => judged == Ok(()),
        Empty => judged == Err(PathError::Empty),
        EmptyComponent => judged == Err(PathError::EmptyComponent),
        IllegalChar(number) => match Char16::try_from(number) {
            Ok(character) => judged == Err(PathError::IllegalChar(character)),
            Err(_) => false,
        },
        ClimbsAboveRoot => judged == Err(PathError::ClimbsAboveRoot),
    }
}

/// Returns whether the path of a text, and its buffer with each slash replaced, have these verdicts.
fn are_judged(
    rt: &HostRuntime,
    text: &str,
    borrowed: Verdict,
    owned: Verdict,
) -> Result<bool, Fail> {
    let string = string(rt.alloc(), text)?;
    Ok(
        is_judged(Path::new(string.as_cstr16()), borrowed)
            && is_judged(buffer(rt, text)?.as_path(), owned),
    )
}

/// Texts, and the verdicts on their paths, borrowed and in a buffer.
const TEXTS: &[(&str, Verdict, Verdict)] = &[
    (r"\", Accepted, Accepted),
    (".", Accepted, Accepted),
    (r"a\..", Accepted, Accepted),
    (r"a\.\..", Accepted, Accepted),
    (r"a\b\..\..", Accepted, Accepted),
    (r"\a\b", Accepted, Accepted),
    ("a/b", IllegalChar(47), Accepted),
    (r"é\ \~", Accepted, Accepted),
    (r"hello\foo\bar", Accepted, Accepted),
    ("", Empty, Empty),
    (r"a\", EmptyComponent, EmptyComponent),
    (r"hello\\bar", EmptyComponent, EmptyComponent),
    (r"a\\b>", EmptyComponent, EmptyComponent),
    (r"hello\f>oo\bar", IllegalChar(62), IllegalChar(62)),
    (r"a>b\\c", IllegalChar(62), IllegalChar(62)),
    ("..", ClimbsAboveRoot, ClimbsAboveRoot),
    (r".\..", ClimbsAboveRoot, ClimbsAboveRoot),
    (r"a\b\..\..\..", ClimbsAboveRoot, ClimbsAboveRoot),
    (r"a\..\..\b>", ClimbsAboveRoot, ClimbsAboveRoot),
    ("..>", IllegalChar(62), IllegalChar(62)),
    (r"b>\..\..", IllegalChar(62), IllegalChar(62)),
    (r"a\\..\..", EmptyComponent, EmptyComponent),
];

#[test]
fn judged_paths(rt: HostRuntime) -> Result<(), Fail> {
    for (text, borrowed, owned) in TEXTS {
        assert!(rt; are_judged(&rt, text, *borrowed, *owned)?, "{text}");
    }
    Ok(())
}

/// A text among other characters, and the verdicts on the path, borrowed and in a buffer.
const HOSTILE: &[(&str, Verdict, Verdict)] = &[
    ("a", Accepted, Accepted),
    (r"a\b", Accepted, Accepted),
    ("\u{ffff}", Accepted, Accepted),
    (r"\.\b", Accepted, Accepted),
    (r"a\..\b", Accepted, Accepted),
    (r"\..\..\", ClimbsAboveRoot, ClimbsAboveRoot),
    ("a/b", IllegalChar(47), Accepted),
    ("\"", IllegalChar(34), IllegalChar(34)),
    ("*", IllegalChar(42), IllegalChar(42)),
    (":", IllegalChar(58), IllegalChar(58)),
    ("<", IllegalChar(60), IllegalChar(60)),
    (">", IllegalChar(62), IllegalChar(62)),
    ("?", IllegalChar(63), IllegalChar(63)),
    ("|", IllegalChar(124), IllegalChar(124)),
    ("?*", IllegalChar(63), IllegalChar(63)),
    (r"\\", EmptyComponent, EmptyComponent),
    ("a//b", IllegalChar(47), EmptyComponent),
    (r"a\\b>", EmptyComponent, EmptyComponent),
    (r"a>\\b", IllegalChar(62), IllegalChar(62)),
    (r"a\b>", IllegalChar(62), IllegalChar(62)),
    (r"a>b\*", IllegalChar(62), IllegalChar(62)),
    (r"a\/\*", IllegalChar(47), EmptyComponent),
    (r"\\>\\", EmptyComponent, EmptyComponent),
];

/// Returns a text of `others` characters, with `middle` at the position.
fn text_of(rt: &HostRuntime, others: usize, place: usize, middle: &str) -> Result<String, Fail> {
    let mut text = repeated(rt.alloc(), "a", place as u64)?;
    text.push_str(middle)?;
    for _ in place..others {
        text.push('a')?;
    }
    Ok(text)
}

/// Positions around 48 and 256 characters, where code that reads blocks would begin a new one: how many other
/// characters there are, and how many precede the position.
const LONG_PLACES: &[(usize, usize)] = &[
    (45, 44),
    (46, 46),
    (47, 0),
    (47, 47),
    (48, 24),
    (253, 253),
    (254, 127),
    (255, 255),
    (256, 0),
    (257, 256),
];

#[test]
fn hostile_paths(rt: HostRuntime) -> Result<(), Fail> {
    let mut places = hostile_places(rt.alloc())?;
    places.extend_from_slice(LONG_PLACES)?;
    for (others, place) in &places {
        for (middle, borrowed, owned) in HOSTILE {
            let text = text_of(&rt, *others, *place, middle)?;
            assert!(rt; are_judged(&rt, &text, *borrowed, *owned)?, "{text}");
        }
    }
    Ok(())
}

#[test]
fn denied_characters(rt: HostRuntime) {
    let numbers: &[u16] = &[0, 34, 42, 47, 58, 60, 62, 63, 92, 124];
    for (character, want) in CHARACTER_DENY_LIST.iter().zip(numbers) {
        assert!(rt; u16::from(*character) == *want, "{want}");
    }
    assert!(rt;
        CHARACTER_DENY_LIST.len() == numbers.len()
            && separator_str().to_u16_slice() == [92u16].as_slice()
    );
}

#[test]
fn printed_errors(rt: HostRuntime) -> Result<(), Fail> {
    let (illegal, last) = (Char16::try_from('>')?, Char16::try_from(0xffffu16)?);
    let empty = PathError::EmptyComponent;
    assert!(rt;
        says(rt.alloc(), &PathError::Empty, "path is empty")
            && says(rt.alloc(), &empty, "path contains an empty component")
            && says(
                rt.alloc(),
                &PathError::ClimbsAboveRoot,
                "path climbs above the root"
            )
    );
    for (character, number) in [(illegal, 62), (last, 65535)] {
        let want = format!(in rt.alloc(); "path contains an illegal character (value {number})")?;
        assert!(rt; says(rt.alloc(), &PathError::IllegalChar(character), &want));
    }
    Ok(())
}
