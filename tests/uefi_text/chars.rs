//! Characters in Latin-1 and in UCS-2.

use for_tests::prints;
use std::test::Fail;
use uefi_text::chars::{Char8, Char16, CharConversionError, NUL_8, NUL_16};

/// Characters, and the byte and the code unit of each, if it has them.
const CHARACTERS: &[(char, Option<u8>, Option<u16>)] = &[
    ('A', Some(65), Some(65)),
    ('\0', Some(0), Some(0)),
    ('é', Some(0xe9), Some(0xe9)),
    ('ÿ', Some(255), Some(255)),
    ('Ā', None, Some(0x100)),
    ('ꋃ', None, Some(0xa2c3)),
    ('\u{ffff}', None, Some(0xffff)),
    ('😀', None, None),
];

/// Returns whether a character converts to this byte and back, or is refused if there is none.
fn has_byte(character: char, want: Option<u8>) -> bool {
    match (Char8::try_from(character), want) {
        (Ok(made), Some(byte)) => {
            u8::from(made) == byte
                && char::from(Char8::from(byte)) == character
                && made.eq_char(character)
                && !made.eq_char('\u{141}')
        }
        (Err(error), None) => error == CharConversionError,
        _ => false,
    }
}

/// Returns whether a character converts to this code unit by both calls and back, or is refused if there is
/// none.
fn has_unit(character: char, want: Option<u16>) -> bool {
    match (Char16::try_from_char(character), want) {
        (Ok(made), Some(unit)) => {
            u16::from(made) == unit
                && Char16::try_from(character) == Ok(made)
                && char::from(made) == character
                && made.eq_char(character)
                && !made.eq_char('\u{10041}')
                && made.is_ascii() == character.is_ascii()
        }
        (Err(error), None) => Char16::try_from(character) == Err(error),
        _ => false,
    }
}

#[test]
fn characters_and_their_numbers(rt: HostRuntime) {
    for (character, byte, unit) in CHARACTERS {
        let is_right = has_byte(*character, *byte) && has_unit(*character, *unit);
        assert!(rt; is_right, "{character:?}");
    }
    assert!(rt; Char8::default() == NUL_8 && Char16::default() == NUL_16);
}

/// Code units, and whether each is a character.
const UNITS: &[(u16, bool)] = &[
    (0xd7ff, true),
    (0xd800, false),
    (0xdfff, false),
    (0xe000, true),
    (0xffff, true),
];

#[test]
fn code_units_as_characters(rt: HostRuntime) {
    for (unit, is_character) in UNITS {
        let want = if *is_character {
            Ok(*unit)
        } else {
            Err(CharConversionError)
        };
        assert!(rt; Char16::try_from(*unit).map(u16::from) == want, "{unit}");
    }
}

#[test]
fn printed_characters(rt: HostRuntime) -> Result<(), Fail> {
    assert!(rt;
        prints(rt.alloc(), &Char8::from(65), "A|'A'")
            && prints(rt.alloc(), &Char8::from(0xe9), "é|'é'")
            && prints(rt.alloc(), &NUL_8, "\0|'\\0'")
            && prints(rt.alloc(), &Char16::try_from('ꋃ')?, "ꋃ|'ꋃ'")
            && prints(rt.alloc(), &Char16::try_from('\n')?, "\n|'\\n'")
    );
    Ok(())
}
