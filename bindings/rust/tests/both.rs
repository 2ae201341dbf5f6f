//! What this crate and the crate `uefi` have in common, by names that both have: the file also passes with `uefi` in place of
//! `nardcorbel` in its `use` lines, which a test of the repository tries.
#![cfg(feature = "alloc")]

use nardcorbel::data_types::{
    CharConversionError, EqStrUntilNul, FromSliceUntilNulError, FromSliceWithNulError,
    FromStrError, FromStrWithBufError, UnalignedCStr16Error, UnalignedSlice, NUL_16, NUL_8,
};
use nardcorbel::fs::{Path, PathBuf, PathError, CHARACTER_DENY_LIST, SEPARATOR, SEPARATOR_STR};
use nardcorbel::{char16, cstr16, cstr8, CStr16, CStr8, CString16, Char16, Char8};
use std::borrow::Borrow;
use std::collections::HashSet;
use std::mem::MaybeUninit;

/// A string of its own.
fn owned(text: &str) -> CString16 {
    CString16::try_from(text).unwrap()
}

/// A path of its own.
fn path_of(text: &str) -> PathBuf {
    PathBuf::from(owned(text))
}

/// The bytes of units, as the machine stores them.
fn bytes_of(units: &[u16]) -> &[u8] {
    // SAFETY: two bytes of any value are a unit.
    unsafe { units.align_to().1 }
}

/// The error of a call.
fn refusal<T, E>(result: Result<T, E>) -> Option<E> {
    result.err()
}

#[test]
fn characters_of_chars() {
    for (character, latin, ucs) in [
        ('A', Ok(0x41), Ok(0x41)),
        ('ÿ', Ok(0xff), Ok(0xff)),
        ('Ā', Err(CharConversionError), Ok(0x100)),
        ('ꋃ', Err(CharConversionError), Ok(0xa2c3)),
        ('😀', Err(CharConversionError), Err(CharConversionError)),
    ] {
        assert_eq!(Char8::try_from(character).map(u8::from), latin);
        assert_eq!(Char16::try_from(character).map(u16::from), ucs);
        assert_eq!(Char16::try_from_char(character).map(u16::from), ucs);
    }
    assert_eq!(Char16::try_from(0xd800), Err(CharConversionError));
    assert_eq!(Char16::try_from(0x20ac).map(char::from), Ok('€'));
}

#[test]
fn characters_beside_chars() {
    assert_eq!(Char8::from(0x41), 'A');
    assert_eq!(char16!('A'), 'A');
    assert!(char16!('\u{7f}').is_ascii() && !char16!('\u{80}').is_ascii());
    assert_eq!((Char8::default(), Char16::default()), (NUL_8, NUL_16));
    assert_eq!(format!("{}{:?}", char16!('a'), char16!('\'')), "a'\\''");
    assert_eq!(char::from(Char8::from(0xe9)), 'é');
}

#[test]
fn unaligned_items() {
    // The first byte puts the items at odd addresses, if the array is at an even one.
    let bytes: [u8; 13] = [
        0, 0x10, 0x11, 0x12, 0x13, 0x20, 0x21, 0x22, 0x23, 0x30, 0x31, 0x32, 0x33,
    ];
    let items = [0x1312_1110, 0x2322_2120, 0x3332_3130];
    let data: *const u32 = bytes[1..].as_ptr().cast();
    // SAFETY: there are three items.
    let (none, all) = unsafe { (UnalignedSlice::new(data, 0), UnalignedSlice::new(data, 3)) };
    assert!(none.is_empty() && !all.is_empty() && all.len() == 3 && all.as_ptr() == data);
    let found: Vec<_> = (0..4).map(|it| all.get(it)).collect();
    assert_eq!(
        found,
        [Some(items[0]), Some(items[1]), Some(items[2]), None]
    );
    let mut copy = [0; 3];
    all.copy_to(&mut copy);
    assert_eq!(copy, items);
    assert_eq!(all.iter().collect::<Vec<_>>(), items);
    assert_eq!((&all).into_iter().collect::<Vec<_>>(), items);
    assert_eq!(all.to_vec(), items);
    assert_eq!(all.into_iter().collect::<Vec<_>>(), items);
}

#[test]
fn unaligned_strings() {
    let mut bytes = [0; 11];
    for (index, byte) in [b't', 0, b'e', 0, b's', 0, b't', 0, 0, 0]
        .into_iter()
        .enumerate()
    {
        bytes[index + 1] = byte;
    }
    // SAFETY: there are five units.
    let units: UnalignedSlice<'_, u16> =
        unsafe { UnalignedSlice::new(bytes[1..].as_ptr().cast(), 5) };
    let mut room = [MaybeUninit::new(9); 6];
    assert_eq!(
        units.to_cstr16(&mut room[..4]),
        Err(UnalignedCStr16Error::BufferTooSmall)
    );
    assert_eq!(units.to_cstr16(&mut room[..5]).unwrap(), owned("test"));
    assert_eq!(
        CStr16::from_unaligned_slice(&units, &mut room),
        Ok(cstr16!("test"))
    );
    assert_eq!(units.to_cstring16(), Ok(owned("test")));
}

#[test]
fn strings_of_latin1() {
    let string: &CStr8 = c"hello world".try_into().unwrap();
    assert!(string.eq_str_until_nul("hello world\0") && "hello world\0".eq_str_until_nul(string));
    for (bytes, error) in [
        (&b""[..], FromSliceWithNulError::NotNulTerminated),
        (b"ab", FromSliceWithNulError::NotNulTerminated),
        (b"a\0b\0", FromSliceWithNulError::InteriorNul(1)),
    ] {
        assert_eq!(refusal(CStr8::from_bytes_with_nul(bytes)), Some(error));
    }
    let string = cstr8!("a");
    assert_eq!(string.as_bytes(), [b'a', 0]);
    assert_eq!(AsRef::<[u8]>::as_ref(string), [b'a', 0]);
    assert_eq!(Borrow::<[u8]>::borrow(string), [b'a', 0]);
    assert_eq!(cstr8!("abc").to_string(), "abc");
    assert_eq!(cstr8!("é").as_bytes(), [0xe9, 0]);
    // SAFETY: the string ends in a NUL.
    assert_eq!(unsafe { CStr8::from_ptr(string.as_ptr()) }, string);
}

#[test]
fn strings_up_to_a_nul() {
    for (units, wanted) in [
        (&[][..], Err(FromSliceUntilNulError::NoNul)),
        (&[65, 66], Err(FromSliceUntilNulError::NoNul)),
        (
            &[65, 0xde01, 0],
            Err(FromSliceUntilNulError::InvalidChar(1)),
        ),
        (&[97, 98, 0], Ok("ab")),
        (&[97, 0, 98, 0], Ok("a")),
    ] {
        assert_eq!(
            CStr16::from_u16_until_nul(units).map(|it| it.to_string()),
            wanted.map(String::from)
        );
    }
    let (a, b) = (char16!('a'), char16!('b'));
    for (chars, wanted) in [
        (&[][..], Err(FromSliceUntilNulError::NoNul)),
        (&[a, b], Err(FromSliceUntilNulError::NoNul)),
        (&[a, b, NUL_16], Ok(cstr16!("ab"))),
        (&[a, NUL_16, b, NUL_16], Ok(cstr16!("a"))),
    ] {
        assert_eq!(CStr16::from_char16_until_nul(chars), wanted);
    }
}

#[test]
fn strings_of_all_units() {
    for (units, wanted) in [
        (&[][..], Err(FromSliceWithNulError::NotNulTerminated)),
        (&[65, 66], Err(FromSliceWithNulError::NotNulTerminated)),
        (&[65, 0, 66, 0], Err(FromSliceWithNulError::InteriorNul(1))),
        (&[0xd800, 0], Err(FromSliceWithNulError::InvalidChar(0))),
        (&[65, 66, 0], Ok("AB")),
    ] {
        assert_eq!(
            CStr16::from_u16_with_nul(units).map(|it| it.to_string()),
            wanted.map(String::from)
        );
        let again = CString16::try_from(units.to_vec());
        assert_eq!(again.map(|it| it.to_string()), wanted.map(String::from));
    }
    let (a, b) = (char16!('a'), char16!('b'));
    for (chars, wanted) in [
        (&[][..], Err(FromSliceWithNulError::NotNulTerminated)),
        (&[a, b], Err(FromSliceWithNulError::NotNulTerminated)),
        (
            &[a, NUL_16, b, NUL_16],
            Err(FromSliceWithNulError::InteriorNul(1)),
        ),
        (&[a, NUL_16, b], Err(FromSliceWithNulError::InteriorNul(1))),
        (&[a, b, NUL_16], Ok(cstr16!("ab"))),
    ] {
        assert_eq!(CStr16::from_char16_with_nul(chars), wanted);
    }
}

#[test]
fn strings_of_bytes() {
    let units = [b'A'.into(), b'B'.into(), 0];
    let string = CStr16::from_bytes_with_nul(bytes_of(&units)).unwrap();
    assert_eq!(string.to_u16_slice_with_nul(), units);
    assert!(CStr16::from_bytes_with_nul(bytes_of(&[0]))
        .unwrap()
        .is_empty());
    for (bytes, error) in [
        (
            &bytes_of(&[65, 0])[..3],
            FromSliceWithNulError::NotNulTerminated,
        ),
        (bytes_of(&[65, 66]), FromSliceWithNulError::NotNulTerminated),
        (
            bytes_of(&[65, 0x100]),
            FromSliceWithNulError::NotNulTerminated,
        ),
        (
            bytes_of(&[65, 0, 66, 0]),
            FromSliceWithNulError::InteriorNul(1),
        ),
        (
            bytes_of(&[0xd800, 0]),
            FromSliceWithNulError::InvalidChar(0),
        ),
        (
            &bytes_of(&[65, 0, 0])[1..5],
            FromSliceWithNulError::NotAligned,
        ),
    ] {
        assert_eq!(refusal(CStr16::from_bytes_with_nul(bytes)), Some(error));
    }
}

#[test]
fn strings_in_buffers() {
    for (text, wanted, after) in [
        ("ABC", Ok(&[65, 66, 67, 0][..]), [65, 66, 67, 0]),
        ("A", Ok(&[65, 0]), [65, 0, 9, 9]),
        (
            "ABCD",
            Err(FromStrWithBufError::BufferTooSmall),
            [65, 66, 67, 68],
        ),
        (
            "ab\0😀",
            Err(FromStrWithBufError::BufferTooSmall),
            [97, 98, 0, 0xd83d],
        ),
        (
            "a😀",
            Err(FromStrWithBufError::InvalidChar(1)),
            [97, 0xd83d, 0xde00, 0],
        ),
        (
            "a\0b",
            Err(FromStrWithBufError::InteriorNul(1)),
            [97, 0, 98, 0],
        ),
    ] {
        let mut buffer = [9; 4];
        let found = CStr16::from_str_with_buf(text, &mut buffer);
        assert_eq!(found.map(|it| it.to_u16_slice_with_nul()), wanted);
        assert_eq!(buffer, after);
    }
}

#[test]
fn widths() {
    let (latin, string) = (cstr8!("ab"), cstr16!("é"));
    assert_eq!(format!("{latin:<3}|{string:->3}|"), "a  b  |--é|");
    assert_eq!(format!("{:^3.0}|", path_of("a")), "   |");
}

#[test]
fn parts_of_strings() {
    const ABC: &CStr16 = cstr16!("ABC");
    assert_eq!(ABC.to_u16_slice_with_nul(), [65, 66, 67, 0]);
    assert_eq!(ABC.to_u16_slice(), [65, 66, 67]);
    assert_eq!(
        (ABC.num_chars(), ABC.num_bytes(), ABC.to_string()),
        (3, 8, "ABC".to_string())
    );
    assert!(ABC.is_ascii() && !cstr16!("é").is_ascii() && cstr16!().is_empty());
    let string = cstr16!("a");
    assert_eq!(string.as_slice(), [char16!('a')]);
    assert_eq!(string.as_slice_with_nul(), [char16!('a'), NUL_16]);
    assert_eq!(string.as_bytes(), [b'a', 0, 0, 0]);
    assert_eq!(AsRef::<[u8]>::as_ref(string), [b'a', 0, 0, 0]);
    assert_eq!(Borrow::<[u8]>::borrow(string), [b'a', 0, 0, 0]);
    assert!(ABC.iter().copied().map(char::from).eq("ABC".chars()));
    let mut text = String::new();
    ABC.as_str_in_buf(&mut text).unwrap();
    assert_eq!((text.as_str(), String::from(ABC).as_str()), ("ABC", "ABC"));
    // SAFETY: the string ends in a NUL.
    assert_eq!(unsafe { CStr16::from_ptr(ABC.as_ptr()) }, ABC);
}

/// Both directions, for `str` and `String`, of a string of `test`.
macro_rules! beside_texts {
    ($string:expr) => {
        for (text, equal) in [
            ("test", true),
            ("te\0st", true),
            ("test\0", true),
            ("hello", false),
            ("tesT", false),
        ] {
            assert_eq!($string.eq_str_until_nul(text), equal);
            assert_eq!($string.eq_str_until_nul(&text), equal);
            assert_eq!($string.eq_str_until_nul(&String::from(text)), equal);
            assert_eq!(String::from(text).eq_str_until_nul($string), equal);
            assert_eq!(text.eq_str_until_nul($string), equal);
        }
    };
}

#[test]
fn strings_beside_texts() {
    beside_texts!(cstr8!("test"));
    beside_texts!(cstr16!("test"));
    beside_texts!(&owned("test"));
}

#[test]
fn owned_strings() {
    assert_eq!(owned("x").as_slice_with_nul(), [char16!('x'), NUL_16]);
    assert_eq!(CString16::try_from("😀"), Err(FromStrError::InvalidChar));
    assert_eq!(CString16::try_from("x\0"), Err(FromStrError::InteriorNul));
    assert_eq!(
        CString16::try_from(vec![]),
        Err(FromSliceWithNulError::NotNulTerminated)
    );
    assert_eq!(CString16::try_from(vec![b'x'.into(), 0]), Ok(owned("x")));
    assert_eq!(cstr16!("abc"), owned("abc"));
    assert_eq!(owned("abc"), cstr16!("abc"));
    let again: CString16 = cstr16!("ab").to_owned();
    let borrowed: &CStr16 = again.borrow();
    assert_eq!(borrowed, cstr16!("ab"));
    assert_eq!(
        again.as_slice_with_nul(),
        [char16!('a'), char16!('b'), NUL_16]
    );
    assert_eq!(
        (CString16::default(), owned("a") < owned("ab")),
        (CString16::new(), true)
    );
    let names: HashSet<CString16> = [owned("a"), owned("b"), owned("a")].into();
    assert!(names.len() == 2 && names.contains(cstr16!("b")));
}

#[test]
fn owned_strings_that_change() {
    let mut greeting = CString16::new();
    assert_eq!((greeting.num_bytes(), greeting.num_chars()), (2, 0));
    greeting.push(char16!('h'));
    greeting.push(char16!('i'));
    let mut all = CString16::new();
    all.push(char16!('!'));
    all.push_str(greeting.as_ref());
    all.extend(&[char16!('!')]);
    assert_eq!(
        (all.num_chars(), String::from(&all)),
        (4, "!hi!".to_string())
    );
    let mut slashes = owned("foo/bar/foobar//");
    slashes.replace_char(char16!('/'), char16!('\\'));
    assert_eq!(slashes.to_string(), r"foo\bar\foobar\\");
    for _ in 0..2 {
        all.clear();
        assert_eq!(all.as_slice_with_nul(), [NUL_16]);
    }
}

#[test]
#[should_panic]
fn a_nul_is_not_added() {
    CString16::new().push(NUL_16);
}

#[test]
#[should_panic]
fn a_nul_replaces_nothing() {
    owned("a").replace_char(char16!('a'), NUL_16);
}

#[test]
fn paths_of_strings() {
    let text = r"\hello\foo\bar";
    let (string, again) = (cstr16!(r"\hello\foo\bar"), owned(text));
    let borrowed: [&Path; 4] = [
        string.into(),
        Path::new(string),
        again.as_ref().into(),
        Path::new(&again),
    ];
    let copies: [PathBuf; 4] = [
        string.into(),
        again.as_ref().into(),
        again.clone().into(),
        path_of(text),
    ];
    for (one, two) in borrowed.iter().zip(&copies) {
        assert_eq!(one.to_cstr16(), two.to_cstr16());
    }
    let path: &Path = copies[0].borrow();
    let string: &CStr16 = path.as_ref();
    assert_eq!(
        (string.to_string(), path.to_string()),
        (text.to_string(), text.to_string())
    );
    assert_eq!(path_of("/a/b").to_cstr16(), cstr16!(r"\a\b"));
}

#[test]
fn components() {
    let three: &[&[Char16]] = &[
        cstr16!("foo").as_slice(),
        cstr16!("bar").as_slice(),
        cstr16!("hello").as_slice(),
    ];
    for (text, wanted) in [
        (cstr16!(r"foo\bar\hello"), three),
        (cstr16!(r"\foo\bar\hello"), three),
        (cstr16!(), &[]),
        (cstr16!(""), &[]),
        (cstr16!(r"\"), &[]),
        (cstr16!(r"\\a"), &[&[], &[char16!('a')]]),
        (cstr16!(r"a\"), &[&[char16!('a')], &[]]),
    ] {
        assert_eq!(
            Path::new(text).components().collect::<Vec<_>>(),
            wanted,
            "{text}"
        );
    }
}

#[test]
fn parents() {
    for (text, parent) in [
        ("", None),
        (r"\", None),
        (r"a\b", Some("a")),
        (r"\a\b", Some("a")),
        (r"a\b\c\d", Some(r"a\b\c")),
        ("abc", None),
    ] {
        assert_eq!(path_of(text).parent(), parent.map(path_of), "{text}");
    }
}

#[test]
fn equal_paths() {
    let [one, two, three] = [r"a\b", r"\a\b", r"a\b\c"].map(path_of);
    let paths: [&Path; 3] = [one.as_ref(), two.as_ref(), three.as_ref()];
    for (row, path) in paths.iter().enumerate() {
        for (column, other) in paths.iter().enumerate() {
            assert_eq!(path == other, (row < 2) == (column < 2), "{path} {other}");
        }
    }
    assert!(one == two && one != three && one <= one && path_of("a") < path_of("b"));
}

#[test]
fn joined_paths() {
    let (one, two, all) = (path_of(r"a\b"), path_of(r"c\d"), path_of(r"a\b\c\d"));
    let (first, second): (&Path, &Path) = (&one, &two);
    assert_eq!(first.join(second), all.to_path_buf());
    assert_eq!(one.join(two), all);
    assert_eq!(one.join(cstr16!("c/d")).to_cstr16(), all.to_cstr16());
    for (parts, whole) in [
        (&["first", "second", "third"][..], r"first\second\third"),
        (&[r"\first", "second"], r"\first\second"),
        (&["first", "", "", "", "second"], r"first\second"),
        (&[], ""),
    ] {
        let mut path = PathBuf::new();
        for part in parts {
            let part = owned(part);
            let part: &CStr16 = part.as_ref();
            path.push(part);
        }
        assert_eq!(path.to_cstr16(), &*owned(whole));
    }
    let mut path = path_of("first");
    for _ in 0..2 {
        path.clear();
        assert_eq!((path.to_cstr16(), path.is_empty()), (cstr16!(), true));
    }
}

#[test]
fn names_of_paths() {
    assert_eq!((SEPARATOR, SEPARATOR_STR), (char16!('\\'), cstr16!("\\")));
    let denied: String = CHARACTER_DENY_LIST
        .iter()
        .map(|it| char::from(*it))
        .collect();
    assert_eq!(denied, "\0\"*/:<>?\\|");
    let error = PathError::IllegalChar(CHARACTER_DENY_LIST[6]);
    assert_eq!(error, PathError::IllegalChar(char16!('>')));
    assert_ne!(PathError::Empty, PathError::EmptyComponent);
}

#[test]
fn errors_are_errors() {
    let (place, nul) = ("at index 7", "interior null character");
    let errors: [(&dyn std::error::Error, String); 16] = [
        (&CharConversionError, "CharConversionError".into()),
        (
            &FromSliceUntilNulError::InvalidChar(7),
            format!("invalid character {place}"),
        ),
        (&FromSliceUntilNulError::NoNul, "no nul character".into()),
        (
            &FromSliceWithNulError::InvalidChar(7),
            format!("invalid character {place}"),
        ),
        (
            &FromSliceWithNulError::InteriorNul(7),
            format!("{nul} {place}"),
        ),
        (
            &FromSliceWithNulError::NotNulTerminated,
            "not null-terminated".into(),
        ),
        (
            &FromSliceWithNulError::NotAligned,
            "slice is not aligned to a 16-bit boundary".into(),
        ),
        (
            &UnalignedCStr16Error::InteriorNul(7),
            format!("{nul} {place}"),
        ),
        (
            &UnalignedCStr16Error::BufferTooSmall,
            "buffer too small".into(),
        ),
        (
            &FromStrWithBufError::InteriorNul(7),
            format!("{nul} {place}"),
        ),
        (
            &FromStrWithBufError::BufferTooSmall,
            "buffer too small".into(),
        ),
        (
            &FromStrError::InvalidChar,
            "UCS-2 Conversion Error: Invalid character".into(),
        ),
        (
            &FromStrError::InteriorNul,
            "UCS-2 Conversion Error: Interior null terminator".into(),
        ),
        (&PathError::Empty, "path is empty".into()),
        (
            &PathError::EmptyComponent,
            "path contains an empty component".into(),
        ),
        (
            &PathError::IllegalChar(char16!('7')),
            "path contains an illegal character (value 55)".into(),
        ),
    ];
    for (error, text) in errors {
        assert_eq!(error.to_string(), text);
    }
}
