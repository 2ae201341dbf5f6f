//! The calls that the crate `uefi` lacks: each once with an answer and once refused.
#![cfg(feature = "alloc")]

use nardcorbel::data_types::UnalignedSlice;
use nardcorbel::fs::{validate_path, PathError, CHARACTER_DENY_LIST};
use nardcorbel::{
    cstr16, guid, order_numbers, str_from_units_lossy, CString16, Guid, LoadOptionKind,
    LoadOptionName, OrderBuffer, Path, PathBuf, Reason, Shown,
};
use std::cmp::Ordering;
use std::collections::{BTreeSet, HashSet};
use std::hash::{Hash, Hasher};

#[test]
fn strings() {
    let (string, capitals) = (cstr16!("Boot.efi"), cstr16!("BOOT.EFI"));
    assert!(
        string == "Boot.efi" && *string != *"Boot" && string != "Boot.efi." && !string.is_empty()
    );
    assert!(
        string.eq_ignore_case(capitals)
            && string != capitals
            && string.matches(cstr16!("b*.[e-f]f?"))
    );
    assert_eq!(
        (string.cmp_ignore_case(capitals), string.cmp(capitals)),
        (Ordering::Equal, Ordering::Greater)
    );
    assert!(
        string.chars().rev().eq("ife.tooB".chars()) && string.iter().rev().eq(string.iter().rev())
    );
    assert_eq!((string.iter().len(), string.into_iter().count()), (8, 8));
    assert_eq!((string.len(), cstr16!("").len()), (8, 0));
    let [one, two, three] = [cstr16!(" Boot.efi. "), capitals, cstr16!("boot")];
    assert!(one.is_same_fat_file(two) && !one.is_same_fat_file(three));
    assert_eq!(
        format!("{:?}", cstr16!("a\"\u{1b}")),
        "CStr16(\"a\\\"\\u{1b}\")"
    );
}

#[test]
fn buffers_and_what_is_no_string() {
    let mut bytes = [9; 3];
    assert_eq!(cstr16!("é").to_str_in_buf(&mut bytes), Ok("é"));
    let error = cstr16!("é").to_str_in_buf(&mut bytes[..2]).unwrap_err();
    assert_eq!((error.reason, error.place), (Reason::BufferTooSmall, 3));
    let units = [0x61, 0xd800, 0xd83d, 0xde00, 0, 0x62];
    assert_eq!(
        str_from_units_lossy(&units, &mut [9; 16]),
        Ok("a\u{fffd}\u{1f600}")
    );
    let error = str_from_units_lossy(&units, &mut [9; 8]).unwrap_err();
    assert_eq!((error.reason, error.place), (Reason::BufferTooSmall, 9));
    assert_eq!(
        Shown("red\u{1b}\u{202e}".chars()).to_string(),
        "red\\u{1b}\\u{202e}"
    );
}

#[test]
fn paths() {
    let [path, same, other] =
        [r"\efi\.\Boot\a.efi", r"efi\.\Boot\a.efi", r"EFI\*\*\?.efi"].map(path_of);
    assert!(path == same && path.cmp(&same) == Ordering::Equal && path != other);
    assert!(path.matches(&other) && path.eq_ignore_case(&same));
    assert!(path.iter().eq(["efi", ".", "Boot", "a.efi"]));
    assert!(path.iter().rev().eq(["a.efi", "Boot", ".", "efi"]));
    assert_eq!(path.file_name(), Some(cstr16!("a.efi")));
    let mut buffer = [9; 32];
    assert_eq!(
        path.normalize_in_buf(&mut buffer).unwrap(),
        r"efi\Boot\a.efi"
    );
    assert_eq!(path.normalize().unwrap(), r"efi\Boot\a.efi");
    assert_eq!(path_of("a/..").normalize().unwrap().to_string(), r"\");
    assert_eq!(path.parent_in_buf(&mut buffer).unwrap(), r"efi\.\Boot");
    let [folder, file] = ["/a/b", "c/d"].map(path_of);
    assert_eq!(
        folder.join_in_buf(&file, &mut buffer).unwrap().to_string(),
        r"\a\b\c\d"
    );
    let error = path.normalize_in_buf(&mut buffer[..3]).unwrap_err();
    assert_eq!((error.reason, error.place), (Reason::BufferTooSmall, 15));
    assert_eq!(
        Path::normalize_str_in_buf("/efi/é/../a", &mut buffer).unwrap(),
        r"efi\a"
    );
    for (text, room, reason, place) in [
        ("abc", 7, Reason::BufferTooSmall, 8),
        ("a/..\0", 32, Reason::InteriorNul, 4),
    ] {
        let error = Path::normalize_str_in_buf(text, &mut buffer[..room]).unwrap_err();
        assert_eq!((error.reason, error.place), (reason, place));
    }
    assert_eq!(
        path_of("a").parent_in_buf(&mut buffer).unwrap_err().reason,
        Reason::NoParent
    );
}

/// A path of its own.
fn path_of(text: &str) -> PathBuf {
    text.parse().unwrap()
}

#[test]
fn components_from_both_ends() {
    for (text, wanted) in [
        ("", &[][..]),
        (r"\", &[]),
        (r"\\", &["", ""]),
        (r"a\b\c", &["a", "b", "c"]),
        (r"\a\\b\", &["a", "", "b", ""]),
    ] {
        let path = path_of(text);
        assert!(path.iter().eq(wanted.iter().copied()), "{text}");
        assert!(path.iter().rev().eq(wanted.iter().rev().copied()), "{text}");
        let (mut iter, mut left) = (path.components(), wanted.len());
        while left > 0 {
            let (least, most) = iter.size_hint();
            assert!(least <= left && most.unwrap() >= left);
            assert!(if left % 2 == 0 {
                iter.next()
            } else {
                iter.next_back()
            }
            .is_some());
            left -= 1;
        }
        assert_eq!(
            (iter.next(), iter.next_back(), iter.next()),
            (None, None, None)
        );
    }
}

#[test]
fn stems_and_starts() {
    for (text, stem, extension) in [
        ("", None, None),
        (r"\", None, None),
        (r"a\b.tar.gz", Some("b.tar"), Some("gz")),
        (r"a.b\.profile", Some(".profile"), None),
        ("a.", Some("a"), Some("")),
        (r"a\..", Some(".."), None),
        ("...", Some(".."), Some("")),
        (r"a.b\", Some(""), None),
    ] {
        let path = path_of(text);
        let found = path.file_stem().map(|it| it.to_string());
        assert_eq!(found.as_deref(), stem, "{text}");
        let found = path.extension().map(|it| it.to_string());
        assert_eq!(found.as_deref(), extension, "{text}");
    }
    for (text, base, rest) in [
        (r"a\bc", r"a\b", None),
        (r"a\bc", r"\a", Some(&["bc"][..])),
        (r"\a\b", "", Some(&["a", "b"])),
        (r"a\", "a", Some(&[""])),
        ("a", r"a\b", None),
        ("a", "a", Some(&[])),
    ] {
        let (path, base) = (path_of(text), path_of(base));
        let found: Option<Vec<_>> = path
            .strip_prefix(&base)
            .map(|it| it.map(|it| it.to_string()).collect());
        assert_eq!(found.is_some(), path.starts_with(&base));
        assert_eq!(
            found,
            rest.map(|it| it.iter().map(ToString::to_string).collect())
        );
    }
    for (text, wanted) in [("", r"\"), (r"\", r"\"), ("a/b", r"\a\b"), (r"\a", r"\a")] {
        let path = path_of(text);
        assert_eq!(path.with_root().to_string(), wanted);
        let mut buffer = [0; 5];
        let written = path.with_root_in_buf(&mut buffer).unwrap();
        assert_eq!(written.to_string(), wanted);
    }
    assert!(path_of("ab").with_root_in_buf(&mut [0; 3]).is_err());
}

#[test]
fn verdicts() {
    for (text, verdict) in [
        (r"hello\foo\bar", Ok(())),
        (
            r"hello\f>oo\bar",
            Err(PathError::IllegalChar(CHARACTER_DENY_LIST[6])),
        ),
        (r"hello\\bar", Err(PathError::EmptyComponent)),
        ("", Err(PathError::Empty)),
        (r"..\a", Err(PathError::ClimbsAboveRoot)),
    ] {
        assert_eq!(validate_path(path_of(text)), verdict);
    }
    let error = PathError::IllegalChar(CHARACTER_DENY_LIST[6]);
    assert_eq!(
        error.to_string(),
        "path contains an illegal character (value 62)"
    );
}

#[test]
fn refused_paths() {
    for (text, sentence, place, character) in [
        ("", "path is empty", 0, None),
        (
            r"a\\b",
            "path contains an empty component at index 2",
            2,
            None,
        ),
        (
            r"\a\b\",
            "path contains an empty component at index 5",
            5,
            None,
        ),
        (
            r"\a\x:y\z",
            "path contains an illegal character (value 58) at index 4: ':'",
            4,
            Some(':'),
        ),
        (
            r"a\.\..\..\b",
            "path climbs above the root at index 7",
            7,
            None,
        ),
    ] {
        let error = path_of(text).validate().unwrap_err();
        assert_eq!(
            (error.to_string().as_str(), error.place, error.character),
            (sentence, place, character)
        );
    }
    for (text, place) in [("x/../y/../..", 10), ("/a//b", 3), ("a/b*", 3), ("//", 1)] {
        let error = Path::normalize_str_in_buf(text, &mut [0; 32]).unwrap_err();
        assert_eq!(
            (error.place, error),
            (place, path_of(text).normalize().unwrap_err())
        );
        let path = Path::new(&CString16::try_from(text).unwrap()).normalize();
        assert_eq!(path.unwrap_err(), error);
    }
    let error = path_of("a:b").normalize().unwrap_err();
    assert_eq!(
        (error.reason, error.character),
        (Reason::IllegalChar, Some(':'))
    );
    for (text, sentence) in [
        ("ab😀", "invalid character at index 2: '😀'"),
        ("ab\0", "interior null character at index 2"),
    ] {
        assert_eq!(text.parse::<PathBuf>().unwrap_err().to_string(), sentence);
        assert_eq!(text.parse::<CString16>().unwrap_err().to_string(), sentence);
        assert_eq!(path_of("c").join(text).unwrap_err().to_string(), sentence);
        let mut path = path_of("c");
        assert!(path.push(text).is_err() && path == "c");
    }
}

#[test]
fn paths_in_collections() {
    let paths = [r"\b", "b", "a", r"a\c", r"\a\c"].map(path_of);
    let ordered: Vec<_> = paths
        .iter()
        .cloned()
        .collect::<BTreeSet<_>>()
        .into_iter()
        .collect();
    assert_eq!(ordered, ["a", r"a\c", "b"]);
    let set: HashSet<_> = paths.iter().cloned().collect();
    assert_eq!(
        (set.len(), set.contains(Path::new(cstr16!(r"\a")))),
        (3, true)
    );
    let joined: PathBuf = paths.iter().take(3).collect();
    assert_eq!(joined.to_string(), r"\b\b\a");
    assert_eq!(path_of(r"a\").join(cstr16!("b")).to_string(), r"a\b");
}

/// The bytes that a value gives a hasher.
#[derive(Default)]
struct Told(Vec<Vec<u8>>);

impl Hasher for Told {
    fn write(&mut self, bytes: &[u8]) {
        self.0.push(bytes.to_vec());
    }

    fn finish(&self) -> u64 {
        0
    }
}

fn told(value: &(impl Hash + ?Sized)) -> Vec<Vec<u8>> {
    let mut hasher = Told::default();
    value.hash(&mut hasher);
    hasher.0
}

#[test]
fn hashes_of_what_is_equal() {
    let (string, path) = (cstr16!("ab"), path_of(r"\ab"));
    assert_eq!(told(string), told(&CString16::from(string)));
    assert_eq!(told(string), told(&path));
    assert_eq!(told(Path::new(string)), told(&*path));
    assert_ne!(told(string), told(cstr16!("a")));
}

#[test]
fn guids() {
    let text = "c12a7328-f81f-11d2-ba4b-00a0c93ec93b";
    let system = guid!("C12A7328-F81F-11D2-BA4B-00A0C93EC93B");
    assert_eq!(
        (text.parse(), system.to_string()),
        (Ok(system), text.to_string())
    );
    assert_eq!(
        system.to_bytes(),
        *b"\x28\x73\x2a\xc1\x1f\xf8\xd2\x11\xba\x4b\x00\xa0\xc9\x3e\xc9\x3b"
    );
    assert_eq!(Guid::from_bytes([0; 16]), Guid::ZERO);
    assert!(Guid::ZERO.is_zero() && !system.is_zero());
    for (text, place) in [
        (&text[..35], 35),
        ("c12a7328_", 8),
        ("x", 0),
        (&format!("{text}0"), 36),
    ] {
        assert_eq!(text.parse::<Guid>().unwrap_err().place, place);
    }
}

#[test]
fn boot_variables() {
    let name = LoadOptionName::from_cstr16(cstr16!("SysPrep0A1F")).unwrap();
    assert_eq!((name.kind, name.number), (LoadOptionKind::SysPrep, 0xa1f));
    let mut buffer = [9; 24];
    assert_eq!(name.to_cstr16_in_buf(&mut buffer).unwrap(), "SysPrep0A1F");
    let error = name.to_cstr16_in_buf(&mut buffer[..11]).unwrap_err();
    assert_eq!((error.reason, error.place), (Reason::BufferTooSmall, 12));
    for kind in [
        LoadOptionKind::Boot,
        LoadOptionKind::Driver,
        LoadOptionKind::SysPrep,
        LoadOptionKind::PlatformRecovery,
    ] {
        let name = LoadOptionName {
            kind,
            number: 0xbeef,
        };
        assert_eq!(name.to_string(), format!("{kind:?}BEEF"));
        assert_eq!(name.to_string().parse(), Ok(name));
    }
    for text in [
        "BootOrder",
        "Boot001f",
        "",
        "PlatformRecovery00000",
        "Boot00é0",
    ] {
        assert_eq!(
            text.parse::<LoadOptionName>().unwrap_err().reason,
            Reason::NotAName
        );
    }
}

#[test]
fn orders() {
    assert!(order_numbers(&[1, 0, 0, 2]).unwrap().eq([1, 0x200]));
    assert_eq!(
        (
            order_numbers(&[]).unwrap().len(),
            order_numbers(&[1, 0]).unwrap().len()
        ),
        (0, 1)
    );
    assert_eq!(order_numbers(&[1]).unwrap_err().reason, Reason::OddBytes);
    let mut places = [0; 3];
    let mut order = OrderBuffer::new(&mut places);
    for (place, number) in [(0, 7), (9, 8), (1, 9)] {
        order.insert(place, number).unwrap();
    }
    assert_eq!(order.as_slice(), [7, 9, 8]);
    let error = order.insert(0, 5).unwrap_err();
    assert_eq!((error.reason, error.place), (Reason::BufferTooSmall, 4));
    assert!(order.move_to_front(8) && !order.move_to_front(5));
    assert!(order.remove(9) && !order.remove(9));
    assert!(order.to_le_bytes().eq([8, 0, 7, 0]));
    let order = OrderBuffer::from_order(&mut places, &[3, 0, 1, 0, 3, 0]).unwrap();
    assert_eq!(order.as_slice(), [3, 1]);
    for (bytes, wanted) in [
        (&[3, 0, 1, 0, 3, 0, 5, 0][..], (Reason::BufferTooSmall, 3)),
        (&[3, 0, 1], (Reason::OddBytes, 3)),
    ] {
        let mut places = [7; 2];
        let error = OrderBuffer::from_order(&mut places, bytes).unwrap_err();
        assert_eq!(
            (error.reason, error.place, places),
            (wanted.0, wanted.1, [7; 2])
        );
    }
}

#[test]
fn lengths_of_iterators() {
    let items = [1_u16, 2, 3];
    // SAFETY: there are three items.
    let all = unsafe { UnalignedSlice::new(items.as_ptr(), 3) };
    let mut iterators: [Box<dyn ExactSizeIterator<Item = u16>>; 3] = [
        Box::new(all.iter()),
        Box::new(all.clone().into_iter()),
        Box::new(order_numbers(&[1, 0, 2, 0, 3, 0]).unwrap()),
    ];
    for iterator in &mut iterators {
        for left in [3, 2, 1, 0, 0] {
            assert_eq!(iterator.len(), left);
            iterator.next();
        }
    }
}
