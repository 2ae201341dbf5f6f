//! The order of strings and characters, and both as keys of sets.

use for_tests::{are_ordered, string};
use std::alloc::Global;
use std::cmp::Ordering::{self, Equal, Greater, Less};
use std::collections::HashSet;
use std::hash::Hash;
use std::test::Fail;
use uefi_text::{CStr8, CStr16};

/// The units of two strings, and their order.
const ORDERS: &[(&[u16], &[u16], Ordering)] = &[
    (&[0xffff, 0], &[0xe000, 0], Greater),
    (&[97, 0], &[97, 98, 0], Less),
    (&[97, 98, 0], &[97, 98, 0], Equal),
];

/// The bytes of two Latin-1 strings, and their order.
const LATIN1_ORDERS: &[(&[u8], &[u8], Ordering)] = &[
    (&[65, 0], &[65, 66, 0], Less),
    (&[0xff, 0], &[65, 66, 0], Greater),
];

#[test]
fn orders(rt: HostRuntime) -> Result<(), Fail> {
    for (a, b, want) in ORDERS {
        let (a, b) = (CStr16::from_u16_with_nul(a)?, CStr16::from_u16_with_nul(b)?);
        let (owned, other) = (a.to_owned(rt.alloc())?, b.to_owned(rt.alloc())?);
        let is_right = are_ordered(&a, &b, *want) && are_ordered(&owned, &other, *want);
        assert!(rt; is_right, "{a} and {b}");
    }
    for (a, b, want) in LATIN1_ORDERS {
        let (a, b) = (
            CStr8::from_bytes_with_nul(a)?,
            CStr8::from_bytes_with_nul(b)?,
        );
        assert!(rt; are_ordered(&a, &b, *want), "{a} and {b}");
    }
    Ok(())
}

/// Returns whether the first two keys are new in a set, but the third is not.
fn are_keys<T: Hash + Eq + Drop>(alloc: Global, keys: [T; 3]) -> Result<bool, Fail> {
    let [first, other, same] = keys;
    let mut seen = HashSet::new(alloc);
    Ok(seen.insert(first)? && seen.insert(other)? && !seen.insert(same)?)
}

#[test]
fn keys_of_sets(rt: HostRuntime) -> Result<(), Fail> {
    let (a, b) = (
        CStr16::from_u16_with_nul(&[97, 0])?,
        CStr16::from_u16_with_nul(&[0xe9, 0])?,
    );
    let owned = [
        string(rt.alloc(), "a")?,
        string(rt.alloc(), "é")?,
        string(rt.alloc(), "a")?,
    ];
    let same = owned[2].as_cstr16();
    assert!(rt;
        are_keys(rt.alloc(), [a, b, same])?
            && are_keys(rt.alloc(), [a.as_slice(), b.as_slice(), same.as_slice()])?
            && are_keys(rt.alloc(), owned)?
    );
    let bytes = CStr8::from_bytes_with_nul(b"a\0")?;
    let keys = [bytes, CStr8::from_bytes_with_nul(&[0])?, bytes];
    assert!(rt; are_keys(rt.alloc(), keys)?);
    Ok(())
}
