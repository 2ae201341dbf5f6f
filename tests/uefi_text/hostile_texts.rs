//! Rust texts with one character that UCS-2 cannot encode, or that has another number of bytes than its
//! neighbours, at each position: converted to owned strings, in buffers, to Latin-1, and back.

use crate::hostile_units::Deciding;
use crate::strs::{gives_text, is_buffered};
use for_tests::{hostile_places, repeated};
use std::test::Fail;
use uefi_text::{
    CString16, FromStrError, FromStrWithBufError as WithBuffer, has_no_nul, is_latin1,
    str_num_latin1_chars,
};

/// Characters in the middle of a text, their UTF-16 units, how many of the units precede the one that the
/// text is refused for, and the kind of that unit.
type Row = (&'static str, &'static [u16], usize, Deciding);

const MIDDLES: &[Row] = &[
    ("", &[], 0, Deciding::None),
    ("\u{7f}", &[0x7f], 0, Deciding::None),
    ("\u{80}", &[0x80], 0, Deciding::None),
    ("\u{ff}", &[0xff], 0, Deciding::None),
    ("\u{100}", &[0x100], 0, Deciding::None),
    ("\u{7ff}", &[0x7ff], 0, Deciding::None),
    ("\u{800}", &[0x800], 0, Deciding::None),
    ("\u{e000}\u{ffff}", &[0xe000, 0xffff], 0, Deciding::None),
    ("\0", &[0], 0, Deciding::Nul),
    ("\u{10000}", &[0xd800, 0xdc00], 0, Deciding::Surrogate),
    ("\u{10ffff}", &[0xdbff, 0xdfff], 0, Deciding::Surrogate),
    ("😀\0", &[0xd83d, 0xde00, 0], 0, Deciding::Surrogate),
    ("\0😀", &[0, 0xd83d, 0xde00], 0, Deciding::Nul),
    ("ÿ😀", &[0xff, 0xd83d, 0xde00], 1, Deciding::Surrogate),
];

/// A text, its UTF-16 units, and the kind of the first unit that UCS-2 strings refuse, if there is one.
#[derive(Drop)]
struct HostileText {
    text: String,
    units: Vec<u16>,
    /// The position of the middle characters.
    place: usize,
    /// How many units precede the deciding one.
    len: usize,
    deciding: Deciding,
}

/// Returns a text of `others` copies of a character, with a row's characters at the position.
fn text_of(
    rt: &HostRuntime,
    others: usize,
    place: usize,
    other: (&str, u16),
    row: Row,
) -> Result<HostileText, Fail> {
    let (middle, middle_units, rank, deciding) = row;
    let (other, unit) = other;
    let mut text = repeated(rt.alloc(), other, place as u64)?;
    text.push_str(middle)?;
    for _ in place..others {
        text.push_str(other)?;
    }
    let mut units = Vec::new(rt.alloc());
    units.resize(place, unit)?;
    units.extend_from_slice(middle_units)?;
    units.resize(others.saturating_add(middle_units.len()), unit)?;
    Ok(HostileText {
        text,
        units,
        place,
        len: place.saturating_add(rank),
        deciding,
    })
}

/// Returns whether a text converts to a string of its units and back, or is refused.
fn is_owned(rt: &HostRuntime, hostile: &HostileText) -> Result<bool, Fail> {
    match (
        &CString16::try_from_str(rt.alloc(), &hostile.text),
        hostile.deciding,
    ) {
        (Ok(string), Deciding::None) => {
            let string = string.as_cstr16();
            Ok(
                string.to_u16_slice() == hostile.units.as_slice()
                    && string.is_ascii() == hostile.text.is_ascii()
                    && gives_text(rt, string, &hostile.text)?,
            )
        }
        (Err(error), Deciding::Nul) => Ok(*error == FromStrError::InteriorNul),
        (Err(error), Deciding::Surrogate) => Ok(*error == FromStrError::InvalidChar),
        _ => Ok(false),
    }
}

/// Returns whether a text becomes a string in a buffer of nines with this much room, or is refused, and the
/// buffer then contains as many of its units as fit.
fn is_buffered_in(rt: &HostRuntime, hostile: &HostileText, room: usize) -> Result<bool, Fail> {
    let len = hostile.units.len();
    let want = match hostile.deciding {
        _ if room <= len => Err(WithBuffer::BufferTooSmall),
        Deciding::Nul => Err(WithBuffer::InteriorNul(hostile.len)),
        Deciding::Surrogate => Err(WithBuffer::InvalidChar(hostile.len)),
        Deciding::None => Ok(len),
    };
    let mut after = hostile.units.clone()?;
    after.push(0)?;
    after.resize(room, 9)?;
    is_buffered(rt, &hostile.text, want, &after)
}

/// Returns whether `is_latin1`, `str_num_latin1_chars` and `has_no_nul` agree with the units of a text.
fn is_told_from_latin1(hostile: &HostileText) -> bool {
    let text = hostile.text.as_str();
    let mut is_wanted = true;
    for unit in &hostile.units {
        is_wanted = is_wanted && *unit <= 0xff;
    }
    is_latin1(text) == is_wanted
        && (!is_wanted || str_num_latin1_chars(text) == hostile.units.len())
        && has_no_nul(text) != hostile.units.contains(&0)
}

/// Checks `is_buffered_in` with every room if the text is short, otherwise with rooms that end before, in and
/// after the text; and with a buffer that has more than a block of room after it.
fn is_buffered_in_each(rt: &HostRuntime, hostile: &HostileText) -> Result<bool, Fail> {
    let (place, len) = (hostile.place, hostile.units.len());
    let least = if len < 12 { 0 } else { len };
    for room in least..len.saturating_add(3) {
        if !is_buffered_in(rt, hostile, room)? {
            return Ok(false);
        }
    }
    Ok(
        is_buffered_in(rt, hostile, place)?
            && is_buffered_in(rt, hostile, place.saturating_add(1))?
            && is_buffered_in(rt, hostile, len.saturating_add(70))?,
    )
}

/// Returns whether each conversion is right for a text with a row's characters at this position among
/// `others` copies of a character.
fn is_converted(
    rt: &HostRuntime,
    others: usize,
    place: usize,
    other: (&str, u16),
    row: Row,
) -> Result<bool, Fail> {
    let hostile = text_of(rt, others, place, other, row)?;
    Ok(
        is_told_from_latin1(&hostile)
            && is_owned(rt, &hostile)?
            && is_buffered_in_each(rt, &hostile)?,
    )
}

/// Positions at the edges of the first and the last blocks of long texts: how many other characters there
/// are, and how many precede the position.
const LONG_PLACES: &[(usize, usize)] = &[
    (255, 255),
    (256, 0),
    (256, 255),
    (256, 256),
    (257, 256),
    (511, 257),
    (512, 512),
    (513, 512),
    (600, 300),
];

/// Returns the first text that is converted wrongly: the number of copies of `other`, the position, and the
/// characters there.
fn find_wrong(
    rt: &HostRuntime,
    other: (&str, u16),
) -> Result<Option<(usize, usize, &'static str)>, Fail> {
    let mut places = hostile_places(rt.alloc())?;
    places.extend_from_slice(LONG_PLACES)?;
    for (others, place) in &places {
        for row in MIDDLES {
            if !is_converted(rt, *others, *place, other, *row)? {
                return Ok(Some((*others, *place, row.0)));
            }
        }
    }
    Ok(None)
}

#[test]
fn among_characters_of_one_byte(rt: HostRuntime) -> Result<(), Fail> {
    assert_eq!(rt; find_wrong(&rt, ("A", 65))?, None);
    Ok(())
}

#[test]
fn among_characters_of_two_bytes(rt: HostRuntime) -> Result<(), Fail> {
    assert_eq!(rt; find_wrong(&rt, ("é", 0xe9))?, None);
    Ok(())
}

#[test]
fn among_characters_of_three_bytes(rt: HostRuntime) -> Result<(), Fail> {
    assert_eq!(rt; find_wrong(&rt, ("€", 0x20ac))?, None);
    Ok(())
}
