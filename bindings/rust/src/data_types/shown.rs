//! Text for people.

use crate::error::{Error, Reason};
use crate::sys;
use core::fmt::{self, Write};

/// Writes characters with the width, fill, alignment and precision that a format asks for, as `str` does.
pub(crate) fn pad(
    f: &mut fmt::Formatter<'_>,
    chars: impl Iterator<Item = char> + Clone,
) -> fmt::Result {
    if f.width().is_none() && f.precision().is_none() {
        return chars.into_iter().try_for_each(|it| f.write_char(it));
    }
    let shown = chars.take(f.precision().unwrap_or(usize::MAX));
    let missing = f.width().unwrap_or(0).saturating_sub(shown.clone().count());
    let before = match f.align() {
        Some(fmt::Alignment::Right) => missing,
        Some(fmt::Alignment::Center) => missing / 2,
        _ => 0,
    };
    let fill = f.fill();
    (0..before).try_for_each(|_| f.write_char(fill))?;
    shown.into_iter().try_for_each(|it| f.write_char(it))?;
    (before..missing).try_for_each(|_| f.write_char(fill))
}

/// Writes units that may hold surrogates as UTF-8 to the start of a buffer, up to the first NUL,
/// and returns the text. A pair of surrogates becomes one character; a surrogate without a partner
/// becomes U+FFFD. The buffer needs room for a NUL too.
///
/// ```
/// # use nardcorbel::str_from_units_lossy;
/// let mut buffer = [0; 8];
/// assert_eq!(str_from_units_lossy(&[0x61, 0xd800, 0], &mut buffer)?, "a\u{fffd}");
/// # Ok::<(), nardcorbel::Error>(())
/// ```
pub fn str_from_units_lossy<'a>(units: &[u16], buffer: &'a mut [u8]) -> Result<&'a str, Error> {
    let size = sys::nard_string_to_utf8_lossy(units, buffer)?;
    text_of(&buffer[..size])
}

/// The text that bytes are.
pub(crate) fn text_of(bytes: &[u8]) -> Result<&str, Error> {
    core::str::from_utf8(bytes).map_err(|error| Error::new(Reason::NotUtf8, error.valid_up_to()))
}

/// Displays characters to a person, for example the description of a boot entry.
///
/// Each control character, and each that ends a line or changes the direction of a text, is shown
/// as `\u{N}`, as in the texts of device paths: printed on a terminal, it could hide or forge the
/// text beside it.
///
/// ```
/// # use nardcorbel::Shown;
/// assert_eq!(Shown("red\u{1b}[31m".chars()).to_string(), "red\\u{1b}[31m");
/// ```
#[derive(Clone, Debug)]
pub struct Shown<I>(pub I);

impl<I: Iterator<Item = char> + Clone> fmt::Display for Shown<I> {
    fn fmt(&self, f: &mut fmt::Formatter<'_>) -> fmt::Result {
        for character in self.0.clone() {
            match character {
                '\0'..='\u{1f}'
                | '\u{7f}'..='\u{9f}'
                | '\u{61c}'
                | '\u{200e}'
                | '\u{200f}'
                | '\u{2028}'..='\u{202e}'
                | '\u{2066}'..='\u{2069}' => write!(f, "{}", character.escape_unicode())?,
                _ => f.write_char(character)?,
            }
        }
        Ok(())
    }
}
