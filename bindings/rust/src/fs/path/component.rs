//! The components of paths.

use super::SEPARATOR;
use crate::data_types::{pad, Char16};
use core::fmt::{self, Write};
use core::iter::FusedIterator;
use core::ops::Deref;

/// Iterates over the components of a path, first to last or last to first.
///
/// ```
/// use nardcorbel::{cstr16, Path};
///
/// let mut components = Path::new(cstr16!(r"\EFI\BOOT\a.efi")).components();
/// assert_eq!(components.next_back().unwrap(), "a.efi");
/// assert!(components.eq(["EFI", "BOOT"]));
/// ```
#[derive(Clone, Debug)]
pub struct Components<'a> {
    /// The text that is left: no component, or one, and one more after each separator.
    rest: Option<&'a [Char16]>,
}

impl<'a> Components<'a> {
    /// The components of a path's text without the separator at its start.
    pub(super) fn of(canonical: &'a [Char16]) -> Self {
        let rest = Some(canonical).filter(|it| !it.is_empty());
        Self { rest }
    }
}

impl<'a> Iterator for Components<'a> {
    type Item = Component<'a>;

    fn next(&mut self) -> Option<Component<'a>> {
        let text = self.rest?;
        let end = text.iter().position(|it| *it == SEPARATOR);
        self.rest = end.map(|it| &text[it + 1..]);
        Some(Component(&text[..end.unwrap_or(text.len())]))
    }

    fn size_hint(&self) -> (usize, Option<usize>) {
        match self.rest {
            None => (0, Some(0)),
            Some(it) => (1, Some(it.len() + 1)),
        }
    }
}

impl DoubleEndedIterator for Components<'_> {
    fn next_back(&mut self) -> Option<Self::Item> {
        let text = self.rest?;
        let before = text.iter().rposition(|it| *it == SEPARATOR);
        self.rest = before.map(|it| &text[..it]);
        Some(Component(&text[before.map_or(0, |it| it + 1)..]))
    }
}

impl FusedIterator for Components<'_> {}

/// A component of a path: a slice of characters, to which it dereferences, that can be printed and compared with texts.
///
/// ```
/// use nardcorbel::{char16, cstr16, Path};
///
/// let component = Path::new(cstr16!(r"\ab\c")).components().next().unwrap();
/// assert_eq!(component.to_string(), "ab");
/// assert_eq!(*component, [char16!('a'), char16!('b')]);
/// ```
#[derive(Clone, Copy, PartialEq, Eq, PartialOrd, Ord, Hash)]
pub struct Component<'a>(pub(super) &'a [Char16]);

impl<'a> Component<'a> {
    /// Returns the characters.
    ///
    /// ```
    /// use nardcorbel::{char16, cstr16, Path};
    ///
    /// let component = Path::new(cstr16!(r"a\b")).components().next().unwrap();
    /// assert_eq!(component.as_slice(), [char16!('a')]);
    /// ```
    #[must_use]
    pub const fn as_slice(self) -> &'a [Char16] {
        self.0
    }

    fn chars(self) -> impl Iterator<Item = char> + Clone + 'a {
        self.0.iter().map(|it| char::from(*it))
    }
}

impl Deref for Component<'_> {
    type Target = [Char16];

    fn deref(&self) -> &[Char16] {
        self.0
    }
}

impl AsRef<[Char16]> for Component<'_> {
    fn as_ref(&self) -> &[Char16] {
        self.0
    }
}

impl<'a> IntoIterator for Component<'a> {
    type Item = &'a Char16;
    type IntoIter = core::slice::Iter<'a, Char16>;

    fn into_iter(self) -> Self::IntoIter {
        self.0.iter()
    }
}

impl PartialEq<[Char16]> for Component<'_> {
    fn eq(&self, other: &[Char16]) -> bool {
        self.0 == other
    }
}

impl PartialEq<&[Char16]> for Component<'_> {
    fn eq(&self, other: &&[Char16]) -> bool {
        self.0 == *other
    }
}

impl PartialEq<str> for Component<'_> {
    fn eq(&self, other: &str) -> bool {
        self.chars().eq(other.chars())
    }
}

impl PartialEq<&str> for Component<'_> {
    fn eq(&self, other: &&str) -> bool {
        *self == **other
    }
}

impl fmt::Display for Component<'_> {
    fn fmt(&self, f: &mut fmt::Formatter<'_>) -> fmt::Result {
        pad(f, self.chars())
    }
}

impl fmt::Debug for Component<'_> {
    fn fmt(&self, f: &mut fmt::Formatter<'_>) -> fmt::Result {
        f.write_char('"')?;
        self.chars()
            .flat_map(char::escape_debug)
            .try_for_each(|it| f.write_char(it))?;
        f.write_char('"')
    }
}
