//! Owned paths.

use super::{Component, Components, Path, SEPARATOR};
use crate::char16;
use crate::data_types::{CStr16, CString16};
use crate::error::Error;
use crate::sys;
use alloc::borrow::Borrow;
use alloc::string::String;
use alloc::vec::Vec;
use core::cmp::Ordering;
use core::fmt;
use core::hash::{Hash, Hasher};
use core::ops::Deref;
use core::str::FromStr;

/// A path that owns its text, in which each `/` is replaced with `\`.
///
/// ```
/// use nardcorbel::{cstr16, PathBuf};
///
/// let mut path: PathBuf = "/EFI/BOOT".parse()?;
/// path.push(cstr16!("BOOTX64.EFI"));
/// assert_eq!(path.to_string(), r"\EFI\BOOT\BOOTX64.EFI");
/// assert_eq!(path, r"EFI\BOOT\BOOTX64.EFI");
/// # Ok::<(), nardcorbel::Error>(())
/// ```
#[derive(Clone, Default)]
pub struct PathBuf(CString16);

impl PathBuf {
    /// Creates an empty path.
    ///
    /// ```
    /// use nardcorbel::PathBuf;
    ///
    /// assert!(PathBuf::new().is_empty());
    /// ```
    #[must_use]
    pub fn new() -> Self {
        Self::default()
    }

    /// Removes all components.
    ///
    /// ```
    /// use nardcorbel::PathBuf;
    ///
    /// let mut path: PathBuf = "a/b".parse()?;
    /// path.clear();
    /// assert!(path.is_empty());
    /// # Ok::<(), nardcorbel::Error>(())
    /// ```
    pub fn clear(&mut self) {
        self.0.clear();
    }

    /// The path of units that a proved call wrote.
    pub(super) fn of(units: Vec<u16>) -> Self {
        Self(CString16::of(units))
    }

    /// Adds a path or a text: a separator goes before it if one is needed, and an empty path adds nothing.
    ///
    /// A text may be no path, so the result is then a `Result`.
    ///
    /// ```
    /// use nardcorbel::{cstr16, PathBuf};
    ///
    /// let mut path = PathBuf::new();
    /// path.push(cstr16!("a"));
    /// path.push("b/c")?;
    /// assert_eq!(path, r"a\b\c");
    /// assert_eq!(path.push("d\0").unwrap_err().place, 1);
    /// # Ok::<(), nardcorbel::Error>(())
    /// ```
    pub fn push<P: PathArgument>(&mut self, path: P) -> P::Result<()> {
        path.with_path(|it| self.push_path(it))
    }

    pub(super) fn push_path(&mut self, path: &Path) {
        let (added, units) = (path.to_cstr16().to_u16_slice_with_nul(), self.0.units_mut());
        let before = units.len();
        // Room for a separator too.
        units.resize(before + added.len(), 0);
        let length = sys::nard_path_push(units, before - 1, added);
        // Only a string that unsafe code made without its condition can fail. The path is then as before.
        units.truncate(length.map_or(before, |it| it + 1));
        assert!(length.is_ok(), "the path to add is no string");
    }

    /// Returns the string of the path.
    ///
    /// ```
    /// use nardcorbel::PathBuf;
    ///
    /// assert_eq!("a/b".parse::<PathBuf>()?.into_cstring16(), r"a\b");
    /// # Ok::<(), nardcorbel::Error>(())
    /// ```
    #[must_use]
    pub fn into_cstring16(self) -> CString16 {
        self.0
    }
}

/// A value that can be joined with a path: another path, or a text.
///
/// ```
/// use nardcorbel::{cstr16, fs::PathArgument, PathBuf};
///
/// fn below_efi<P: PathArgument>(path: P) -> P::Result<PathBuf> {
///     PathBuf::from(cstr16!("EFI")).join(path)
/// }
/// assert_eq!(below_efi(cstr16!("BOOT")), r"EFI\BOOT");
/// assert_eq!(below_efi("BOOT")?, r"EFI\BOOT");
/// # Ok::<(), nardcorbel::Error>(())
/// ```
pub trait PathArgument {
    /// The result of a call that would return `T` for a path.
    type Result<T>;

    /// Calls a function with the path.
    #[doc(hidden)]
    fn with_path<T>(self, call: impl FnOnce(&Path) -> T) -> Self::Result<T>;
}

impl<P: AsRef<Path>> PathArgument for P {
    type Result<T> = T;

    fn with_path<T>(self, call: impl FnOnce(&Path) -> T) -> T {
        call(self.as_ref())
    }
}

macro_rules! texts {
    ($($text:ty)*) => {$(
        /// The text may be no path.
        impl PathArgument for $text {
            type Result<T> = Result<T, Error>;

            fn with_path<T>(self, call: impl FnOnce(&Path) -> T) -> Result<T, Error> {
                let text: &str = &self;
                Ok(call(&text.parse::<PathBuf>()?))
            }
        }
    )*};
}
texts!(&str &String String);

impl From<CString16> for PathBuf {
    fn from(mut string: CString16) -> Self {
        string.replace_char(char16!('/'), SEPARATOR);
        Self(string)
    }
}

impl From<&CStr16> for PathBuf {
    fn from(string: &CStr16) -> Self {
        Self::from(CString16::from(string))
    }
}

impl From<&Path> for PathBuf {
    fn from(path: &Path) -> Self {
        path.to_path_buf()
    }
}

impl TryFrom<&str> for PathBuf {
    type Error = Error;

    /// Creates a path from a text. Fails at a NUL and at a character above U+FFFF, and says which and where.
    fn try_from(text: &str) -> Result<Self, Error> {
        text.parse::<CString16>().map(Self::from)
    }
}

impl TryFrom<String> for PathBuf {
    type Error = Error;

    fn try_from(text: String) -> Result<Self, Error> {
        Self::try_from(&*text)
    }
}

impl FromStr for PathBuf {
    type Err = Error;

    fn from_str(text: &str) -> Result<Self, Error> {
        Self::try_from(text)
    }
}

impl<P: AsRef<Path>> Extend<P> for PathBuf {
    fn extend<I: IntoIterator<Item = P>>(&mut self, paths: I) {
        paths.into_iter().for_each(|it| self.push_path(it.as_ref()));
    }
}

impl<P: AsRef<Path>> FromIterator<P> for PathBuf {
    fn from_iter<I: IntoIterator<Item = P>>(paths: I) -> Self {
        let mut path = Self::new();
        path.extend(paths);
        path
    }
}

impl<'a> IntoIterator for &'a PathBuf {
    type Item = Component<'a>;
    type IntoIter = Components<'a>;

    fn into_iter(self) -> Components<'a> {
        self.iter()
    }
}

impl Deref for PathBuf {
    type Target = Path;

    fn deref(&self) -> &Path {
        Path::new(&self.0)
    }
}

impl AsRef<Path> for PathBuf {
    fn as_ref(&self) -> &Path {
        self
    }
}

impl Borrow<Path> for PathBuf {
    fn borrow(&self) -> &Path {
        self
    }
}

impl AsRef<CStr16> for PathBuf {
    fn as_ref(&self) -> &CStr16 {
        &self.0
    }
}

impl PartialEq for PathBuf {
    fn eq(&self, other: &Self) -> bool {
        **self == **other
    }
}

impl Eq for PathBuf {}

impl PartialOrd for PathBuf {
    fn partial_cmp(&self, other: &Self) -> Option<Ordering> {
        Some(self.cmp(other))
    }
}

impl Ord for PathBuf {
    fn cmp(&self, other: &Self) -> Ordering {
        (**self).cmp(&**other)
    }
}

impl Hash for PathBuf {
    fn hash<H: Hasher>(&self, state: &mut H) {
        (**self).hash(state);
    }
}

/// Compares paths with paths and texts.
macro_rules! equal {
    ($($one:ty, $two:ty: |$left:ident, $right:ident| $equal:expr;)*) => {$(
        impl PartialEq<$two> for $one {
            fn eq(&self, other: &$two) -> bool {
                let ($left, $right) = (self, other);
                $equal
            }
        }
    )*};
}
equal! {
    PathBuf, Path: |one, two| **one == *two;
    PathBuf, &Path: |one, two| **one == **two;
    PathBuf, str: |one, two| **one == *two;
    PathBuf, &str: |one, two| **one == **two;
    Path, PathBuf: |one, two| *one == **two;
    &Path, PathBuf: |one, two| **one == **two;
    str, PathBuf: |one, two| **two == *one;
}

impl fmt::Display for PathBuf {
    fn fmt(&self, f: &mut fmt::Formatter<'_>) -> fmt::Result {
        fmt::Display::fmt(&**self, f)
    }
}

impl fmt::Debug for PathBuf {
    fn fmt(&self, f: &mut fmt::Formatter<'_>) -> fmt::Result {
        f.debug_tuple("PathBuf").field(&self.0).finish()
    }
}
