//! Borrowed paths.

use super::validation::located;
use super::{validate_path, Component, Components, SEPARATOR, SEPARATOR_STR};
#[cfg(feature = "alloc")]
use super::{PathArgument, PathBuf};
use crate::char16;
use crate::data_types::CStr16;
use crate::error::{Error, Reason};
use crate::sys;
use core::cmp::Ordering;
use core::fmt;
use core::hash::{Hash, Hasher};

/// A path: components with a separator, `\`, between them.
///
/// One separator at the start makes no difference to what paths are equal, to their order, and to what they contain.
///
/// ```
/// use nardcorbel::{cstr16, Path};
///
/// let path = Path::new(cstr16!(r"\EFI\BOOT\BOOTX64.EFI"));
/// assert_eq!(path, r"EFI\BOOT\BOOTX64.EFI");
/// for component in path {
///     println!("{component}");
/// }
/// ```
#[repr(transparent)]
pub struct Path(CStr16);

impl Path {
    /// Wraps a string as a path.
    ///
    /// ```
    /// use nardcorbel::{cstr16, Path};
    ///
    /// assert_eq!(Path::new(cstr16!(r"\EFI")), "EFI");
    /// ```
    #[must_use]
    pub fn new<S: AsRef<CStr16> + ?Sized>(string: &S) -> &Self {
        // SAFETY: `Path` is a transparent wrapper of `CStr16`.
        unsafe { &*(core::ptr::from_ref(string.as_ref()) as *const Self) }
    }

    /// Returns the string of the path.
    ///
    /// ```
    /// use nardcorbel::{cstr16, Path};
    ///
    /// assert_eq!(Path::new(cstr16!(r"\EFI")).to_cstr16(), r"\EFI");
    /// ```
    #[must_use]
    pub const fn to_cstr16(&self) -> &CStr16 {
        &self.0
    }

    fn units(&self) -> &[u16] {
        self.0.to_u16_slice_with_nul()
    }

    /// The text and its NUL, without the separator at the start.
    fn canonical(&self) -> &CStr16 {
        match self.0.as_slice() {
            [SEPARATOR, ..] => CStr16::of(&self.units()[1..]),
            _ => &self.0,
        }
    }

    /// Returns whether the path is the empty text.
    ///
    /// ```
    /// use nardcorbel::{cstr16, Path};
    ///
    /// assert!(Path::new(cstr16!("")).is_empty() && !Path::new(cstr16!(r"\")).is_empty());
    /// ```
    #[must_use]
    pub const fn is_empty(&self) -> bool {
        self.0.is_empty()
    }

    /// Iterates over the components, which are slices of characters that can be printed and compared with texts.
    ///
    /// ```
    /// use nardcorbel::{cstr16, Path};
    ///
    /// let path = Path::new(cstr16!(r"\a\bc"));
    /// assert!(path.components().map(|it| it.len()).eq([1, 2]));
    /// assert!(path.components().eq(["a", "bc"]));
    /// ```
    #[must_use]
    pub fn components(&self) -> Components<'_> {
        Components::of(self.canonical().as_slice())
    }

    /// Iterates over the components, as [`components`](Self::components) does.
    ///
    /// ```
    /// use nardcorbel::{cstr16, Path};
    ///
    /// assert!(Path::new(cstr16!(r"a\b")).iter().rev().eq(["b", "a"]));
    /// ```
    #[must_use]
    pub fn iter(&self) -> Components<'_> {
        self.components()
    }

    /// Returns the last component, which may be empty, or `None` if there is none.
    ///
    /// ```
    /// use nardcorbel::{cstr16, Path};
    ///
    /// let name = Path::new(cstr16!(r"a\b")).file_name();
    /// assert_eq!(name, Some(cstr16!("b")));
    /// ```
    #[must_use]
    pub fn file_name(&self) -> Option<&CStr16> {
        let mut start = 0;
        // The units after the last separator end in the NUL of the whole string.
        sys::nard_path_file_name(self.0.to_u16_slice(), &mut start)
            .then(|| CStr16::of(&self.units()[start..]))
    }

    /// The index in the last component of the dot before its extension, and where the component begins.
    fn dot(&self) -> Option<(usize, Option<usize>)> {
        let name = self.components().next_back()?;
        let dot = name.iter().rposition(|it| *it == char16!('.'));
        let start = self.0.num_chars() - name.len();
        Some((start, dot.filter(|it| *it > 0 && name != "..")))
    }

    /// Returns what follows the last dot of the last component, or `None` if there is no dot after the component's first character,
    /// or the component is `..`.
    ///
    /// ```
    /// use nardcorbel::{cstr16, Path};
    ///
    /// let extension = |it| Path::new(it).extension();
    /// assert_eq!(extension(cstr16!(r"a\b.tar.gz")), Some(cstr16!("gz")));
    /// assert_eq!(extension(cstr16!(r"a\.profile")), None);
    /// ```
    #[must_use]
    pub fn extension(&self) -> Option<&CStr16> {
        let (start, dot) = self.dot()?;
        Some(CStr16::of(&self.units()[start + dot? + 1..]))
    }

    /// Returns the last component without its [`extension`](Self::extension) and the dot before it.
    ///
    /// ```
    /// use nardcorbel::{cstr16, Path};
    ///
    /// assert_eq!(Path::new(cstr16!(r"a\b.tar.gz")).file_stem().unwrap(), "b.tar");
    /// ```
    #[must_use]
    pub fn file_stem(&self) -> Option<Component<'_>> {
        let (start, dot) = self.dot()?;
        let name = &self.0.as_slice()[start..];
        Some(Component(&name[..dot.unwrap_or(name.len())]))
    }

    /// Returns whether the first components of the path are those of a base.
    ///
    /// ```
    /// use nardcorbel::{cstr16, Path};
    ///
    /// let path = Path::new(cstr16!(r"\EFI\BOOT\a.efi"));
    /// assert!(path.starts_with(cstr16!("EFI")) && !path.starts_with(cstr16!("EF")));
    /// ```
    #[must_use]
    pub fn starts_with<P: AsRef<Self>>(&self, base: P) -> bool {
        self.strip_prefix(base).is_some()
    }

    /// Returns the components after those of a base, or `None` if the path does not start with it.
    ///
    /// ```
    /// use nardcorbel::{cstr16, Path};
    ///
    /// let rest = Path::new(cstr16!(r"\EFI\BOOT\a.efi")).strip_prefix(cstr16!("EFI"));
    /// assert!(rest.unwrap().eq(["BOOT", "a.efi"]));
    /// ```
    #[must_use]
    pub fn strip_prefix<P: AsRef<Self>>(&self, base: P) -> Option<Components<'_>> {
        let mut rest = self.components();
        let mut base = base.as_ref().components();
        base.all(|it| rest.next() == Some(it)).then_some(rest)
    }

    /// Checks that the path names a file, and says where the fault of the first component is that has one.
    ///
    /// ```
    /// use nardcorbel::{cstr16, Path};
    ///
    /// let error = Path::new(cstr16!(r"a\b:")).validate().unwrap_err();
    /// assert_eq!((error.place, error.character), (3, Some(':')));
    /// let sentence = "path contains an illegal character (value 58) at index 3: ':'";
    /// assert_eq!(error.to_string(), sentence);
    /// ```
    pub fn validate(&self) -> Result<(), Error> {
        validate_path(self).map_err(|error| error.located(self.0.chars()))
    }

    /// Returns whether both paths are equal without case, as the firmware's file systems compare them.
    ///
    /// ```
    /// use nardcorbel::{cstr16, Path};
    ///
    /// assert!(Path::new(cstr16!(r"\EFI")).eq_ignore_case(Path::new(cstr16!("efi"))));
    /// ```
    #[must_use]
    pub fn eq_ignore_case(&self, other: &Self) -> bool {
        sys::nard_path_equal_ignore_case(self.units(), other.units())
    }

    /// Returns whether each component of a pattern matches the component at its place, and both have as many: `*` stops at `\`.
    ///
    /// ```
    /// use nardcorbel::{cstr16, Path};
    ///
    /// assert!(Path::new(cstr16!(r"\EFI\a")).matches(Path::new(cstr16!(r"e*\?"))));
    /// ```
    #[must_use]
    pub fn matches(&self, pattern: &Self) -> bool {
        sys::nard_path_matches(self.units(), pattern.units())
    }

    /// Joins two paths at the start of a buffer, replacing each `/` with `\`, and returns the result.
    ///
    /// ```
    /// use nardcorbel::{cstr16, Path};
    ///
    /// let mut buffer = [0; 8];
    /// let path = Path::new(cstr16!("a")).join_in_buf(Path::new(cstr16!("b")), &mut buffer)?;
    /// assert_eq!(path, r"a\b");
    /// # Ok::<(), nardcorbel::Error>(())
    /// ```
    pub fn join_in_buf<'a>(&self, other: &Self, buffer: &'a mut [u16]) -> Result<&'a Self, Error> {
        let length = sys::nard_path_join(self.units(), other.units(), buffer)?;
        Ok(written(length, buffer))
    }

    /// Writes the path with one separator at its start to a buffer, and returns it: see [`with_root`](Self::with_root).
    ///
    /// ```
    /// use nardcorbel::{cstr16, Path};
    ///
    /// let path = Path::new(cstr16!("a")).with_root_in_buf(&mut [0; 4])?.to_string();
    /// assert_eq!(path, r"\a");
    /// # Ok::<(), nardcorbel::Error>(())
    /// ```
    pub fn with_root_in_buf<'a>(&self, buffer: &'a mut [u16]) -> Result<&'a Self, Error> {
        Self::new(SEPARATOR_STR).join_in_buf(Self::new(self.canonical()), buffer)
    }

    /// Writes the parent, all components but the last, to the start of a buffer and returns it.
    ///
    /// Fails if the path has at most one component, or if the buffer is too small.
    ///
    /// ```
    /// use nardcorbel::{cstr16, Path};
    ///
    /// assert_eq!(Path::new(cstr16!(r"a\b")).parent_in_buf(&mut [0; 8])?, "a");
    /// # Ok::<(), nardcorbel::Error>(())
    /// ```
    pub fn parent_in_buf<'a>(&self, buffer: &'a mut [u16]) -> Result<&'a Self, Error> {
        let length = sys::nard_path_parent(self.units(), buffer)?;
        Ok(written(length, buffer))
    }

    /// Writes the path without `.`, and without each name that a `..` follows, to the start of a buffer and returns it.
    ///
    /// Fails as [`validate`](Self::validate) does, or if the buffer is too small.
    ///
    /// ```
    /// use nardcorbel::{cstr16, Path};
    ///
    /// assert_eq!(Path::new(cstr16!("a/../b")).normalize_in_buf(&mut [0; 8])?, "b");
    /// # Ok::<(), nardcorbel::Error>(())
    /// ```
    pub fn normalize_in_buf<'a>(&self, buffer: &'a mut [u16]) -> Result<&'a Self, Error> {
        let length = sys::nard_path_normalize_utf16(self.units(), buffer)
            .map_err(|error| located(error, self.0.chars(), true))?;
        Ok(written(length, buffer))
    }

    /// Writes the path that a text is, without `.` and without each name that a `..` follows, to the start of a buffer and
    /// returns it.
    ///
    /// Fails if the text has a NUL or a character above U+FFFF, then as [`validate`](Self::validate) does; or if the buffer is too
    /// small. A string of the text is kept in its second half, so twice as many units as the text has bytes, and two more, are
    /// enough.
    ///
    /// ```
    /// use nardcorbel::Path;
    ///
    /// assert_eq!(Path::normalize_str_in_buf("a/./b", &mut [0; 16])?, r"a\b");
    /// # Ok::<(), nardcorbel::Error>(())
    /// ```
    pub fn normalize_str_in_buf<'a>(text: &str, buffer: &'a mut [u16]) -> Result<&'a Self, Error> {
        let length = sys::nard_path_normalize(text.as_bytes(), buffer).map_err(|error| {
            match error.reason {
                // Each half of the buffer needs as much.
                Reason::BufferTooSmall => Error::new(error.reason, error.place.saturating_mul(2)),
                _ => located(error.in_text(text), text.chars(), true),
            }
        })?;
        Ok(written(length, buffer))
    }
}

/// The path of this length that a call wrote to the start of a buffer.
fn written(length: usize, buffer: &[u16]) -> &Path {
    Path::new(CStr16::of(&buffer[..=length]))
}

/// Calls that allocate.
#[cfg(feature = "alloc")]
impl Path {
    /// Copies the path, replacing each `/` with `\`.
    ///
    /// ```
    /// use nardcorbel::{cstr16, Path};
    ///
    /// assert_eq!(Path::new(cstr16!("a/b")).to_path_buf().to_string(), r"a\b");
    /// ```
    #[must_use]
    pub fn to_path_buf(&self) -> PathBuf {
        PathBuf::from(&self.0)
    }

    /// Returns a copy of all components but the last, or `None` if there are not two.
    ///
    /// ```
    /// use nardcorbel::{cstr16, Path};
    ///
    /// assert_eq!(Path::new(cstr16!(r"a\b")).parent().unwrap(), "a");
    /// assert_eq!(Path::new(cstr16!("a")).parent(), None);
    /// ```
    #[must_use]
    pub fn parent(&self) -> Option<PathBuf> {
        let mut units = alloc::vec![0; self.units().len()];
        let length = self.parent_in_buf(&mut units).ok()?.0.num_chars();
        units.truncate(length + 1);
        Some(PathBuf::of(units))
    }

    /// Copies the path and adds another one, or a text.
    ///
    /// A path is joined as it is. A text may be no path, so the result is then a `Result`.
    ///
    /// ```
    /// use nardcorbel::{cstr16, Path, PathBuf};
    ///
    /// let folder = Path::new(cstr16!("EFI"));
    /// let with_path: PathBuf = folder.join(cstr16!("BOOT"));
    /// let with_text: PathBuf = folder.join("BOOT")?;
    /// assert_eq!(with_path, with_text);
    /// # Ok::<(), nardcorbel::Error>(())
    /// ```
    pub fn join<P: PathArgument>(&self, path: P) -> P::Result<PathBuf> {
        path.with_path(|it| {
            let mut whole = self.to_path_buf();
            whole.push_path(it);
            whole
        })
    }

    /// Copies the path, with one separator at its start, and each `/` replaced with `\`. A device path names a file in this way:
    ///
    /// ```
    /// use nardcorbel::proto::device_path::build::{media, DevicePathBuilder};
    /// use nardcorbel::{cstr16, DevicePath, Path};
    ///
    /// let file = Path::new(cstr16!("EFI/debian/../BOOT/a.efi")).normalize()?.with_root();
    /// let node = media::FilePath { path_name: file.to_cstr16() };
    /// let mut bytes = Vec::new();
    /// let path = DevicePathBuilder::with_vec(&mut bytes).push(&node)?.finalize()?;
    /// assert_eq!(format!("{path}"), r"\EFI\BOOT\a.efi");
    /// // And back: from the text, and to the path of the file.
    /// let again: Box<DevicePath> = format!("{path}").parse()?;
    /// assert_eq!(again.file_path()?.normalize()?, *file);
    /// # Ok::<(), nardcorbel::Error>(())
    /// ```
    #[must_use]
    pub fn with_root(&self) -> PathBuf {
        Self::new(SEPARATOR_STR).join(Self::new(self.canonical()))
    }

    /// Copies the path without `.`, and without each name that a `..` follows. The copy has no separator at its start:
    /// [`with_root`](Self::with_root) adds it.
    ///
    /// ```
    /// use nardcorbel::{cstr16, Path};
    ///
    /// assert_eq!(Path::new(cstr16!(r"a\..\b")).normalize()?, "b");
    /// # Ok::<(), nardcorbel::Error>(())
    /// ```
    pub fn normalize(&self) -> Result<PathBuf, Error> {
        // A lone separator has no components.
        let mut units = alloc::vec![0; self.units().len().max(2)];
        let length = self.normalize_in_buf(&mut units)?.0.num_chars();
        units.truncate(length + 1);
        Ok(PathBuf::of(units))
    }
}

#[cfg(feature = "alloc")]
impl alloc::borrow::ToOwned for Path {
    type Owned = PathBuf;

    fn to_owned(&self) -> PathBuf {
        self.to_path_buf()
    }
}

impl PartialEq for Path {
    fn eq(&self, other: &Self) -> bool {
        self.canonical() == other.canonical()
    }
}

impl Eq for Path {}

impl PartialOrd for Path {
    fn partial_cmp(&self, other: &Self) -> Option<Ordering> {
        Some(self.cmp(other))
    }
}

impl Ord for Path {
    fn cmp(&self, other: &Self) -> Ordering {
        self.canonical().cmp(other.canonical())
    }
}

impl Hash for Path {
    fn hash<H: Hasher>(&self, state: &mut H) {
        self.canonical().hash(state);
    }
}

impl PartialEq<str> for Path {
    /// Compares with the path that the text is.
    fn eq(&self, other: &str) -> bool {
        *self.canonical() == *other.strip_prefix('\\').unwrap_or(other)
    }
}

impl PartialEq<&str> for Path {
    fn eq(&self, other: &&str) -> bool {
        *self == **other
    }
}

impl PartialEq<str> for &Path {
    fn eq(&self, other: &str) -> bool {
        **self == *other
    }
}

impl PartialEq<Path> for str {
    fn eq(&self, other: &Path) -> bool {
        *other == *self
    }
}

impl fmt::Display for Path {
    fn fmt(&self, f: &mut fmt::Formatter<'_>) -> fmt::Result {
        fmt::Display::fmt(&self.0, f)
    }
}

impl fmt::Debug for Path {
    fn fmt(&self, f: &mut fmt::Formatter<'_>) -> fmt::Result {
        f.debug_tuple("Path").field(&&self.0).finish()
    }
}

impl<'a> IntoIterator for &'a Path {
    type Item = Component<'a>;
    type IntoIter = Components<'a>;

    fn into_iter(self) -> Components<'a> {
        self.iter()
    }
}

impl<'a> From<&'a CStr16> for &'a Path {
    fn from(string: &'a CStr16) -> Self {
        Path::new(string)
    }
}

impl AsRef<Path> for Path {
    fn as_ref(&self) -> &Path {
        self
    }
}

impl AsRef<Path> for CStr16 {
    fn as_ref(&self) -> &Path {
        Path::new(self)
    }
}

impl AsRef<CStr16> for Path {
    fn as_ref(&self) -> &CStr16 {
        &self.0
    }
}
