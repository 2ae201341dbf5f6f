//! Load options.

use super::DevicePath;
use crate::data_types::Shown;
use crate::error::Error;
use crate::sys;
use core::iter::FusedIterator;

/// A load option in borrowed bytes: the value of a variable `Boot####`.
///
/// ```
/// use nardcorbel::LoadOption;
///
/// let option = LoadOption::from_bytes(&[1, 0, 0, 0, 4, 0, 0x62, 0, 0, 0, 0x7f, 0xff, 4, 0, 9])?;
/// assert!(option.is_active());
/// assert_eq!(option.description().to_string(), "b");
/// assert_eq!(option.device_paths().count(), 1);
/// assert_eq!(option.optional_data(), [9]);
/// # Ok::<(), nardcorbel::Error>(())
/// ```
#[derive(Clone, Copy, Debug)]
pub struct LoadOption<'a> {
    bytes: &'a [u8],
    parts: sys::LoadOptionParts,
}

impl<'a> LoadOption<'a> {
    /// Reads a load option. Fails for the first fault; the error's place is its offset.
    ///
    /// ```
    /// use nardcorbel::LoadOption;
    ///
    /// let entry = [1, 0, 0, 0, 4, 0, 0x62, 0, 0, 0, 0x7f, 0xff, 4, 0, 9];
    /// assert!(LoadOption::from_bytes(&entry).is_ok());
    /// let error = LoadOption::from_bytes(&entry[..5]).unwrap_err();
    /// assert_eq!(error.to_string(), "load option ends before its description at offset 5");
    /// # Ok::<(), nardcorbel::Error>(())
    /// ```
    pub fn from_bytes(bytes: &'a [u8]) -> Result<Self, Error> {
        let mut parts = sys::LoadOptionParts::default();
        sys::nard_load_option_check(bytes, &mut parts)?;
        Ok(Self { bytes, parts })
    }

    /// Returns the attributes.
    ///
    /// ```
    /// use nardcorbel::LoadOption;
    ///
    /// let entry = [1, 0, 0, 0, 4, 0, 0x62, 0, 0, 0, 0x7f, 0xff, 4, 0, 9];
    /// assert_eq!(LoadOption::from_bytes(&entry)?.attributes(), 1);
    /// # Ok::<(), nardcorbel::Error>(())
    /// ```
    #[must_use]
    pub fn attributes(&self) -> u32 {
        self.parts.attributes
    }

    /// Returns whether firmware tries the option by itself: the first bit of the attributes.
    ///
    /// ```
    /// use nardcorbel::LoadOption;
    ///
    /// let entry = [1, 0, 0, 0, 4, 0, 0x62, 0, 0, 0, 0x7f, 0xff, 4, 0, 9];
    /// assert!(LoadOption::from_bytes(&entry)?.is_active());
    /// # Ok::<(), nardcorbel::Error>(())
    /// ```
    #[must_use]
    pub fn is_active(&self) -> bool {
        self.attributes() % 2 == 1
    }

    /// Iterates over the code units of the description, without its NUL. They may be surrogates.
    ///
    /// ```
    /// use nardcorbel::LoadOption;
    ///
    /// let entry = [1, 0, 0, 0, 4, 0, 0x62, 0, 0, 0, 0x7f, 0xff, 4, 0, 9];
    /// assert!(LoadOption::from_bytes(&entry)?.description_units().eq([0x62]));
    /// # Ok::<(), nardcorbel::Error>(())
    /// ```
    pub fn description_units(&self) -> impl Iterator<Item = u16> + Clone + 'a {
        let (start, length) = (self.parts.description_offset, self.parts.description_length);
        self.bytes[start..start + 2 * length]
            .chunks_exact(2)
            .map(|it| u16::from_le_bytes([it[0], it[1]]))
    }

    /// Iterates over the characters of the description. U+FFFD stands for each unpaired surrogate. They may be
    /// control characters: print [`LoadOption::description`].
    ///
    /// ```
    /// use nardcorbel::LoadOption;
    ///
    /// let entry = [1, 0, 0, 0, 4, 0, 0x62, 0, 0, 0, 0x7f, 0xff, 4, 0, 9];
    /// assert!(LoadOption::from_bytes(&entry)?.description_chars().eq(['b']));
    /// # Ok::<(), nardcorbel::Error>(())
    /// ```
    pub fn description_chars(&self) -> impl Iterator<Item = char> + Clone + 'a {
        char::decode_utf16(self.description_units())
            .map(|it| it.unwrap_or(char::REPLACEMENT_CHARACTER))
    }

    /// Returns the description as people may see it: see [`Shown`].
    ///
    /// ```
    /// use nardcorbel::LoadOption;
    ///
    /// let entry = [1, 0, 0, 0, 4, 0, 0x62, 0, 0, 0, 0x7f, 0xff, 4, 0, 9];
    /// assert_eq!(LoadOption::from_bytes(&entry)?.description().to_string(), "b");
    /// # Ok::<(), nardcorbel::Error>(())
    /// ```
    pub fn description(&self) -> Shown<impl Iterator<Item = char> + Clone + 'a> {
        Shown(self.description_chars())
    }

    /// Iterates over the device paths of the file path list. There is at least one.
    ///
    /// ```
    /// use nardcorbel::LoadOption;
    ///
    /// let entry = [1, 0, 0, 0, 4, 0, 0x62, 0, 0, 0, 0x7f, 0xff, 4, 0, 9];
    /// let option = LoadOption::from_bytes(&entry)?;
    /// assert_eq!(option.device_paths().next().unwrap().as_bytes(), [0x7f, 0xff, 4, 0]);
    /// # Ok::<(), nardcorbel::Error>(())
    /// ```
    #[must_use]
    pub fn device_paths(&self) -> LoadOptionDevicePaths<'a> {
        let (start, size) = (self.parts.path_list_offset, self.parts.path_list_size);
        LoadOptionDevicePaths {
            rest: &self.bytes[start..start + size],
        }
    }

    /// Returns the bytes after the file path list.
    ///
    /// ```
    /// use nardcorbel::LoadOption;
    ///
    /// let entry = [1, 0, 0, 0, 4, 0, 0x62, 0, 0, 0, 0x7f, 0xff, 4, 0, 9];
    /// assert_eq!(LoadOption::from_bytes(&entry)?.optional_data(), [9]);
    /// # Ok::<(), nardcorbel::Error>(())
    /// ```
    #[must_use]
    pub fn optional_data(&self) -> &'a [u8] {
        &self.bytes[self.parts.optional_data_offset..]
    }
}

impl<'a> TryFrom<&'a [u8]> for LoadOption<'a> {
    type Error = Error;

    fn try_from(bytes: &'a [u8]) -> Result<Self, Error> {
        Self::from_bytes(bytes)
    }
}

/// Iterates over the device paths of a load option.
///
/// ```
/// use nardcorbel::LoadOption;
///
/// let entry = [1, 0, 0, 0, 4, 0, 0x62, 0, 0, 0, 0x7f, 0xff, 4, 0, 9];
/// let mut paths = LoadOption::from_bytes(&entry)?.device_paths();
/// assert!(paths.next().is_some() && paths.next().is_none());
/// # Ok::<(), nardcorbel::Error>(())
/// ```
#[derive(Clone, Debug)]
pub struct LoadOptionDevicePaths<'a> {
    rest: &'a [u8],
}

impl<'a> Iterator for LoadOptionDevicePaths<'a> {
    type Item = &'a DevicePath;

    fn next(&mut self) -> Option<&'a DevicePath> {
        let path = DevicePath::from_bytes(self.rest).ok()?;
        self.rest = &self.rest[path.as_bytes().len()..];
        Some(path)
    }
}

impl FusedIterator for LoadOptionDevicePaths<'_> {}

/// The struct that builds load options.
pub mod build {
    use super::DevicePath;
    use crate::data_types::CStr16;
    use crate::error::Error;
    use crate::sys;

    /// Builds a load option of one device path.
    ///
    /// ```
    /// use nardcorbel::proto::device_path::{build, DevicePath, LoadOption};
    /// use nardcorbel::cstr16;
    ///
    /// let path: Box<DevicePath> = r"PciRoot(0x0)/\a.efi".parse()?;
    /// let entry = build::LoadOption {
    ///     attributes: 1,
    ///     description: cstr16!("debian"),
    ///     device_path: &path,
    ///     optional_data: b"quiet",
    /// };
    /// let bytes = entry.to_vec()?;
    /// assert_eq!(LoadOption::from_bytes(&bytes)?.optional_data(), b"quiet");
    /// # Ok::<(), nardcorbel::Error>(())
    /// ```
    #[derive(Clone, Copy, Debug, PartialEq, Eq)]
    pub struct LoadOption<'a> {
        /// The attributes; the first bit says that firmware tries the option by itself.
        pub attributes: u32,
        /// The text that the firmware's menu shows.
        pub description: &'a CStr16,
        /// The device path of the image to load.
        pub device_path: &'a DevicePath,
        /// The data that is passed to the image.
        pub optional_data: &'a [u8],
    }

    impl LoadOption<'_> {
        /// Writes the load option to the start of a buffer, and returns its bytes.
        ///
        /// Fails if the device path has more than 65,535 bytes, or if the buffer is too small. Then the buffer is unchanged.
        ///
        /// ```
        /// use nardcorbel::proto::device_path::{build, DevicePath};
        /// use nardcorbel::cstr16;
        ///
        /// let path: Box<DevicePath> = r"\a".parse()?;
        /// let (description, optional_data) = (cstr16!("a"), &[][..]);
        /// let entry = build::LoadOption { attributes: 1, description, device_path: &path, optional_data };
        /// assert_eq!(entry.write_in_buf(&mut [0; 64])?[..4], [1, 0, 0, 0]);
        /// # Ok::<(), nardcorbel::Error>(())
        /// ```
        pub fn write_in_buf<'b>(&self, buffer: &'b mut [u8]) -> Result<&'b [u8], Error> {
            let size = sys::nard_load_option_write(
                self.attributes,
                self.description.to_u16_slice_with_nul(),
                self.device_path.as_bytes(),
                self.optional_data,
                buffer,
            )?;
            Ok(&buffer[..size])
        }

        /// Returns the bytes of the load option. Fails if the device path has more than 65,535.
        ///
        /// ```
        /// use nardcorbel::proto::device_path::{build, DevicePath};
        /// use nardcorbel::cstr16;
        ///
        /// let path: Box<DevicePath> = r"\a".parse()?;
        /// let (description, optional_data) = (cstr16!("a"), &[][..]);
        /// let entry = build::LoadOption { attributes: 1, description, device_path: &path, optional_data };
        /// assert_eq!(entry.to_vec()?.len(), 6 + 4 + path.as_bytes().len());
        /// # Ok::<(), nardcorbel::Error>(())
        /// ```
        #[cfg(feature = "alloc")]
        pub fn to_vec(&self) -> Result<alloc::vec::Vec<u8>, Error> {
            // There are six bytes before the description.
            let parts = [
                self.description.num_bytes(),
                self.device_path.as_bytes().len(),
                self.optional_data.len(),
            ];
            let mut bytes = alloc::vec![0; 6 + parts.iter().sum::<usize>()];
            self.write_in_buf(&mut bytes)?;
            Ok(bytes)
        }
    }
}
