//! Names of load options, and orders of them.

use crate::data_types::CStr16;
use crate::error::{Error, Reason};
use crate::sys;
use core::fmt;
use core::iter::FusedIterator;
use core::ops::Deref;
use core::str::FromStr;

/// The kind of load options that a name is for.
///
/// ```
/// use nardcorbel::{LoadOptionKind, LoadOptionName};
///
/// let name = LoadOptionName { kind: LoadOptionKind::Driver, number: 1 };
/// assert_eq!(name.to_string(), "Driver0001");
/// ```
#[derive(Clone, Copy, Debug, PartialEq, Eq, PartialOrd, Ord, Hash)]
#[non_exhaustive]
pub enum LoadOptionKind {
    /// `Boot####`.
    Boot,
    /// `Driver####`.
    Driver,
    /// `SysPrep####`.
    SysPrep,
    /// `PlatformRecovery####`.
    PlatformRecovery,
}

/// The name of the variable of a load option, such as `Boot001F`.
///
/// ```
/// use nardcorbel::{LoadOptionKind, LoadOptionName};
///
/// let name: LoadOptionName = "Boot001F".parse()?;
/// assert_eq!((name.kind, name.number), (LoadOptionKind::Boot, 0x1f));
/// assert_eq!(name.to_string(), "Boot001F");
/// # Ok::<(), nardcorbel::Error>(())
/// ```
#[derive(Clone, Copy, Debug, PartialEq, Eq, PartialOrd, Ord, Hash)]
pub struct LoadOptionName {
    /// The kind of load options that the name is for.
    pub kind: LoadOptionKind,

    /// Its number.
    pub number: u16,
}

/// The longest name, and its NUL.
const NAME_ROOM: usize = 21;

impl LoadOptionName {
    /// Reads a name. Fails if the string is not a name: a word and four upper-case hexadecimal
    /// digits.
    ///
    /// ```
    /// use nardcorbel::{cstr16, LoadOptionName};
    ///
    /// assert_eq!(LoadOptionName::from_cstr16(cstr16!("Boot001F"))?.number, 0x1f);
    /// assert!(LoadOptionName::from_cstr16(cstr16!("BootOrder")).is_err());
    /// # Ok::<(), nardcorbel::Error>(())
    /// ```
    pub fn from_cstr16(string: &CStr16) -> Result<Self, Error> {
        let units = string.to_u16_slice_with_nul();
        Self::read(|kind, number| sys::nard_boot_name_read_utf16(units, kind, number))
    }

    /// The name that a call reads.
    fn read(call: impl FnOnce(&mut u32, &mut u16) -> u32) -> Result<Self, Error> {
        let (mut kind, mut number) = (0, 0);
        if call(&mut kind, &mut number) != sys::OK {
            return Err(Error::new(Reason::NotAName, 0));
        }
        let kind = match kind {
            sys::DRIVER => LoadOptionKind::Driver,
            sys::SYS_PREP => LoadOptionKind::SysPrep,
            sys::PLATFORM_RECOVERY => LoadOptionKind::PlatformRecovery,
            _ => LoadOptionKind::Boot,
        };
        Ok(Self { kind, number })
    }

    /// Writes the name and a NUL to the start of a buffer, and returns the string. It has at most 20 characters.
    ///
    /// ```
    /// use nardcorbel::LoadOptionName;
    ///
    /// let name: LoadOptionName = "Boot001F".parse()?;
    /// assert_eq!(name.to_cstr16_in_buf(&mut [0; 21])?, "Boot001F");
    /// # Ok::<(), nardcorbel::Error>(())
    /// ```
    pub fn to_cstr16_in_buf(self, buffer: &mut [u16]) -> Result<&CStr16, Error> {
        let kind = match self.kind {
            LoadOptionKind::Boot => sys::BOOT,
            LoadOptionKind::Driver => sys::DRIVER,
            LoadOptionKind::SysPrep => sys::SYS_PREP,
            LoadOptionKind::PlatformRecovery => sys::PLATFORM_RECOVERY,
        };
        let length = sys::nard_boot_name_write_utf16(kind, self.number, buffer)?;
        Ok(CStr16::of(&buffer[..=length]))
    }
}

impl FromStr for LoadOptionName {
    type Err = Error;

    fn from_str(text: &str) -> Result<Self, Error> {
        Self::read(|kind, number| sys::nard_boot_name_read(text.as_bytes(), kind, number))
    }
}

impl fmt::Display for LoadOptionName {
    fn fmt(&self, f: &mut fmt::Formatter<'_>) -> fmt::Result {
        match self.to_cstr16_in_buf(&mut [0; NAME_ROOM]) {
            Ok(it) => fmt::Display::fmt(it, f),
            Err(_) => Err(fmt::Error),
        }
    }
}

/// Iterates over the numbers of an order, the bytes of a variable such as `BootOrder`.
///
/// Fails if their number is odd.
///
/// ```
/// use nardcorbel::order_numbers;
///
/// assert!(order_numbers(&[3, 0, 0x1f, 0])?.eq([3, 0x1f]));
/// assert_eq!(order_numbers(&[3]).unwrap_err().to_string(), "odd number of bytes at offset 1");
/// # Ok::<(), nardcorbel::Error>(())
/// ```
pub fn order_numbers(bytes: &[u8]) -> Result<OrderNumbers<'_>, Error> {
    let mut number = 0;
    match sys::nard_boot_order_read(bytes, 0, &mut number) {
        sys::OK | sys::END => Ok(OrderNumbers { bytes, place: 0 }),
        reason => Err(Error::new(Reason::of(reason), bytes.len())),
    }
}

/// Iterates over the numbers of an order.
///
/// ```
/// use nardcorbel::order_numbers;
///
/// let numbers = order_numbers(&[3, 0, 1, 0])?;
/// assert_eq!((numbers.len(), numbers.max()), (2, Some(3)));
/// # Ok::<(), nardcorbel::Error>(())
/// ```
#[derive(Clone, Debug)]
pub struct OrderNumbers<'a> {
    bytes: &'a [u8],
    place: usize,
}

impl Iterator for OrderNumbers<'_> {
    type Item = u16;

    fn next(&mut self) -> Option<u16> {
        let mut number = 0;
        let found = sys::nard_boot_order_read(self.bytes, self.place, &mut number) == sys::OK;
        self.place += usize::from(found);
        found.then_some(number)
    }

    fn size_hint(&self) -> (usize, Option<usize>) {
        let left = self.bytes.len() / 2 - self.place;
        (left, Some(left))
    }
}

impl ExactSizeIterator for OrderNumbers<'_> {}
impl FusedIterator for OrderNumbers<'_> {}

/// An order that is edited in a buffer and contains each number once. It dereferences to its
/// numbers.
///
/// ```
/// use nardcorbel::OrderBuffer;
///
/// let mut places = [0; 4];
/// let mut order = OrderBuffer::from_order(&mut places, &[3, 0, 1, 0])?;
/// order.push(7)?;
/// order.move_to_front(1);
/// assert_eq!(order.as_slice(), [1, 3, 7]);
/// assert!(order.len() == 3 && order.contains(&7));
/// # Ok::<(), nardcorbel::Error>(())
/// ```
#[derive(Debug)]
pub struct OrderBuffer<'a> {
    places: &'a mut [u16],
    count: usize,
}

impl<'a> OrderBuffer<'a> {
    /// Creates an empty order in a buffer.
    ///
    /// ```
    /// use nardcorbel::OrderBuffer;
    ///
    /// assert!(OrderBuffer::new(&mut [0; 4]).is_empty());
    /// ```
    #[must_use]
    pub fn new(places: &'a mut [u16]) -> Self {
        Self { places, count: 0 }
    }

    /// Creates an order from the bytes of a variable such as `BootOrder`. If a number occurs twice,
    /// only the first is kept.
    ///
    /// Fails if the number of bytes is odd, or if the buffer has too few places. The buffer is then unchanged.
    ///
    /// ```
    /// use nardcorbel::OrderBuffer;
    ///
    /// let mut places = [0; 4];
    /// let order = OrderBuffer::from_order(&mut places, &[3, 0, 1, 0, 3, 0])?;
    /// assert_eq!(order.as_slice(), [3, 1]);
    /// # Ok::<(), nardcorbel::Error>(())
    /// ```
    pub fn from_order(places: &'a mut [u16], bytes: &[u8]) -> Result<Self, Error> {
        let all = order_numbers(bytes)?;
        let is_new =
            |&(place, number): &(usize, u16)| !all.clone().take(place).any(|it| it == number);
        let count = all.clone().enumerate().filter(is_new).count();
        if count > places.len() {
            return Err(Error::new(Reason::BufferTooSmall, count));
        }
        for (place, (_, number)) in places
            .iter_mut()
            .zip(all.clone().enumerate().filter(is_new))
        {
            *place = number;
        }
        Ok(Self { places, count })
    }

    /// Returns the numbers in order.
    ///
    /// ```
    /// use nardcorbel::OrderBuffer;
    ///
    /// let mut places = [0; 4];
    /// let mut order = OrderBuffer::new(&mut places);
    /// order.push(7)?;
    /// assert_eq!(order.as_slice(), [7]);
    /// # Ok::<(), nardcorbel::Error>(())
    /// ```
    #[must_use]
    pub fn as_slice(&self) -> &[u16] {
        &self.places[..self.count]
    }

    /// Adds a number at the end, or moves it there if the order contains it.
    ///
    /// Fails if the number is new and the buffer has no room. The order is then unchanged.
    ///
    /// ```
    /// use nardcorbel::OrderBuffer;
    ///
    /// let mut places = [0; 4];
    /// let mut order = OrderBuffer::from_order(&mut places, &[3, 0, 1, 0])?;
    /// order.push(3)?;
    /// assert_eq!(order.as_slice(), [1, 3]);
    /// # Ok::<(), nardcorbel::Error>(())
    /// ```
    pub fn push(&mut self, number: u16) -> Result<(), Error> {
        self.insert(self.count, number)
    }

    /// Inserts a number at a place among the others, or moves it there if the order contains it. A place beyond the end is the end.
    ///
    /// Fails if the number is new and the buffer has no room. The order is then unchanged.
    ///
    /// ```
    /// use nardcorbel::OrderBuffer;
    ///
    /// let mut places = [0; 2];
    /// let mut order = OrderBuffer::new(&mut places);
    /// order.insert(0, 7)?;
    /// order.insert(0, 9)?;
    /// assert_eq!(order.as_slice(), [9, 7]);
    /// assert_eq!(order.push(5).unwrap_err().to_string(), "buffer too small: 3 elements are needed");
    /// # Ok::<(), nardcorbel::Error>(())
    /// ```
    pub fn insert(&mut self, place: usize, number: u16) -> Result<(), Error> {
        match sys::nard_boot_order_insert(self.places, &mut self.count, place, number) {
            sys::OK => Ok(()),
            _ => Err(Error::new(Reason::BufferTooSmall, self.count + 1)),
        }
    }

    /// Removes a number, and returns whether it was in the order.
    ///
    /// ```
    /// use nardcorbel::OrderBuffer;
    ///
    /// let mut places = [0; 4];
    /// let mut order = OrderBuffer::from_order(&mut places, &[3, 0, 1, 0])?;
    /// assert!(order.remove(3) && !order.remove(3));
    /// # Ok::<(), nardcorbel::Error>(())
    /// ```
    pub fn remove(&mut self, number: u16) -> bool {
        sys::nard_boot_order_remove(self.places, &mut self.count, number)
    }

    /// Moves a number to the front, and returns whether it was in the order.
    ///
    /// ```
    /// use nardcorbel::OrderBuffer;
    ///
    /// let mut places = [0; 4];
    /// let mut order = OrderBuffer::from_order(&mut places, &[3, 0, 1, 0])?;
    /// assert!(order.move_to_front(1));
    /// assert_eq!(order.as_slice(), [1, 3]);
    /// # Ok::<(), nardcorbel::Error>(())
    /// ```
    pub fn move_to_front(&mut self, number: u16) -> bool {
        sys::nard_boot_order_move_to_front(self.places, &mut self.count, number)
    }

    /// Returns the bytes of the order, in the form of a variable's value.
    ///
    /// ```
    /// use nardcorbel::OrderBuffer;
    ///
    /// let mut places = [0; 4];
    /// let order = OrderBuffer::from_order(&mut places, &[3, 0, 1, 0])?;
    /// assert!(order.to_le_bytes().eq([3, 0, 1, 0]));
    /// # Ok::<(), nardcorbel::Error>(())
    /// ```
    pub fn to_le_bytes(&self) -> impl Iterator<Item = u8> + '_ {
        self.iter().flat_map(|it| it.to_le_bytes())
    }
}

impl Deref for OrderBuffer<'_> {
    type Target = [u16];

    fn deref(&self) -> &[u16] {
        self.as_slice()
    }
}

impl<'a> IntoIterator for &'a OrderBuffer<'_> {
    type Item = &'a u16;
    type IntoIter = core::slice::Iter<'a, u16>;

    fn into_iter(self) -> Self::IntoIter {
        self.iter()
    }
}
