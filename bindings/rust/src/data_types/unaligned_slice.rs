//! Slices whose items may begin at any address.

#[cfg(feature = "alloc")]
use alloc::vec::Vec;
use core::fmt;
use core::iter::FusedIterator;
use core::marker::PhantomData;
use core::mem::MaybeUninit;

/// Items in memory that need not be aligned for them, such as the name in a device path node.
///
/// ```
/// use nardcorbel::data_types::UnalignedSlice;
///
/// let name = UnalignedSlice::from_unit_bytes(&[0x61, 0, 0, 0]);
/// assert!(name.iter().eq([0x61, 0]));
/// ```
#[derive(Clone)]
pub struct UnalignedSlice<'a, T: Copy> {
    data: *const T,
    len: usize,
    _items: PhantomData<&'a T>,
}

impl<'a, T: Copy> UnalignedSlice<'a, T> {
    /// Creates a slice of items from an address on.
    ///
    /// # Safety
    ///
    /// That many items are at the address, and they are unchanged while the slice is used.
    ///
    /// ```
    /// use nardcorbel::data_types::UnalignedSlice;
    ///
    /// let bytes = [0, 1, 0, 2, 0];
    /// // SAFETY: there are two units after the first byte.
    /// let units = unsafe { UnalignedSlice::<u16>::new(bytes[1..].as_ptr().cast(), 2) };
    /// assert_eq!(units.len(), 2);
    /// ```
    #[must_use]
    pub const unsafe fn new(data: *const T, len: usize) -> Self {
        Self {
            data,
            len,
            _items: PhantomData,
        }
    }

    /// Returns whether there are no items.
    ///
    /// ```
    /// use nardcorbel::data_types::UnalignedSlice;
    ///
    /// let units = UnalignedSlice::from_unit_bytes(&[1, 0, 2, 0]);
    /// assert!(!units.is_empty());
    /// ```
    #[must_use]
    pub const fn is_empty(&self) -> bool {
        self.len == 0
    }

    /// Returns the address of the first item.
    ///
    /// ```
    /// use nardcorbel::data_types::UnalignedSlice;
    ///
    /// let units = UnalignedSlice::from_unit_bytes(&[1, 0, 2, 0]);
    /// // SAFETY: there is a first unit.
    /// assert_eq!(unsafe { units.as_ptr().read_unaligned() }, 1);
    /// ```
    #[must_use]
    pub const fn as_ptr(&self) -> *const T {
        self.data
    }

    /// Returns the number of items.
    ///
    /// ```
    /// use nardcorbel::data_types::UnalignedSlice;
    ///
    /// let units = UnalignedSlice::from_unit_bytes(&[1, 0, 2, 0]);
    /// assert_eq!(units.len(), 2);
    /// ```
    #[must_use]
    pub const fn len(&self) -> usize {
        self.len
    }

    /// Returns an item, or `None` if there are not so many.
    ///
    /// ```
    /// use nardcorbel::data_types::UnalignedSlice;
    ///
    /// let units = UnalignedSlice::from_unit_bytes(&[1, 0, 2, 0]);
    /// assert_eq!((units.get(1), units.get(2)), (Some(2), None));
    /// ```
    #[must_use]
    pub const fn get(&self, index: usize) -> Option<T> {
        if index < self.len {
            // SAFETY: whoever made the slice vouched for `len` items.
            Some(unsafe { self.data.add(index).read_unaligned() })
        } else {
            None
        }
    }

    /// Iterates over the items.
    ///
    /// ```
    /// use nardcorbel::data_types::UnalignedSlice;
    ///
    /// let units = UnalignedSlice::from_unit_bytes(&[1, 0, 2, 0]);
    /// assert_eq!(units.iter().sum::<u16>(), 3);
    /// ```
    #[must_use]
    pub const fn iter(&'a self) -> UnalignedSliceIter<'a, T> {
        UnalignedSliceIter {
            slice: self,
            index: 0,
        }
    }

    /// Copies the items to a slice.
    ///
    /// # Panics
    ///
    /// Panics if the slices have different lengths.
    ///
    /// ```
    /// use nardcorbel::data_types::UnalignedSlice;
    ///
    /// let units = UnalignedSlice::from_unit_bytes(&[1, 0, 2, 0]);
    /// let mut copy = [0; 2];
    /// units.copy_to(&mut copy);
    /// assert_eq!(copy, [1, 2]);
    /// ```
    pub fn copy_to(&self, dest: &mut [T]) {
        assert_eq!(dest.len(), self.len, "the slices have different lengths");
        dest.iter_mut().zip(self).for_each(|(to, item)| *to = item);
    }

    /// Copies the items to memory that need not be initialized before.
    ///
    /// # Panics
    ///
    /// Panics if the slices have different lengths.
    ///
    /// ```
    /// use nardcorbel::data_types::UnalignedSlice;
    ///
    /// let units = UnalignedSlice::from_unit_bytes(&[1, 0, 2, 0]);
    /// let mut copy = [std::mem::MaybeUninit::uninit(); 2];
    /// units.copy_to_maybe_uninit(&mut copy);
    /// // SAFETY: both were written.
    /// assert_eq!(copy.map(|it| unsafe { it.assume_init() }), [1, 2]);
    /// ```
    pub fn copy_to_maybe_uninit(&self, dest: &mut [MaybeUninit<T>]) {
        assert_eq!(dest.len(), self.len, "the slices have different lengths");
        dest.iter_mut()
            .zip(self)
            .for_each(|(to, item)| *to = MaybeUninit::new(item));
    }

    /// Copies the items to a vector.
    ///
    /// ```
    /// use nardcorbel::data_types::UnalignedSlice;
    ///
    /// let units = UnalignedSlice::from_unit_bytes(&[1, 0, 2, 0]);
    /// assert_eq!(units.to_vec(), [1, 2]);
    /// ```
    #[cfg(feature = "alloc")]
    #[must_use]
    pub fn to_vec(&self) -> Vec<T> {
        self.iter().collect()
    }
}

/// Items that are bytes of any value, in the machine's order.
#[doc(hidden)]
pub trait Plain: Copy {}
impl Plain for u16 {}
impl Plain for u32 {}
impl Plain for [u8; 16] {}

impl<'a, T: Plain> UnalignedSlice<'a, T> {
    /// The items that bytes are; the bytes of no whole item at the end are left out.
    pub(crate) const fn of_bytes(bytes: &'a [u8]) -> Self {
        // SAFETY: the bytes hold so many items, and are borrowed as long.
        unsafe { Self::new(bytes.as_ptr().cast(), bytes.len() / size_of::<T>()) }
    }
}

impl<'a> UnalignedSlice<'a, u16> {
    /// Creates a slice of the units that bytes are, two for each; an odd byte at the end is left out.
    ///
    /// ```
    /// use nardcorbel::data_types::UnalignedSlice;
    ///
    /// let units = UnalignedSlice::from_unit_bytes(&[1, 0, 2, 0, 9]);
    /// assert_eq!(units.to_vec(), [1, 2]);
    /// ```
    #[must_use]
    pub const fn from_unit_bytes(bytes: &'a [u8]) -> Self {
        Self::of_bytes(bytes)
    }
}

impl<T: Copy + fmt::Debug> fmt::Debug for UnalignedSlice<'_, T> {
    fn fmt(&self, f: &mut fmt::Formatter<'_>) -> fmt::Result {
        f.debug_list().entries(self).finish()
    }
}

#[cfg(feature = "alloc")]
impl<'a, T: Copy> From<UnalignedSlice<'a, T>> for Vec<T> {
    fn from(items: UnalignedSlice<'a, T>) -> Self {
        items.to_vec()
    }
}

impl<'a, T: Copy> IntoIterator for UnalignedSlice<'a, T> {
    type Item = T;
    type IntoIter = UnalignedSliceIntoIter<'a, T>;

    fn into_iter(self) -> Self::IntoIter {
        UnalignedSliceIntoIter {
            slice: self,
            index: 0,
        }
    }
}

impl<'a, T: Copy> IntoIterator for &'a UnalignedSlice<'a, T> {
    type Item = T;
    type IntoIter = UnalignedSliceIter<'a, T>;

    fn into_iter(self) -> Self::IntoIter {
        self.iter()
    }
}

/// Iterates over the items of a slice that it owns.
///
/// ```
/// use nardcorbel::data_types::UnalignedSlice;
///
/// let units = UnalignedSlice::from_unit_bytes(&[1, 0, 2, 0]);
/// assert_eq!(units.into_iter().len(), 2);
/// ```
#[derive(Clone, Debug)]
pub struct UnalignedSliceIntoIter<'a, T: Copy> {
    slice: UnalignedSlice<'a, T>,
    index: usize,
}

/// Iterates over the items of a slice.
///
/// ```
/// use nardcorbel::data_types::UnalignedSlice;
///
/// let units = UnalignedSlice::from_unit_bytes(&[1, 0, 2, 0]);
/// assert_eq!(units.iter().last(), Some(2));
/// ```
#[derive(Clone, Debug)]
pub struct UnalignedSliceIter<'a, T: Copy> {
    slice: &'a UnalignedSlice<'a, T>,
    index: usize,
}

macro_rules! iterator {
    ($($name:ident)*) => {$(
        impl<T: Copy> Iterator for $name<'_, T> {
            type Item = T;

            fn next(&mut self) -> Option<T> {
                let item = self.slice.get(self.index)?;
                self.index += 1;
                Some(item)
            }

            fn size_hint(&self) -> (usize, Option<usize>) {
                let left = self.slice.len - self.index;
                (left, Some(left))
            }
        }

        impl<T: Copy> ExactSizeIterator for $name<'_, T> {}
        impl<T: Copy> FusedIterator for $name<'_, T> {}
    )*};
}
iterator!(UnalignedSliceIntoIter UnalignedSliceIter);
