//! Columns: lists of `u32` integers, such as times, prices or counts that stand beside ids.
//!
//! A column is packed in blocks of 128 values and is read in place: a value at a position, all values, or the positions of values within
//! limits, without unpacking the others. A column that is sorted can be searched. `docs/FORMAT.md` of the repository has each byte.
//!
//! ```
//! use bitpacking::column::{Column, ColumnBuf, Error, Kind};
//!
//! let prices: Vec<u32> = (0..1000).map(|k| 4000 + 7 * k % 500).collect();
//! let packed = ColumnBuf::pack(Kind::Plain, &prices)?;
//! assert_eq!((packed.len(), packed.get(2)), (1000, Some(4014)));
//! assert_eq!(packed.count_between(4000..4010), prices.iter().filter(|price| **price < 4010).count());
//!
//! // Its bytes can be stored, and opened in place.
//! let stored: Vec<u8> = packed.into_bytes();
//! let opened = Column::open(&stored)?;
//! assert_eq!(opened.unpack(), prices);
//! # Ok::<(), Error>(())
//! ```

mod appending;
mod builder;
mod cursor;
mod gathering;
mod iter;
mod packing;
mod positions;
mod searching;
mod unpacking;

use alloc::borrow::ToOwned;
use alloc::vec::Vec;
use core::borrow::Borrow;
use core::fmt;
use core::hash::{Hash, Hasher};
use core::ops::Deref;

/// Why a column was not packed, opened, searched, appended to or joined.
///
/// ```
/// use bitpacking::column::{ColumnBuf, Error, Kind};
///
/// let error = ColumnBuf::pack(Kind::Sorted, &[5, 9, 8]).unwrap_err();
/// assert_eq!(error, Error::NotSorted(2));
/// assert_eq!(error.to_string(), "the value at position 2 is out of order");
/// ```
pub use crate::columns::ColumnError as Error;
/// The kind of a column.
///
/// A sorted column stores differences, and can be searched by [`seek`](Column::seek). A plain one returns the value at a position faster.
///
/// ```
/// use bitpacking::column::{ColumnBuf, Error, Kind};
///
/// let times: Vec<u32> = (0..128).map(|k| 1_700_000_000 + 60 * k).collect();
/// let plain = ColumnBuf::pack(Kind::Plain, &times)?;
/// let sorted = ColumnBuf::pack(Kind::Sorted, &times)?;
/// // 13 bits for each value above the least one, or 6 bits for each difference: 16 bytes for each bit of the width.
/// assert_eq!(plain.as_bytes().len(), 3 + 1 + 5 + 16 * 13);
/// assert_eq!(sorted.as_bytes().len(), 3 + 5 + 1 + 5 + 16 * 6);
/// # Ok::<(), Error>(())
/// ```
pub use crate::columns::ColumnKind as Kind;

pub use builder::ColumnBuilder;
pub use cursor::Cursor;
pub use gathering::OutOfBounds;
pub use iter::Iter;
pub use packing::{pack_into, pack_to, packed_len};
pub use positions::Positions;

use crate::buffer::buffer;
use crate::columns;
use crate::stable_bytes::{ClonedBytes, StableBytes};

/// How many values a block has.
const BLOCK_LEN: usize = 128;

buffer! {
    /// An opened column: it is always behind a reference, and [`ColumnBuf`] has its bytes.
    ///
    /// ```
    /// use bitpacking::column::{Column, ColumnBuf, Error, Kind};
    ///
    /// fn total(column: &Column) -> u64 {
    ///     column.iter().map(u64::from).sum()
    /// }
    ///
    /// let owned = ColumnBuf::pack(Kind::Plain, &[5, 3, 8])?;
    /// let borrowed = Column::open(owned.as_bytes())?;
    /// assert_eq!((total(&owned), total(&borrowed)), (16, 16));
    /// # Ok::<(), Error>(())
    /// ```
    Column of columns::Column<'static>, Error, [0x40];
    /// A column, with the bytes that it owns or borrows. It has the methods of [`Column`].
    ///
    /// The default is the empty plain column.
    ///
    /// ```
    /// use std::sync::Arc;
    ///
    /// use bitpacking::column::{ColumnBuf, Error};
    ///
    /// let bytes: Arc<[u8]> = Arc::new([0x42, 1, 2, 2]);
    /// let column: ColumnBuf<Arc<[u8]>> = ColumnBuf::open(bytes)?;
    /// assert_eq!(column.unpack(), [3, 1]);
    /// # Ok::<(), Error>(())
    /// ```
    ColumnBuf
}

impl<B: StableBytes> ColumnBuf<B> {
    /// Opens bytes that were opened before, without testing them again.
    ///
    /// # Safety
    ///
    /// The bytes are the encoding of a column: [`open`](ColumnBuf::open) accepted these bytes, or a call of this module packed them.
    ///
    /// ```
    /// use bitpacking::column::{ColumnBuf, Error, Kind};
    ///
    /// let bytes = ColumnBuf::pack(Kind::Plain, &[5, 3, 8])?.into_bytes();
    /// // SAFETY: these bytes were just packed.
    /// let column = unsafe { ColumnBuf::open_unchecked(bytes) };
    /// assert_eq!(column.get(2), Some(8));
    /// # Ok::<(), Error>(())
    /// ```
    pub unsafe fn open_unchecked(bytes: B) -> Self {
        // REQUIRES: the bytes have no fault, as the caller promises.
        let opened = ColumnBuf::of(bytes, |bytes| Ok(columns::Column::of_tested(bytes)));
        opened.expect("bytes without a fault are opened")
    }
}

impl Column {
    /// Opens the encoding of a column. Tests all bytes, which may be untrusted, and allocates nothing.
    ///
    /// # Errors
    ///
    /// The first fault of the bytes, in the order of `docs/FORMAT.md` of the repository.
    ///
    /// ```
    /// use bitpacking::column::{Column, Error};
    ///
    /// // Two values: the least is 1, and above it are 2 and 0, in two bits each.
    /// assert_eq!(Column::open(&[0x42, 1, 2, 2])?.unpack(), [3, 1]);
    /// assert_eq!(Column::open(&[0x42, 1, 2]).err(), Some(Error::Short));
    /// # Ok::<(), Error>(())
    /// ```
    pub fn open(bytes: &[u8]) -> Result<ColumnBuf<&[u8]>, Error> {
        ColumnBuf::open(bytes)
    }

    /// Opens bytes that were opened before, without testing them again. Reads only the first of them, and allocates nothing.
    ///
    /// # Safety
    ///
    /// The bytes are the encoding of a column: [`open`](Column::open) accepted these bytes, or a call of this module packed them.
    ///
    /// ```
    /// use bitpacking::column::{Column, ColumnBuf, Error, Kind};
    ///
    /// let bytes = ColumnBuf::pack(Kind::Plain, &[5, 3, 8])?.into_bytes();
    /// // SAFETY: these bytes were just packed.
    /// let column = unsafe { Column::open_unchecked(&bytes) };
    /// assert_eq!(column.get(2), Some(8));
    /// # Ok::<(), Error>(())
    /// ```
    pub unsafe fn open_unchecked(bytes: &[u8]) -> ColumnBuf<&[u8]> {
        // SAFETY: the caller promises what the call requires.
        unsafe { ColumnBuf::open_unchecked(bytes) }
    }

    /// The proved column, which borrows the bytes as long as this one is borrowed.
    #[inline(always)]
    pub(crate) fn code(&self) -> columns::Column<'_> {
        self.code
    }

    /// Returns the kind.
    ///
    /// ```
    /// use bitpacking::column::{Column, Error, Kind};
    ///
    /// assert_eq!(Column::open(&[0x60])?.kind(), Kind::Sorted);
    /// # Ok::<(), Error>(())
    /// ```
    #[inline]
    pub fn kind(&self) -> Kind {
        self.code.kind()
    }

    /// Returns how many values there are: at most 268,435,456.
    ///
    /// ```
    /// let column: bitpacking::column::ColumnBuf = [5, 3, 8].into_iter().collect();
    /// assert_eq!(column.len(), 3);
    /// ```
    #[inline]
    pub fn len(&self) -> usize {
        self.code.len()
    }

    /// Returns whether there is no value.
    ///
    /// ```
    /// assert!(bitpacking::column::ColumnBuf::default().is_empty());
    /// ```
    #[inline]
    pub fn is_empty(&self) -> bool {
        self.code.is_empty()
    }

    /// Writes the bytes of the encoding to a writer.
    ///
    /// # Errors
    ///
    /// The first error of the writer.
    ///
    /// ```
    /// use bitpacking::column::ColumnBuf;
    ///
    /// let column: ColumnBuf = [3, 1].into_iter().collect();
    /// let mut file = Vec::new();
    /// column.write_to(&mut file)?;
    /// assert_eq!(file, [0x42, 1, 2, 2]);
    /// # Ok::<(), std::io::Error>(())
    /// ```
    #[cfg(feature = "std")]
    pub fn write_to(&self, mut writer: impl std::io::Write) -> std::io::Result<()> {
        writer.write_all(self.as_bytes())
    }
}

impl fmt::Debug for Column {
    fn fmt(&self, f: &mut fmt::Formatter<'_>) -> fmt::Result {
        f.debug_struct("Column").field("kind", &self.kind()).field("len", &self.len()).finish_non_exhaustive()
    }
}
