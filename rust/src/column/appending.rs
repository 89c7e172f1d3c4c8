//! A column and more values after it, or another column after it, packed as one column.

use super::packing::packed;
use super::{Column, ColumnBuf, Error};
use crate::columns;
use alloc::vec::Vec;

impl Column {
    /// Returns the column of the values of this column and then these values, of its kind. It copies the bodies of whole blocks, and packs only
    /// the values after them. Allocates the bytes of the new column once.
    ///
    /// # Errors
    ///
    /// The first of: `TooLong`, if all values are more than 268,435,456; `NotSorted`, with the position among all values of the first that is
    /// below the one before it in a sorted column; `Memory`, if there is no memory for the bytes.
    ///
    /// ```
    /// use bitpacking::column::{ColumnBuf, Error, Kind};
    ///
    /// let times = ColumnBuf::pack(Kind::Sorted, &[5, 5])?;
    /// assert_eq!(times.append(&[9])?, ColumnBuf::pack(Kind::Sorted, &[5, 5, 9])?);
    /// assert_eq!(times.append(&[9, 8]), Err(Error::NotSorted(3)));
    /// # Ok::<(), Error>(())
    /// ```
    pub fn append(&self, values: &[u32]) -> Result<ColumnBuf, Error> {
        packed(|bytes| columns::append(&self.code, values, bytes))
    }

    /// Returns the column of the values of this column and, after them, the values of another with `base` added to each, of this column's kind:
    /// two segments become one. The other column may be of either kind. Allocates four bytes for each value of the other column, and the bytes
    /// of the new column once.
    ///
    /// # Errors
    ///
    /// The first of: `Overflow`, with the position in the other column of the first value that is above `u32::MAX` with the base; `TooLong` and
    /// `NotSorted`, as [`append`](Column::append) returns them. Or `Memory`, if there is no memory.
    ///
    /// ```
    /// use bitpacking::column::{ColumnBuf, Error, Kind};
    ///
    /// let first = ColumnBuf::pack(Kind::Sorted, &[5, 5])?;
    /// let second = ColumnBuf::pack(Kind::Sorted, &[3, 4])?;
    /// assert_eq!(first.join(&second, 6)?.unpack(), [5, 5, 9, 10]);
    /// assert_eq!(first.join(&second, 1), Err(Error::NotSorted(2)));
    /// assert_eq!(first.join(&second, u32::MAX - 3), Err(Error::Overflow(1)));
    /// # Ok::<(), Error>(())
    /// ```
    pub fn join(&self, other: &Column, base: u32) -> Result<ColumnBuf, Error> {
        packed(|bytes| columns::join(&self.code, base, &other.code, &mut Vec::new(), bytes))
    }
}
