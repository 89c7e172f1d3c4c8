//! All values of a column, or the values of a range of positions.

use alloc::vec::Vec;

use super::Column;
use crate::growing::resize;

/// The greatest base: no value passes 64 bits with it.
const MAX_BASE: u64 = u64::MAX - u32::MAX as u64;

impl Column {
    /// Returns all values. Unpacks each block once, and allocates four bytes for each value.
    ///
    /// ```
    /// use bitpacking::column::{ColumnBuf, Error, Kind};
    ///
    /// let column = ColumnBuf::pack(Kind::Plain, &[5, 3, 8])?;
    /// assert_eq!(column.unpack(), [5, 3, 8]);
    /// # Ok::<(), Error>(())
    /// ```
    pub fn unpack(&self) -> Vec<u32> {
        let mut values = Vec::new();
        self.unpack_into(&mut values);
        values
    }

    /// Replaces the values of a vector by all values of the column. It allocates only if the vector has less capacity than the column has
    /// values.
    ///
    /// ```
    /// use bitpacking::column::{Column, Error};
    ///
    /// let mut values = Vec::new();
    /// for bytes in [&[0x41, 5][..], &[0x42, 1, 2, 2]] {
    ///     Column::open(bytes)?.unpack_into(&mut values);
    ///     println!("{values:?}");
    /// }
    /// assert_eq!(values, [3, 1]);
    /// # Ok::<(), Error>(())
    /// ```
    pub fn unpack_into(&self, values: &mut Vec<u32>) {
        resize(values, self.len());
        // REQUIRES: the slice has room for all values, as it has the length of the column.
        self.code.copy_to(values);
    }

    /// Writes the values from a position on at the start of a slice, as many as there are and fit, and returns how many these are. Values of
    /// the slice after them are unchanged. Unpacks each block that has such values once, and allocates nothing.
    ///
    /// ```
    /// use bitpacking::column::{ColumnBuf, Error, Kind};
    ///
    /// let column = ColumnBuf::pack(Kind::Plain, &[5, 3, 8, 2])?;
    /// let mut page = [0; 3];
    /// assert_eq!((column.unpack_range(0, &mut page), page), (3, [5, 3, 8]));
    /// assert_eq!((column.unpack_range(3, &mut page), page), (1, [2, 3, 8]));
    /// assert_eq!(column.unpack_range(4, &mut page), 0);
    /// # Ok::<(), Error>(())
    /// ```
    pub fn unpack_range(&self, from: usize, values: &mut [u32]) -> usize {
        self.code.copy_range(from, values)
    }

    /// Returns the sum of `base` and the value at a position, or `None` if there is no such position. Allocates nothing.
    ///
    /// # Panics
    ///
    /// If `base` is above `u64::MAX - u32::MAX`, whatever the values are.
    ///
    /// ```
    /// use bitpacking::column::{ColumnBuf, Error, Kind};
    ///
    /// // Times in seconds, from a day on.
    /// let day = 19_700 * 86_400;
    /// let times = ColumnBuf::pack(Kind::Sorted, &[7, 300, 86_000])?;
    /// assert_eq!((times.get_wide(day, 2), times.get_wide(day, 3)), (Some(1_702_166_000), None));
    /// # Ok::<(), Error>(())
    /// ```
    #[inline]
    #[track_caller]
    pub fn get_wide(&self, base: u64, position: usize) -> Option<u64> {
        test_base(base);
        self.get(position).map(|value| base + u64::from(value))
    }

    /// Returns the sums of `base` and all values. Unpacks each block once, and allocates eight bytes for each value.
    ///
    /// # Panics
    ///
    /// If `base` is above `u64::MAX - u32::MAX`, whatever the values are.
    ///
    /// ```
    /// use bitpacking::column::{ColumnBuf, Error, Kind};
    ///
    /// let offsets = ColumnBuf::pack(Kind::Sorted, &[7, 9, 10])?;
    /// assert_eq!(offsets.unpack_wide(1 << 40), [(1 << 40) + 7, (1 << 40) + 9, (1 << 40) + 10]);
    /// # Ok::<(), Error>(())
    /// ```
    #[track_caller]
    pub fn unpack_wide(&self, base: u64) -> Vec<u64> {
        test_base(base);
        let mut sums = Vec::with_capacity(self.len());
        let mut cursor = self.cursor();
        while !cursor.block().is_empty() {
            sums.extend(cursor.block().iter().map(|value| base + u64::from(*value)));
            cursor.skip_block();
        }
        sums
    }
}

/// Panics if a value may pass 64 bits with a base.
#[inline]
#[track_caller]
fn test_base(base: u64) {
    assert!(base <= MAX_BASE, "the base {base} is above {MAX_BASE}");
}
