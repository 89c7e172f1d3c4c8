//! An iterator over the values of a column.

use core::fmt;
use core::iter::FusedIterator;

use super::{BLOCK_LEN, Column, ColumnBuf};
use crate::columns;
use crate::iterator::iterator;
use crate::room::Room;

iterator! {
    /// The values of a column, in their order.
    ///
    /// It unpacks each block once, when it comes to it, and allocates nothing. `nth`, and `skip` and `step_by` over it, do not unpack the blocks
    /// that they pass.
    ///
    /// ```
    /// let column: bitpacking::column::ColumnBuf = (0..1_000_000).collect();
    /// let mut values = column.iter();
    /// assert_eq!((values.next(), values.nth(499_999)), (Some(0), Some(500_000)));
    /// assert_eq!(values.len(), 499_999);
    /// ```
    // A part ends with its block.
    Iter of u32; Column, ColumnBuf, columns::Column, BLOCK_LEN, |position| BLOCK_LEN - position % BLOCK_LEN, read
}

/// Writes the values from a position on, as many as there is room for.
fn read(column: &mut columns::Column<'_>, position: usize, values: &mut [u32]) {
    column.copy_range(position, values);
}

impl Column {
    /// Returns an iterator over all values. Unpacks nothing yet.
    ///
    /// ```
    /// let column: bitpacking::column::ColumnBuf = [5, 3, 8].into_iter().collect();
    /// assert_eq!(column.iter().max(), Some(8));
    /// ```
    #[inline]
    pub fn iter(&self) -> Iter<'_> {
        Iter::new(self.code(), self.len())
    }
}

/// The iterator borrows the bytes, and not the buffer.
impl<'a> IntoIterator for ColumnBuf<&'a [u8]> {
    type Item = u32;
    type IntoIter = Iter<'a>;

    #[inline]
    fn into_iter(self) -> Iter<'a> {
        Iter::new(self.code, self.code.len())
    }
}
