//! A cursor over a column.

use core::fmt;

use super::Column;
use crate::columns;

/// A position in a column that moves forward, back, or by blocks. It reads a value without moving, and the values of a block as a slice.
///
/// It has the values of its block, and so takes about half a KB. Only a move to another block unpacks a block. Allocates nothing.
///
/// ```
/// use bitpacking::column::{ColumnBuf, Error, Kind};
///
/// let prices: Vec<u32> = (0..300).map(|k| k % 7).collect();
/// let column = ColumnBuf::pack(Kind::Plain, &prices)?;
/// let (mut cursor, mut total) = (column.cursor(), 0);
/// while cursor.value().is_some() {
///     total += cursor.block().iter().sum::<u32>();
///     cursor.skip_block();
/// }
/// assert_eq!(total, prices.iter().sum());
/// # Ok::<(), Error>(())
/// ```
pub struct Cursor<'a> {
    code: columns::ColumnCursor<'a>,
}

impl Column {
    /// Returns a cursor at the first value. Unpacks the first block.
    ///
    /// ```
    /// let column: bitpacking::column::ColumnBuf = [5, 3, 8].into_iter().collect();
    /// let cursor = column.cursor();
    /// assert_eq!((cursor.position(), cursor.value()), (0, Some(5)));
    /// ```
    pub fn cursor(&self) -> Cursor<'_> {
        Cursor { code: self.code().cursor() }
    }
}

impl Cursor<'_> {
    /// Returns the position: how many values are before it. After the last value it is the length of the column.
    ///
    /// ```
    /// let column: bitpacking::column::ColumnBuf = [5, 3, 8].into_iter().collect();
    /// let mut cursor = column.cursor();
    /// cursor.advance();
    /// assert_eq!(cursor.position(), 1);
    /// ```
    #[inline]
    pub fn position(&self) -> usize {
        self.code.position()
    }

    /// Returns the value at the position, or `None` after the last value.
    ///
    /// ```
    /// let column: bitpacking::column::ColumnBuf = [5].into_iter().collect();
    /// let mut cursor = column.cursor();
    /// assert_eq!(cursor.value(), Some(5));
    /// cursor.advance();
    /// assert_eq!(cursor.value(), None);
    /// ```
    #[inline]
    pub fn value(&self) -> Option<u32> {
        self.code.value()
    }

    /// Returns the values from the position to the end of its block of 128, or to the end of the column. It is empty only after the last
    /// value.
    ///
    /// ```
    /// let column: bitpacking::column::ColumnBuf = (0..200).collect();
    /// let mut cursor = column.cursor();
    /// cursor.move_to(125);
    /// assert_eq!(cursor.block(), [125, 126, 127]);
    /// ```
    #[inline]
    pub fn block(&self) -> &[u32] {
        self.code.block()
    }

    /// Moves to the next value. After the last value it does not move.
    ///
    /// ```
    /// let column: bitpacking::column::ColumnBuf = [5, 3, 8].into_iter().collect();
    /// let mut cursor = column.cursor();
    /// cursor.advance();
    /// assert_eq!(cursor.value(), Some(3));
    /// ```
    #[inline]
    pub fn advance(&mut self) {
        self.code.advance();
    }

    /// Moves past the values of [`block`](Cursor::block): to the next block, or to the end.
    ///
    /// ```
    /// let column: bitpacking::column::ColumnBuf = (0..200).collect();
    /// let mut cursor = column.cursor();
    /// cursor.skip_block();
    /// assert_eq!(cursor.position(), 128);
    /// cursor.skip_block();
    /// assert_eq!(cursor.position(), 200);
    /// ```
    #[inline]
    pub fn skip_block(&mut self) {
        self.code.skip_block();
    }

    /// Moves to a position, before or after this one, or to the end if there is no such position. It does not read the values between.
    ///
    /// ```
    /// let column: bitpacking::column::ColumnBuf = (0..1000).collect();
    /// let mut cursor = column.cursor();
    /// cursor.move_to(700);
    /// assert_eq!(cursor.value(), Some(700));
    /// ```
    #[inline]
    pub fn move_to(&mut self, position: usize) {
        self.code.move_to(position);
    }

    /// Writes the values from the position on at the start of a slice, until it is full or the last is written. Moves after them, and returns their
    /// number. The rest of the slice is unchanged.
    ///
    /// ```
    /// let column: bitpacking::column::ColumnBuf = [5, 3, 8].into_iter().collect();
    /// let (mut cursor, mut page) = (column.cursor(), [0; 2]);
    /// assert_eq!((cursor.fill(&mut page), page, cursor.position()), (2, [5, 3], 2));
    /// assert_eq!((cursor.fill(&mut page), page, cursor.position()), (1, [8, 3], 3));
    /// ```
    pub fn fill(&mut self, values: &mut [u32]) -> usize {
        let mut written = 0;
        while written < values.len() && !self.block().is_empty() {
            let len = self.block().len().min(values.len() - written);
            values[written..written + len].copy_from_slice(&self.block()[..len]);
            self.move_to(self.position() + len);
            written += len;
        }
        written
    }
}

impl fmt::Debug for Cursor<'_> {
    fn fmt(&self, f: &mut fmt::Formatter<'_>) -> fmt::Result {
        f.debug_struct("Cursor").field("position", &self.position()).field("value", &self.value()).finish_non_exhaustive()
    }
}
