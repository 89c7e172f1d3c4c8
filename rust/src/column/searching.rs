//! Searches: the first value from a target on, the values within limits, the bounds of a block.

use alloc::vec::Vec;
use core::ops::{Bound, RangeBounds};

use super::{Column, Error, Positions};
use crate::set::IdSetBuf;

/// How many positions a vector gets room for at first.
const FEW: usize = 256;

impl Column {
    /// Returns the first value of a sorted column that is at least `target`, with its position; or `None` if every value is below it. It
    /// halves the blocks, unpacks one of them, and allocates nothing.
    ///
    /// # Errors
    ///
    /// `WrongKind(Plain, Sorted)`, if the column is plain.
    ///
    /// ```
    /// use bitpacking::column::{ColumnBuf, Error, Kind};
    ///
    /// let times = ColumnBuf::pack(Kind::Sorted, &[7, 9, 9, 300])?;
    /// assert_eq!((times.seek(8)?, times.seek(301)?), (Some((1, 9)), None));
    /// let prices = ColumnBuf::pack(Kind::Plain, &[7, 9, 9, 300])?;
    /// assert_eq!(prices.seek(8), Err(Error::WrongKind(Kind::Plain, Kind::Sorted)));
    /// # Ok::<(), Error>(())
    /// ```
    pub fn seek(&self, target: u32) -> Result<Option<(usize, u32)>, Error> {
        self.code.seek(target)
    }

    /// Returns how many values are within a range. In a sorted column it searches for both ends. In a plain one it unpacks the blocks whose
    /// [`bounds`](Column::bounds) leave it open, and the values after the last block. Allocates nothing.
    ///
    /// ```
    /// use bitpacking::column::{ColumnBuf, Error, Kind};
    ///
    /// let column = ColumnBuf::pack(Kind::Plain, &[5, 3, 8, 2])?;
    /// assert_eq!((column.count_between(3..=5), column.count_between(4..), column.count_between(5..3)), (2, 2, 0));
    /// # Ok::<(), Error>(())
    /// ```
    pub fn count_between(&self, range: impl RangeBounds<u32>) -> usize {
        limits(range).map_or(0, |(low, high)| self.code.count_between(low, high))
    }

    /// Returns the positions of the values within a range, in increasing order. Allocates nothing.
    ///
    /// In a plain column it unpacks what [`count_between`](Column::count_between) unpacks, as the positions are read.
    ///
    /// ```
    /// use bitpacking::column::{ColumnBuf, Error, Kind};
    ///
    /// let column = ColumnBuf::pack(Kind::Plain, &[5, 3, 8, 2, 4])?;
    /// assert_eq!(column.positions_between(3..=5).collect::<Vec<usize>>(), [0, 1, 4]);
    /// # Ok::<(), Error>(())
    /// ```
    pub fn positions_between(&self, range: impl RangeBounds<u32>) -> Positions<'_> {
        Positions::new(self.code(), limits(range))
    }

    /// Replaces the positions of a vector by those that [`positions_between`](Column::positions_between) returns. The vector retains its
    /// memory, which many queries in turn can use; it grows as it is filled.
    ///
    /// ```
    /// use bitpacking::column::ColumnBuf;
    ///
    /// let (prices, sizes): (ColumnBuf, ColumnBuf) = ([5, 3, 8].into_iter().collect(), [1, 9, 4].into_iter().collect());
    /// let mut positions = Vec::new();
    /// for column in [prices, sizes] {
    ///     column.positions_between_into(3..=5, &mut positions);
    ///     println!("{positions:?}");
    /// }
    /// assert_eq!(positions, [2]);
    /// ```
    pub fn positions_between_into(&self, range: impl RangeBounds<u32>, positions: &mut Vec<usize>) {
        let Positions { run, mut pages, .. } = self.positions_between(range);
        positions.clear();
        positions.extend(run);
        let mut found = positions.len();
        while pages.left() > 0 {
            positions.resize(found + found.max(FEW).min(pages.left()), 0);
            found += pages.write(&mut positions[found..]);
        }
        positions.truncate(found);
    }

    /// Returns the set of the positions that [`positions_between`](Column::positions_between) returns, for an operator or a query. Allocates 4 bytes
    /// for each position, and the bytes of the set.
    ///
    /// # Panics
    ///
    /// If an allocation fails.
    ///
    /// ```
    /// use bitpacking::column::ColumnBuf;
    /// use bitpacking::set::IdSetBuf;
    ///
    /// let prices: ColumnBuf = [5, 3, 8, 2, 4].into_iter().collect();
    /// let cats = IdSetBuf::from([1, 2, 4]);
    /// assert_eq!((&cats & prices.between_ids(3..=5)).unpack(), [1, 4]);
    /// ```
    #[track_caller]
    pub fn between_ids(&self, range: impl RangeBounds<u32>) -> IdSetBuf {
        // A column has at most 2^28 values.
        let ids: Vec<u32> = self.positions_between(range).map(|position| position as u32).collect();
        IdSetBuf::pack(&ids).expect("positions that increase, and memory for the set")
    }

    /// Returns how many whole blocks of 128 values there are. The values after them, fewer than 128, are in no block.
    ///
    /// ```
    /// let column: bitpacking::column::ColumnBuf = (0..300).collect();
    /// assert_eq!(column.blocks(), 2);
    /// ```
    #[inline]
    pub fn blocks(&self) -> usize {
        self.code.blocks()
    }

    /// Returns bounds of the values of a block: none of them is below the first, or above the second. `None` if there is no whole block of this
    /// number, counted from 0 on. It unpacks and allocates nothing.
    ///
    /// In a plain column the first is the least value of the block. The second is the first and the greatest number of the block's width, and
    /// at most `u32::MAX`. In a sorted column the second is the last value of the block, and the first is the value before the block; for
    /// block 0 it is the first value.
    ///
    /// ```
    /// use bitpacking::column::{ColumnBuf, Error, Kind};
    ///
    /// let prices: Vec<u32> = (0..200).map(|k| 5000 + (7 * k) % 100).collect();
    /// let column = ColumnBuf::pack(Kind::Plain, &prices)?;
    /// assert_eq!(column.bounds(0), Some((5000, 5127)));
    /// assert_eq!(column.bounds(1), None);
    /// # Ok::<(), Error>(())
    /// ```
    pub fn bounds(&self, block: usize) -> Option<(u32, u32)> {
        if block >= self.blocks() {
            return None;
        }
        // REQUIRES: the block is below the number of blocks, as it was tested.
        Some(self.code.bounds(block))
    }
}

/// The least and the greatest value of a range, or `None` if it is empty.
fn limits(range: impl RangeBounds<u32>) -> Option<(u32, u32)> {
    let low = match range.start_bound() {
        Bound::Included(&low) => low,
        Bound::Excluded(&before) => before.checked_add(1)?,
        Bound::Unbounded => 0,
    };
    let high = match range.end_bound() {
        Bound::Included(&high) => high,
        Bound::Excluded(&after) => after.checked_sub(1)?,
        Bound::Unbounded => u32::MAX,
    };
    (low <= high).then_some((low, high))
}
