//! The values at positions of a column.

use alloc::vec;
use alloc::vec::Vec;
use core::borrow::Borrow;
use core::fmt;

use super::Column;

/// One of the positions of [`gather`](Column::gather) is not in the column.
///
/// ```
/// use bitpacking::column::{ColumnBuf, OutOfBounds};
///
/// let column: ColumnBuf = [5, 3, 8, 2].into_iter().collect();
/// let error = column.gather(&[0, 7, 9]).unwrap_err();
/// assert_eq!(error, OutOfBounds { index: 1, position: 7 });
/// assert_eq!(error.to_string(), "position 7, at index 1, is not in the column");
/// ```
#[derive(Clone, Copy, PartialEq, Eq, Hash, Debug)]
pub struct OutOfBounds {
    /// The index, among the positions, of the first that is not in the column.
    pub index: usize,
    /// The position.
    pub position: usize,
}

impl fmt::Display for OutOfBounds {
    fn fmt(&self, f: &mut fmt::Formatter<'_>) -> fmt::Result {
        write!(f, "position {}, at index {}, is not in the column", self.position, self.index)
    }
}

impl core::error::Error for OutOfBounds {}

impl Column {
    /// Returns the value at a position, or `None` if there is no such position. In a plain column it reads one value of a block, in a sorted
    /// one it unpacks the block. Allocates nothing.
    ///
    /// ```
    /// use bitpacking::column::{ColumnBuf, Error, Kind};
    ///
    /// let column = ColumnBuf::pack(Kind::Plain, &[5, 3, 8, 2])?;
    /// assert_eq!((column.get(2), column.get(4)), (Some(8), None));
    /// # Ok::<(), Error>(())
    /// ```
    #[inline]
    pub fn get(&self, position: usize) -> Option<u32> {
        self.code.get(position)
    }

    /// Returns the value at each position. The positions may be in any order, and one may come twice. Allocates four bytes for each position.
    ///
    /// A block is unpacked at most once for each run of positions that are in it, so that increasing positions unpack each block at most once.
    ///
    /// # Errors
    ///
    /// If a position is not in the column: the first such position, and its index.
    ///
    /// ```
    /// use bitpacking::column::{ColumnBuf, OutOfBounds};
    ///
    /// let column: ColumnBuf = [5, 3, 8, 2].into_iter().collect();
    /// assert_eq!(column.gather(&[3, 0, 3])?, [2, 5, 2]);
    /// assert_eq!(column.gather(&[3, 4]), Err(OutOfBounds { index: 1, position: 4 }));
    /// # Ok::<(), OutOfBounds>(())
    /// ```
    pub fn gather(&self, positions: &[usize]) -> Result<Vec<u32>, OutOfBounds> {
        let mut values = vec![0; positions.len()];
        self.gather_into(positions, &mut values)?;
        Ok(values)
    }

    /// Replaces the values of a vector by those that [`gather`](Column::gather) returns. It allocates only if the vector has less capacity
    /// than there are positions.
    ///
    /// # Errors
    ///
    /// As [`gather`](Column::gather). The values of the vector are then unchanged.
    ///
    /// ```
    /// use bitpacking::column::{ColumnBuf, OutOfBounds};
    ///
    /// let (prices, sizes): (ColumnBuf, ColumnBuf) = ([5, 3, 8].into_iter().collect(), [1, 9, 4].into_iter().collect());
    /// let mut values = Vec::new();
    /// for column in [prices, sizes] {
    ///     column.gather_into(&[2, 0], &mut values)?;
    ///     println!("{values:?}");
    /// }
    /// assert_eq!(values, [4, 1]);
    /// # Ok::<(), OutOfBounds>(())
    /// ```
    pub fn gather_into(&self, positions: &[usize], values: &mut Vec<u32>) -> Result<(), OutOfBounds> {
        let before = values.len();
        if before < positions.len() {
            values.resize(positions.len(), 0);
        }
        // REQUIRES: the slice has room for a value at each position, as the vector has at least as many.
        let gathered = self.code.gather(positions, values);
        values.truncate(if gathered.is_ok() { positions.len() } else { before });
        gathered.map_err(|index| OutOfBounds { index, position: positions[index] })
    }

    /// Returns the value at each id, as [`gather`](Column::gather) does at each position: of a slice, of a set, or of a query. Allocates 12 bytes
    /// for each id.
    ///
    /// # Errors
    ///
    /// As [`gather`](Column::gather).
    ///
    /// ```
    /// use bitpacking::column::{ColumnBuf, OutOfBounds};
    /// use bitpacking::set::IdSetBuf;
    ///
    /// let prices: ColumnBuf = [5, 3, 8, 2].into_iter().collect();
    /// let cats = IdSetBuf::from([0, 3]);
    /// assert_eq!((prices.gather_ids(&cats)?, prices.gather_ids(&[3, 0, 3])?), (vec![5, 2], vec![2, 5, 2]));
    /// # Ok::<(), OutOfBounds>(())
    /// ```
    pub fn gather_ids(&self, ids: impl IntoIterator<Item = impl Borrow<u32>>) -> Result<Vec<u32>, OutOfBounds> {
        let positions: Vec<usize> = ids.into_iter().map(|id| *id.borrow() as usize).collect();
        let mut values = Vec::new();
        self.gather_into(&positions, &mut values)?;
        Ok(values)
    }
}
