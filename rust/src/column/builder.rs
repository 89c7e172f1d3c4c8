//! Columns whose values come one after the other.

use alloc::vec::Vec;
use core::borrow::Borrow;

use super::{ColumnBuf, Error, Kind};
use crate::columns::test_pushed;

/// Collects the values of a column one by one, or many at a time, and packs them.
///
/// A vector has the values, four bytes for each, since the bytes of a column begin with their number. A value of a sorted column that is below
/// the one before it is refused when it is pushed, and the builder is then unchanged.
///
/// ```
/// use bitpacking::column::{ColumnBuilder, Error, Kind};
///
/// let mut times = ColumnBuilder::new(Kind::Sorted);
/// times.push(5)?;
/// times.push_all(&[5, 9])?;
/// assert_eq!(times.push(8), Err(Error::NotSorted(3)));
/// assert_eq!(times.pack().as_bytes(), [0x63, 5, 3, 0x20]);
/// # Ok::<(), Error>(())
/// ```
#[derive(Clone, Debug)]
pub struct ColumnBuilder {
    kind: Kind,
    /// Values that can be packed: at most 268,435,456, and in the order of the kind.
    values: Vec<u32>,
}

impl ColumnBuilder {
    /// Returns a builder without values. Allocates nothing.
    ///
    /// ```
    /// use bitpacking::column::{ColumnBuilder, Kind};
    ///
    /// assert!(ColumnBuilder::new(Kind::Plain).is_empty());
    /// ```
    pub const fn new(kind: Kind) -> Self {
        ColumnBuilder { kind, values: Vec::new() }
    }

    /// Pushes a value. The vector of the values grows now and then.
    ///
    /// # Errors
    ///
    /// The first of: `TooLong`, if there are 268,435,456 values; `NotSorted`, with the number of values so far, if the value is below the last
    /// of them in a sorted column. The builder is then unchanged.
    ///
    /// ```
    /// use bitpacking::column::{ColumnBuilder, Error, Kind};
    ///
    /// let mut builder = ColumnBuilder::new(Kind::Sorted);
    /// builder.push(5)?;
    /// assert_eq!(builder.push(4), Err(Error::NotSorted(1)));
    /// builder.push(5)?;
    /// assert_eq!(builder.len(), 2);
    /// # Ok::<(), Error>(())
    /// ```
    #[inline]
    pub fn push(&mut self, value: u32) -> Result<(), Error> {
        self.test(&[value])?;
        self.values.push(value);
        Ok(())
    }

    /// Pushes all values of a slice, or none. The vector of the values grows at most once.
    ///
    /// # Errors
    ///
    /// As [`push`](ColumnBuilder::push). `NotSorted` has the position in the column of the first value that is below the one before it, and
    /// `TooLong` how many values there would be. The builder is then unchanged.
    ///
    /// ```
    /// use bitpacking::column::{ColumnBuilder, Error, Kind};
    ///
    /// let mut builder = ColumnBuilder::new(Kind::Sorted);
    /// builder.push_all(&[2, 3])?;
    /// assert_eq!(builder.push_all(&[5, 8, 7]), Err(Error::NotSorted(4)));
    /// assert_eq!(builder.len(), 2);
    /// # Ok::<(), Error>(())
    /// ```
    pub fn push_all(&mut self, values: &[u32]) -> Result<(), Error> {
        self.test(values)?;
        self.values.extend_from_slice(values);
        Ok(())
    }

    /// Pushes the values of an iterator, up to the first that is refused.
    ///
    /// # Errors
    ///
    /// As [`push`](ColumnBuilder::push), for that value.
    ///
    /// ```
    /// use bitpacking::column::{ColumnBuilder, Error, Kind};
    ///
    /// let mut builder = ColumnBuilder::new(Kind::Sorted);
    /// builder.extend((0..100).map(|k| k / 3))?;
    /// assert_eq!(builder.extend([40, 50, 45]), Err(Error::NotSorted(102)));
    /// assert_eq!((builder.len(), builder.last()), (102, Some(50)));
    /// # Ok::<(), Error>(())
    /// ```
    pub fn extend(&mut self, values: impl IntoIterator<Item = impl Borrow<u32>>) -> Result<(), Error> {
        values.into_iter().try_for_each(|value| self.push(*value.borrow()))
    }

    /// Tests that these values can follow the values of the builder.
    #[inline]
    fn test(&self, values: &[u32]) -> Result<(), Error> {
        // REQUIRES: the values of the builder are at most 268,435,456 and in order, as each was tested before it was pushed.
        test_pushed(self.kind, &self.values, values)
    }

    /// Drops the values. The vector retains its memory for the values of another column.
    ///
    /// ```
    /// use bitpacking::column::{ColumnBuilder, Error, Kind};
    ///
    /// let mut builder = ColumnBuilder::new(Kind::Plain);
    /// for values in [[3, 1], [4, 1]] {
    ///     builder.clear();
    ///     builder.push_all(&values)?;
    ///     assert_eq!(builder.pack().unpack(), values);
    /// }
    /// # Ok::<(), Error>(())
    /// ```
    pub fn clear(&mut self) {
        self.values.clear();
    }

    /// Returns how many values were pushed.
    ///
    /// ```
    /// use bitpacking::column::{ColumnBuilder, Error, Kind};
    ///
    /// let mut builder = ColumnBuilder::new(Kind::Plain);
    /// builder.push_all(&[6, 2])?;
    /// assert_eq!(builder.len(), 2);
    /// # Ok::<(), Error>(())
    /// ```
    pub fn len(&self) -> usize {
        self.values.len()
    }

    /// Returns whether no value was pushed.
    ///
    /// ```
    /// use bitpacking::column::{ColumnBuilder, Error, Kind};
    ///
    /// let mut builder = ColumnBuilder::new(Kind::Plain);
    /// builder.push(6)?;
    /// assert!(!builder.is_empty());
    /// # Ok::<(), Error>(())
    /// ```
    pub fn is_empty(&self) -> bool {
        self.values.is_empty()
    }

    /// Returns the last value that was pushed.
    ///
    /// ```
    /// use bitpacking::column::{ColumnBuilder, Error, Kind};
    ///
    /// let mut builder = ColumnBuilder::new(Kind::Plain);
    /// builder.push_all(&[6, 2])?;
    /// assert_eq!(builder.last(), Some(2));
    /// # Ok::<(), Error>(())
    /// ```
    pub fn last(&self) -> Option<u32> {
        self.values.last().copied()
    }

    /// Returns the kind of the column.
    ///
    /// ```
    /// use bitpacking::column::{ColumnBuilder, Kind};
    ///
    /// assert_eq!(ColumnBuilder::new(Kind::Sorted).kind(), Kind::Sorted);
    /// ```
    pub const fn kind(&self) -> Kind {
        self.kind
    }

    /// Packs the values. The builder retains them, so that more can be pushed. Allocates the bytes of the column once.
    ///
    /// ```
    /// use bitpacking::column::{ColumnBuilder, Error, Kind};
    ///
    /// let mut builder = ColumnBuilder::new(Kind::Plain);
    /// builder.push_all(&[3, 1])?;
    /// assert_eq!(builder.pack().as_bytes(), [0x42, 1, 2, 2]);
    /// # Ok::<(), Error>(())
    /// ```
    pub fn pack(&self) -> ColumnBuf {
        ColumnBuf::pack(self.kind, &self.values).expect("values that were tested, and memory for the column")
    }
}
