//! Ranges of ids as sets, and ids and ranges that are put into sets and taken out.

use alloc::vec::Vec;
use core::ops::{Bound, RangeBounds};

use super::combining::{try_combine_set, written};
use super::packing::packed;
use super::{Error, IdSet, IdSetBuf};
use crate::growing::Growing;
use crate::queries;
use crate::sets;
use crate::slices::Operation;

/// The most ids of a set.
const MOST: usize = 1 << 28;

/// Where the ids of a range begin, and before what they end.
pub(super) fn limits(range: impl RangeBounds<u32>) -> (u64, u64) {
    let first = match range.start_bound() {
        Bound::Included(&id) => u64::from(id),
        Bound::Excluded(&id) => u64::from(id) + 1,
        Bound::Unbounded => 0,
    };
    let end = match range.end_bound() {
        Bound::Included(&id) => u64::from(id) + 1,
        Bound::Excluded(&id) => u64::from(id),
        Bound::Unbounded => 1 << 32,
    };
    (first, end)
}

/// The set of the ids from `first` to before `end`.
fn set_of((first, end): (u64, u64)) -> Result<IdSetBuf, Error> {
    // No id is above the last.
    let (first, end) = u32::try_from(first).map_or((0, 0), |first| (first, end));
    packed(|bytes| {
        bytes.try_resize(sets::encoded_range_len(first, end)?, 0).map_err(|_| Error::Memory)?;
        sets::encode_range_to(first, end, bytes)?;
        Ok(())
    })
}

/// The sets of these ids, each of at most as many as a set has.
fn sets_of((first, end): (u64, u64)) -> Result<Vec<IdSetBuf>, Error> {
    (first..end).step_by(MOST).map(|first| set_of((first, end.min(first + MOST as u64)))).collect()
}

impl IdSetBuf {
    /// Returns the set of all ids of a range. They are not listed: it takes time, and allocates, in proportion to the bytes of the set.
    ///
    /// # Errors
    ///
    /// `TooLong`, if there are more than 268,435,456 ids; `Memory`.
    ///
    /// ```
    /// use bitpacking::set::{Error, IdSetBuf};
    ///
    /// let set = IdSetBuf::from_range(5..10_000_000)?;
    /// assert_eq!((set.len(), set.min(), set.max(), set.as_bytes().len()), (9_999_995, Some(5), Some(9_999_999), 1693));
    /// assert_eq!(IdSetBuf::from_range(..), Err(Error::TooLong(1 << 32)));
    /// # Ok::<(), Error>(())
    /// ```
    pub fn from_range(range: impl RangeBounds<u32>) -> Result<IdSetBuf, Error> {
        set_of(limits(range))
    }

    /// Puts an id into the set, and returns whether the set lacked it. The set is replaced by another one: that takes as long as to copy its bytes.
    ///
    /// # Errors
    ///
    /// `TooLong`, if the set has 268,435,456 other ids; `Memory`. The set is then unchanged.
    ///
    /// ```
    /// use bitpacking::set::IdSetBuf;
    ///
    /// let mut set = IdSetBuf::pack(&[1, 4])?;
    /// assert!(set.insert(3)? && !set.insert(4)?);
    /// assert_eq!(set.unpack(), [1, 3, 4]);
    /// # Ok::<(), bitpacking::set::Error>(())
    /// ```
    pub fn insert(&mut self, id: u32) -> Result<bool, Error> {
        let lacks = !self.contains(id);
        if lacks {
            self.insert_range(id..=id)?;
        }
        Ok(lacks)
    }

    /// Takes an id out of the set, and returns whether the set had it. The set is replaced by another one: that takes as long as to copy its bytes.
    ///
    /// # Errors
    ///
    /// `Memory`. The set is then unchanged.
    ///
    /// ```
    /// use bitpacking::set::IdSetBuf;
    ///
    /// let mut set = IdSetBuf::pack(&[1, 3, 4])?;
    /// assert!(set.remove(3)? && !set.remove(2)?);
    /// assert_eq!(set.unpack(), [1, 4]);
    /// # Ok::<(), bitpacking::set::Error>(())
    /// ```
    pub fn remove(&mut self, id: u32) -> Result<bool, Error> {
        let has = self.contains(id);
        if has {
            self.remove_range(id..=id)?;
        }
        Ok(has)
    }

    /// Puts all ids of a range into the set, which is replaced by another one.
    ///
    /// # Errors
    ///
    /// `TooLong`, if the range or the set would have more than 268,435,456 ids; `Memory`. The set is then unchanged.
    ///
    /// ```
    /// use bitpacking::set::IdSetBuf;
    ///
    /// let mut set = IdSetBuf::pack(&[1, 4, 9])?;
    /// set.insert_range(3..6)?;
    /// assert_eq!(set.unpack(), [1, 3, 4, 5, 9]);
    /// # Ok::<(), bitpacking::set::Error>(())
    /// ```
    pub fn insert_range(&mut self, range: impl RangeBounds<u32>) -> Result<(), Error> {
        let ids = IdSetBuf::from_range(range)?;
        *self = self.try_unite(&ids)?;
        Ok(())
    }

    /// Takes all ids of a range out of the set, which is replaced by another one.
    ///
    /// # Errors
    ///
    /// `Memory`. The set is then unchanged.
    ///
    /// ```
    /// use bitpacking::set::IdSetBuf;
    ///
    /// let mut set = IdSetBuf::pack(&[1, 4, 5, 9])?;
    /// set.remove_range(4..)?;
    /// assert_eq!(set.unpack(), [1]);
    /// # Ok::<(), bitpacking::set::Error>(())
    /// ```
    pub fn remove_range(&mut self, range: impl RangeBounds<u32>) -> Result<(), Error> {
        self.combine_range(Operation::AndNot, limits(range))
    }

    /// Turns all ids of a range over: takes out of the set each that it has, and puts the others into it. The set is replaced by another one.
    ///
    /// # Errors
    ///
    /// `TooLong`, if the set would have more than 268,435,456 ids; `Memory`. The set is then unchanged.
    ///
    /// ```
    /// use bitpacking::set::IdSetBuf;
    ///
    /// let mut set = IdSetBuf::pack(&[1, 4, 9])?;
    /// set.flip(3..6)?;
    /// assert_eq!(set.unpack(), [1, 3, 5, 9]);
    /// # Ok::<(), bitpacking::set::Error>(())
    /// ```
    pub fn flip(&mut self, range: impl RangeBounds<u32>) -> Result<(), Error> {
        self.combine_range(Operation::Xor, limits(range))
    }

    /// Combines the set with all ids of a range, which may be more than a set has.
    fn combine_range(&mut self, operation: Operation, limits: (u64, u64)) -> Result<(), Error> {
        let ranges = sets_of(limits)?;
        let sets: Vec<&IdSet> = core::iter::once(&**self).chain(ranges.iter().map(|set| &**set)).collect();
        *self = try_combine_set(operation, &sets)?;
        Ok(())
    }
}

impl IdSet {
    /// Returns how many ids are within a range. Looks into the chunks of both ends alone, and allocates nothing.
    ///
    /// ```
    /// use bitpacking::set::IdSetBuf;
    ///
    /// let set = IdSetBuf::pack(&[1, 4, 6, 9])?;
    /// assert_eq!((set.count_between(4..9), set.count_between(4..), set.count_between(9..4)), (2, 3, 0));
    /// # Ok::<(), bitpacking::set::Error>(())
    /// ```
    pub fn count_between(&self, range: impl RangeBounds<u32>) -> usize {
        self.count_within(limits(range))
    }

    /// How many ids are from a number up to before another.
    fn count_within(&self, (first, end): (u64, u64)) -> usize {
        if first < end { self.code().count_between(first as u32, (end - 1) as u32) } else { 0 }
    }

    /// Returns whether the set has all ids of a range. Looks into the chunks of both ends alone, and allocates nothing.
    ///
    /// ```
    /// use bitpacking::set::IdSetBuf;
    ///
    /// let set = IdSetBuf::pack(&[1, 4, 5, 6, 9])?;
    /// assert!(set.contains_range(4..7) && !set.contains_range(4..8) && set.contains_range(2..2));
    /// # Ok::<(), bitpacking::set::Error>(())
    /// ```
    pub fn contains_range(&self, range: impl RangeBounds<u32>) -> bool {
        let (first, end) = limits(range);
        self.count_within((first, end)) as u64 == end.saturating_sub(first)
    }

    /// How many ids are below a number, which may be above the last id.
    pub(super) fn below(&self, end: u64) -> usize {
        u32::try_from(end).map_or(self.len(), |end| self.rank(end))
    }

    /// Returns the set of the integers below `end` that this set lacks. An end above 2^32 is as 2^32.
    ///
    /// # Errors
    ///
    /// `TooLong`, if there are more than 268,435,456; `Memory`.
    ///
    /// ```
    /// use bitpacking::set::IdSetBuf;
    ///
    /// let set = IdSetBuf::pack(&[1, 4, 9])?;
    /// assert_eq!(set.complement(6)?.unpack(), [0, 2, 3, 5]);
    /// # Ok::<(), bitpacking::set::Error>(())
    /// ```
    pub fn complement(&self, end: u64) -> Result<IdSetBuf, Error> {
        let mut lacked = sets_of((0, end.min(1 << 32)))?;
        for range in &mut lacked {
            *range = range.try_subtract(self)?;
        }
        let sets: Vec<&IdSet> = lacked.iter().map(|set| &**set).collect();
        try_combine_set(Operation::Or, &sets)
    }

    /// Returns the set that has a number added to each id, which may be below 0. Ids that leave the range of `u32` are left out. If the low 16 bits
    /// of the number are 0, it takes as long as to copy the bytes. Allocates these, and at most 1 MB while it runs.
    ///
    /// # Errors
    ///
    /// `Memory`.
    ///
    /// ```
    /// use bitpacking::set::IdSetBuf;
    ///
    /// let set = IdSetBuf::pack(&[1, 4, 4_294_967_295])?;
    /// assert_eq!((set.shift(2)?.unpack(), set.shift(-4)?.unpack()), (vec![3, 6], vec![0, 4_294_967_291]));
    /// # Ok::<(), bitpacking::set::Error>(())
    /// ```
    pub fn shift(&self, by: i64) -> Result<IdSetBuf, Error> {
        let set = self.code();
        let most = self.as_bytes().len() / 4 * 5;
        written(queries::shift_room(&set), most, |room, bytes| queries::shift_to(&set, by, room, bytes))
    }
}
