//! Vectors of increasing ids, combined with a set.

use alloc::vec::Vec;

use super::{Error, IdSet};
use crate::queries;
use crate::sets;

/// Tests that ids increase.
fn test(ids: &[u32]) -> Result<(), Error> {
    sets::first_unsorted(ids).map_or(Ok(()), |position| Err(Error::NotSorted(position)))
}

/// The set combined with a vector of increasing ids, so that the result of another call is combined further without packing it.
impl IdSet {
    /// Removes from a vector the ids that this set lacks. Allocates nothing.
    ///
    /// # Errors
    ///
    /// `NotSorted`, with the position of the first value that is not above the one before it. The vector is then unchanged.
    ///
    /// ```
    /// use bitpacking::set::{Error, IdSetBuf};
    ///
    /// let (set, mut ids) = (IdSetBuf::pack(&[1, 4, 9])?, vec![4, 6, 9, 10]);
    /// set.retain_in(&mut ids)?;
    /// assert_eq!(ids, [4, 9]);
    /// assert_eq!(set.retain_in(&mut vec![4, 9, 9]), Err(Error::NotSorted(2)));
    /// # Ok::<(), Error>(())
    /// ```
    pub fn retain_in(&self, ids: &mut Vec<u32>) -> Result<(), Error> {
        test(ids)?;
        queries::retain(ids, &self.code());
        Ok(())
    }

    /// Removes from a vector the ids that this set has. Allocates nothing.
    ///
    /// # Errors
    ///
    /// As [`retain_in`](IdSet::retain_in).
    ///
    /// ```
    /// use bitpacking::set::IdSetBuf;
    ///
    /// let (deleted, mut found) = (IdSetBuf::pack(&[4, 5])?, vec![1, 4, 9]);
    /// deleted.remove_from(&mut found)?;
    /// assert_eq!(found, [1, 9]);
    /// # Ok::<(), bitpacking::set::Error>(())
    /// ```
    pub fn remove_from(&self, ids: &mut Vec<u32>) -> Result<(), Error> {
        test(ids)?;
        queries::remove(ids, &self.code());
        Ok(())
    }

    /// Adds the ids of this set to a vector, in increasing order and each once. Allocates only if the capacity of the vector is too small.
    ///
    /// # Errors
    ///
    /// As [`retain_in`](IdSet::retain_in); or `Memory`, if the vector cannot grow.
    ///
    /// ```
    /// use bitpacking::set::IdSetBuf;
    ///
    /// let (set, mut ids) = (IdSetBuf::pack(&[1, 4, 9])?, vec![4, 6]);
    /// set.add_to(&mut ids)?;
    /// assert_eq!(ids, [1, 4, 6, 9]);
    /// # Ok::<(), bitpacking::set::Error>(())
    /// ```
    pub fn add_to(&self, ids: &mut Vec<u32>) -> Result<(), Error> {
        queries::add(ids, &self.code())
    }
}
