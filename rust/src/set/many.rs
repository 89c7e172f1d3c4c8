//! What any number of sets have in common, together, and one without the others: as ids, and as a set.

use alloc::vec::Vec;

use super::combining::{combine, combine_into, count, try_combine_set};
use super::{Error, IdSet, IdSetBuf};
use crate::slices::Operation;

/// Returns the ids that all sets have, in increasing order. Of no sets there are none. Allocates 4 bytes for each id of the shortest set.
///
/// ```
/// use bitpacking::set::{IdSetBuf, intersect_all};
///
/// let [cats, dogs, old] = [[1, 4, 6, 9], [4, 6, 7, 9], [2, 6, 8, 9]].map(|ids| IdSetBuf::pack(&ids).unwrap());
/// assert_eq!(intersect_all(&[&cats, &dogs, &old]), [6, 9]);
/// ```
#[must_use]
pub fn intersect_all(sets: &[&IdSet]) -> Vec<u32> {
    combine(Operation::And, sets)
}

/// Replaces the values of a vector by the ids that [`intersect_all`] returns. Allocates only if the capacity of the vector is below the length of
/// the shortest set.
///
/// ```
/// use bitpacking::set::{IdSetBuf, intersect_all_into};
///
/// let [cats, dogs, old] = [[1, 4, 6, 9], [4, 6, 7, 9], [2, 6, 8, 9]].map(|ids| IdSetBuf::pack(&ids).unwrap());
/// let mut ids = Vec::new();
/// for sets in [[&*cats, &*dogs], [&*cats, &*old]] {
///     intersect_all_into(&sets, &mut ids);
///     println!("{ids:?}");
/// }
/// assert_eq!(ids, [6, 9]);
/// ```
pub fn intersect_all_into(sets: &[&IdSet], ids: &mut Vec<u32>) {
    combine_into(Operation::And, sets, ids);
}

/// Returns how many ids [`intersect_all`] returns. Allocates nothing.
///
/// ```
/// use bitpacking::set::{IdSetBuf, intersect_all_len};
///
/// let [cats, dogs, old] = [[1, 4, 6, 9], [4, 6, 7, 9], [2, 6, 8, 9]].map(|ids| IdSetBuf::pack(&ids).unwrap());
/// assert_eq!(intersect_all_len(&[&cats, &dogs, &old]), 2);
/// ```
pub fn intersect_all_len(sets: &[&IdSet]) -> usize {
    count(Operation::And, sets)
}

/// Returns the ids that at least one set has, in increasing order. Allocates 4 bytes for each id of all sets. If these are more than 4,194,304,
/// and the longest set has less than half of them, it counts the ids of the answer first and allocates 4 bytes for each of these.
///
/// ```
/// use bitpacking::set::{IdSetBuf, unite_all};
///
/// let [cats, dogs, old] = [[1, 4, 6, 9], [4, 6, 7, 9], [2, 6, 8, 9]].map(|ids| IdSetBuf::pack(&ids).unwrap());
/// assert_eq!(unite_all(&[&cats, &dogs, &old]), [1, 2, 4, 6, 7, 8, 9]);
/// ```
#[must_use]
pub fn unite_all(sets: &[&IdSet]) -> Vec<u32> {
    combine(Operation::Or, sets)
}

/// Replaces the values of a vector by the ids that [`unite_all`] returns. Allocates only if the capacity of the vector is below what `unite_all`
/// allocates.
///
/// ```
/// use bitpacking::set::{IdSetBuf, unite_all_into};
///
/// let [cats, dogs] = [[1, 4, 6, 9], [4, 6, 7, 9]].map(|ids| IdSetBuf::pack(&ids).unwrap());
/// let mut ids = vec![7, 8];
/// unite_all_into(&[&cats, &dogs], &mut ids);
/// assert_eq!(ids, [1, 4, 6, 7, 9]);
/// ```
pub fn unite_all_into(sets: &[&IdSet], ids: &mut Vec<u32>) {
    combine_into(Operation::Or, sets, ids);
}

/// Returns how many ids [`unite_all`] returns. Allocates nothing.
///
/// # Panics
///
/// On a machine of 32 bits, if the sets have all 2^32 ids.
///
/// ```
/// use bitpacking::set::{IdSetBuf, unite_all_len};
///
/// let [cats, dogs] = [[1, 4, 6, 9], [4, 6, 7, 9]].map(|ids| IdSetBuf::pack(&ids).unwrap());
/// assert_eq!(unite_all_len(&[&cats, &dogs]), 5);
/// ```
#[track_caller]
pub fn unite_all_len(sets: &[&IdSet]) -> usize {
    count(Operation::Or, sets)
}

/// Returns the ids of the first set that none of the others has, in increasing order. Of no sets there are none. Allocates 4 bytes for each id of
/// the first set.
///
/// ```
/// use bitpacking::set::{IdSetBuf, subtract_all};
///
/// let [cats, dogs, old] = [[1, 4, 6, 9], [4, 5, 7, 8], [2, 6, 8, 10]].map(|ids| IdSetBuf::pack(&ids).unwrap());
/// assert_eq!(subtract_all(&[&cats, &dogs, &old]), [1, 9]);
/// ```
#[must_use]
pub fn subtract_all(sets: &[&IdSet]) -> Vec<u32> {
    combine(Operation::AndNot, sets)
}

/// Replaces the values of a vector by the ids that [`subtract_all`] returns. Allocates only if the capacity of the vector is below the length of
/// the first set.
///
/// ```
/// use bitpacking::set::{IdSetBuf, subtract_all_into};
///
/// let [cats, dogs] = [[1, 4, 6, 9], [4, 6, 7, 9]].map(|ids| IdSetBuf::pack(&ids).unwrap());
/// let mut ids = vec![7, 8];
/// subtract_all_into(&[&cats, &dogs], &mut ids);
/// assert_eq!(ids, [1]);
/// ```
pub fn subtract_all_into(sets: &[&IdSet], ids: &mut Vec<u32>) {
    combine_into(Operation::AndNot, sets, ids);
}

/// Returns how many ids [`subtract_all`] returns. Allocates nothing.
///
/// ```
/// use bitpacking::set::{IdSetBuf, subtract_all_len};
///
/// let [cats, dogs] = [[1, 4, 6, 9], [4, 6, 7, 9]].map(|ids| IdSetBuf::pack(&ids).unwrap());
/// assert_eq!(subtract_all_len(&[&cats, &dogs]), 1);
/// ```
pub fn subtract_all_len(sets: &[&IdSet]) -> usize {
    count(Operation::AndNot, sets)
}

/// Returns the ids that an odd number of sets has, in increasing order. Allocates as [`unite_all`] does.
///
/// ```
/// use bitpacking::set::{IdSetBuf, symmetric_difference_all};
///
/// let [cats, dogs, old] = [[1, 4, 6, 9], [4, 6, 7, 9], [2, 6, 8, 9]].map(|ids| IdSetBuf::pack(&ids).unwrap());
/// assert_eq!(symmetric_difference_all(&[&cats, &dogs, &old]), [1, 2, 6, 7, 8, 9]);
/// ```
#[must_use]
pub fn symmetric_difference_all(sets: &[&IdSet]) -> Vec<u32> {
    combine(Operation::Xor, sets)
}

/// Replaces the values of a vector by the ids that [`symmetric_difference_all`] returns. Allocates only if the capacity of the vector is below what
/// that allocates.
///
/// ```
/// use bitpacking::set::{IdSetBuf, symmetric_difference_all_into};
///
/// let [cats, dogs] = [[1, 4, 6, 9], [4, 6, 7, 9]].map(|ids| IdSetBuf::pack(&ids).unwrap());
/// let mut ids = vec![7, 8];
/// symmetric_difference_all_into(&[&cats, &dogs], &mut ids);
/// assert_eq!(ids, [1, 7]);
/// ```
pub fn symmetric_difference_all_into(sets: &[&IdSet], ids: &mut Vec<u32>) {
    combine_into(Operation::Xor, sets, ids);
}

/// Returns how many ids [`symmetric_difference_all`] returns. Allocates nothing.
///
/// # Panics
///
/// On a machine of 32 bits, if these are all 2^32 ids.
///
/// ```
/// use bitpacking::set::{IdSetBuf, symmetric_difference_all_len};
///
/// let [cats, dogs] = [[1, 4, 6, 9], [4, 6, 7, 9]].map(|ids| IdSetBuf::pack(&ids).unwrap());
/// assert_eq!(symmetric_difference_all_len(&[&cats, &dogs]), 2);
/// ```
#[track_caller]
pub fn symmetric_difference_all_len(sets: &[&IdSet]) -> usize {
    count(Operation::Xor, sets)
}

/// Any number of sets combined into a set. A call allocates as many bytes as all sets have, more if the answer has more, and 16 for each chunk, or for
/// each id of a set that is not in chunks, but at most 1 MB of these.
impl IdSetBuf {
    /// Returns the set of the ids that all sets have. Of no sets it has none.
    ///
    /// # Errors
    ///
    /// `Memory`.
    ///
    /// ```
    /// use bitpacking::set::IdSetBuf;
    ///
    /// let [cats, dogs, old] = [[1, 4, 6, 9], [4, 6, 7, 9], [2, 6, 8, 9]].map(|ids| IdSetBuf::pack(&ids).unwrap());
    /// assert_eq!(IdSetBuf::intersect_all(&[&cats, &dogs, &old])?.unpack(), [6, 9]);
    /// # Ok::<(), bitpacking::set::Error>(())
    /// ```
    pub fn intersect_all(sets: &[&IdSet]) -> Result<IdSetBuf, Error> {
        try_combine_set(Operation::And, sets)
    }

    /// Returns the set of the ids that at least one set has.
    ///
    /// # Errors
    ///
    /// `TooLong`, if there are more than 268,435,456 ids; `Memory`.
    ///
    /// ```
    /// use bitpacking::set::{IdSet, IdSetBuf};
    ///
    /// let sets = vec![IdSetBuf::from([1, 4, 6, 9]), IdSetBuf::from([4, 6, 7, 9]), IdSetBuf::from([2, 6, 8, 9])];
    /// let all: Vec<&IdSet> = sets.iter().map(|set| &**set).collect();
    /// assert_eq!(IdSetBuf::unite_all(&all)?.unpack(), [1, 2, 4, 6, 7, 8, 9]);
    /// # Ok::<(), bitpacking::set::Error>(())
    /// ```
    pub fn unite_all(sets: &[&IdSet]) -> Result<IdSetBuf, Error> {
        try_combine_set(Operation::Or, sets)
    }

    /// Returns the set of the ids of the first set that none of the others has. Of no sets it has none.
    ///
    /// # Errors
    ///
    /// `Memory`.
    ///
    /// ```
    /// use bitpacking::set::IdSetBuf;
    ///
    /// let [cats, dogs, old] = [[1, 4, 6, 9], [4, 5, 7, 8], [2, 6, 8, 10]].map(|ids| IdSetBuf::pack(&ids).unwrap());
    /// assert_eq!(IdSetBuf::subtract_all(&[&cats, &dogs, &old])?.unpack(), [1, 9]);
    /// # Ok::<(), bitpacking::set::Error>(())
    /// ```
    pub fn subtract_all(sets: &[&IdSet]) -> Result<IdSetBuf, Error> {
        try_combine_set(Operation::AndNot, sets)
    }

    /// Returns the set of the ids that an odd number of sets has.
    ///
    /// # Errors
    ///
    /// `TooLong`, if there are more than 268,435,456 ids; `Memory`.
    ///
    /// ```
    /// use bitpacking::set::IdSetBuf;
    ///
    /// let [cats, dogs, old] = [[1, 4, 6, 9], [4, 6, 7, 9], [2, 6, 8, 9]].map(|ids| IdSetBuf::pack(&ids).unwrap());
    /// assert_eq!(IdSetBuf::symmetric_difference_all(&[&cats, &dogs, &old])?.unpack(), [1, 2, 6, 7, 8, 9]);
    /// # Ok::<(), bitpacking::set::Error>(())
    /// ```
    pub fn symmetric_difference_all(sets: &[&IdSet]) -> Result<IdSetBuf, Error> {
        try_combine_set(Operation::Xor, sets)
    }
}
