//! Two sets compared.

use core::cmp::Ordering;

use super::{IdSet, IdSetBuf};
use crate::queries;

/// The share of ids that both of two sets have, by how many these are, and by the sum of the lengths. It is 1 if there are none.
pub(super) fn share(both: usize, sum: usize) -> f64 {
    if sum == 0 { 1.0 } else { both as f64 / (sum - both) as f64 }
}

impl IdSet {
    /// Returns whether the other set has each id of this one. Stops at the first chunk with an id that it lacks, and allocates nothing.
    ///
    /// ```
    /// use bitpacking::set::IdSetBuf;
    ///
    /// let (cats, dogs) = (IdSetBuf::pack(&[1, 4, 6, 9])?, IdSetBuf::pack(&[4, 6])?);
    /// assert!(dogs.is_subset(&cats) && !cats.is_subset(&dogs));
    /// # Ok::<(), bitpacking::set::Error>(())
    /// ```
    pub fn is_subset(&self, other: &IdSet) -> bool {
        queries::is_subset(&self.code(), &other.code())
    }

    /// Returns whether this set has each id of the other: [`is_subset`](IdSet::is_subset) of the other.
    ///
    /// ```
    /// use bitpacking::set::IdSetBuf;
    ///
    /// let (cats, dogs) = (IdSetBuf::pack(&[1, 4, 6, 9])?, IdSetBuf::pack(&[4, 6])?);
    /// assert!(cats.is_superset(&dogs) && !dogs.is_superset(&cats));
    /// # Ok::<(), bitpacking::set::Error>(())
    /// ```
    pub fn is_superset(&self, other: &IdSet) -> bool {
        other.is_subset(self)
    }

    /// Returns whether no id is in both sets. Stops at the first chunk that has such an id, and allocates nothing.
    ///
    /// ```
    /// use bitpacking::set::IdSetBuf;
    ///
    /// let (cats, dogs) = (IdSetBuf::pack(&[1, 4, 6, 9])?, IdSetBuf::pack(&[2, 7])?);
    /// assert!(cats.is_disjoint(&dogs));
    /// # Ok::<(), bitpacking::set::Error>(())
    /// ```
    pub fn is_disjoint(&self, other: &IdSet) -> bool {
        queries::is_disjoint(&self.code(), &other.code())
    }

    /// Returns the share of the ids of either set that both have, from 0 to 1: their Jaccard index. It is 1 for two empty sets. Allocates nothing.
    ///
    /// ```
    /// use bitpacking::set::IdSetBuf;
    ///
    /// let (cats, dogs) = (IdSetBuf::pack(&[1, 4, 6, 9])?, IdSetBuf::pack(&[4, 6, 7, 8])?);
    /// assert_eq!(cats.jaccard(&dogs), 2.0 / 6.0);
    /// # Ok::<(), bitpacking::set::Error>(())
    /// ```
    pub fn jaccard(&self, other: &IdSet) -> f64 {
        share(self.intersect_len(other), self.len() + other.len())
    }
}

/// Compares the ids as slices are compared: the first that differs decides, and a set is below one that goes on after it. There is no `Ord`:
/// its `min` and `max` would be called in place of a set's own.
///
/// ```
/// use bitpacking::set::IdSetBuf;
///
/// let (cats, dogs) = (IdSetBuf::from([7, 9, 11]), IdSetBuf::from([7, 8, 300]));
/// assert!(dogs < cats && IdSetBuf::from([7, 9]) < cats);
/// ```
impl PartialOrd for IdSet {
    fn partial_cmp(&self, other: &IdSet) -> Option<Ordering> {
        self.iter().partial_cmp(other)
    }
}

/// Compares as sets that are borrowed are compared.
impl<B, C> PartialOrd<IdSetBuf<C>> for IdSetBuf<B> {
    fn partial_cmp(&self, other: &IdSetBuf<C>) -> Option<Ordering> {
        (**self).partial_cmp(&**other)
    }
}
