//! Two wide sets combined, and compared.

use alloc::vec;
use alloc::vec::Vec;

use super::packing::packed;
use super::{Error, WideSet, WideSetBuf};
use crate::growing::{Growing, resize};
use crate::set::comparing::share;
use crate::set::pairs::operations;
use crate::sets::encoding::order::LONGEST_SET;
use crate::slices::Operation;
use crate::wide;

/// Two wide sets combined. A call that returns a set allocates its bytes and, while it runs, 12 bytes for each id that the answer may have: as many
/// as the shorter set has for `&`, as the first has for `-`, and else as both have. If the sets have fewer bytes than that, the call counts the ids
/// of the answer first, and allocates 12 bytes for each of these.
impl WideSet {
    operations! { WideSetBuf of u64 in "set::wide", "Allocates 4 bytes for each id that the answer may have, and 8 more" }

    /// For how many ids a call makes room: as many as the answer may have, or has. It counts them if that takes less time than to make the room, or if a
    /// set may not have as many.
    fn room(&self, operation: Operation, other: &WideSet) -> usize {
        let most = match operation {
            Operation::And => self.len().min(other.len()),
            Operation::AndNot => self.len(),
            Operation::Or | Operation::Xor => self.len() + other.len(),
        };
        let bytes = self.as_bytes().len() + other.as_bytes().len();
        if bytes < most || most > LONGEST_SET { self.combine_len(operation, other) } else { most }
    }

    /// The set that an operation on two sets gives. Panics if there is an error.
    #[track_caller]
    pub(in crate::set) fn combine(&self, operation: Operation, other: &WideSet) -> WideSetBuf {
        match self.try_combine(operation, other) {
            Ok(set) => set,
            Err(error) => panic!("{error}"),
        }
    }

    fn try_combine(&self, operation: Operation, other: &WideSet) -> Result<WideSetBuf, Error> {
        let room = self.room(operation, other);
        if room > LONGEST_SET {
            return Err(Error::TooLong(room));
        }
        let (mut ids, mut space) = (Vec::new(), Vec::new());
        ids.try_resize(room, 0).map_err(|_| Error::Memory)?;
        space.try_resize(room, 0).map_err(|_| Error::Memory)?;
        // REQUIRES: the work space has as many numbers as there is room for ids.
        let len = wide::combine_to(operation, &self.code(), &other.code(), &mut space, &mut ids)?;
        packed(&ids[..len], &mut space)
    }

    fn combine_into(&self, operation: Operation, other: &WideSet, ids: &mut Vec<u64>) {
        let room = self.room(operation, other);
        resize(ids, room);
        // REQUIRES: the work space has as many numbers as there is room for ids.
        let len = wide::combine_to(operation, &self.code(), &other.code(), &mut vec![0; room], ids).expect("room for all ids");
        ids.truncate(len);
    }

    fn combine_len(&self, operation: Operation, other: &WideSet) -> usize {
        wide::combine_count(operation, &self.code(), &other.code())
    }

    /// Returns whether the other set has each id of this one. Stops soon after the first id that it lacks, and allocates nothing.
    ///
    /// ```
    /// use bitpacking::set::wide::WideSetBuf;
    ///
    /// let (all, new) = (WideSetBuf::from([5, 1 << 40, u64::MAX]), WideSetBuf::from([1 << 40]));
    /// assert!(new.is_subset(&all) && !all.is_subset(&new));
    /// ```
    pub fn is_subset(&self, other: &WideSet) -> bool {
        wide::is_subset(&self.code(), &other.code())
    }

    /// Returns whether this set has each id of the other: [`is_subset`](WideSet::is_subset) of the other.
    ///
    /// ```
    /// use bitpacking::set::wide::WideSetBuf;
    ///
    /// let (all, new) = (WideSetBuf::from([5, 1 << 40, u64::MAX]), WideSetBuf::from([1 << 40]));
    /// assert!(all.is_superset(&new) && !new.is_superset(&all));
    /// ```
    pub fn is_superset(&self, other: &WideSet) -> bool {
        other.is_subset(self)
    }

    /// Returns whether no id is in both sets. Stops soon after the first such id, and allocates nothing.
    ///
    /// ```
    /// use bitpacking::set::wide::WideSetBuf;
    ///
    /// let (all, new) = (WideSetBuf::from([5, 1 << 40, u64::MAX]), WideSetBuf::from([6, 1 << 41]));
    /// assert!(all.is_disjoint(&new));
    /// ```
    pub fn is_disjoint(&self, other: &WideSet) -> bool {
        wide::is_disjoint(&self.code(), &other.code())
    }

    /// Returns the share of the ids of either set that both have, from 0 to 1: their Jaccard index. It is 1 for two empty sets. Allocates nothing.
    ///
    /// ```
    /// use bitpacking::set::wide::WideSetBuf;
    ///
    /// let (all, new) = (WideSetBuf::from([5, 1 << 40, u64::MAX]), WideSetBuf::from([6, 1 << 40]));
    /// assert_eq!(all.jaccard(&new), 0.25);
    /// ```
    pub fn jaccard(&self, other: &WideSet) -> f64 {
        share(self.intersect_len(other), self.len() + other.len())
    }
}
