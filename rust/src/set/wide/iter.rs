//! An iterator over the ids of a wide set, part by part.

use core::fmt;
use core::iter::FusedIterator;
use core::ops::{Bound, RangeBounds};

use super::{WideSet, WideSetBuf};
use crate::iterator::iterator;
use crate::room::Room;
use crate::wide;

/// How many ids are unpacked at once.
const MOST: usize = 256;

iterator! {
    /// The ids of a wide set, or of a range of it, in increasing order.
    ///
    /// It unpacks up to 256 ids at once, and has a size of about 2 KB. It allocates nothing. `nth`, and `skip` and `step_by` over it, do not unpack
    /// the parts that they pass. For all ids at once, [`unpack`](WideSet::unpack) is the fastest.
    ///
    /// ```
    /// use bitpacking::set::wide::WideSetBuf;
    ///
    /// let set: WideSetBuf = (0..1_000_000).map(|k| k << 20).collect();
    /// let mut ids = set.iter();
    /// assert_eq!((ids.next(), ids.nth(499_999)), (Some(0), Some(500_000 << 20)));
    /// assert_eq!(ids.len(), 499_999);
    /// ```
    Iter of u64; WideSet, WideSetBuf, wide::WideSet, MOST, |_| MOST, read
}

/// Writes the ids from a position on, as many as there is room for.
fn read(set: &mut wide::WideSet<'_>, position: usize, ids: &mut [u64]) {
    set.copy_range(position, ids);
}

impl WideSet {
    /// Returns an iterator over all ids, in increasing order. Unpacks nothing yet.
    ///
    /// ```
    /// use bitpacking::set::wide::WideSetBuf;
    ///
    /// let set = WideSetBuf::pack(&[5, 6, 1 << 40])?;
    /// assert_eq!(set.iter().map(|id| id >> 1).collect::<Vec<u64>>(), [2, 3, 1 << 39]);
    /// for id in &set {
    ///     assert!(set.contains(id));
    /// }
    /// # Ok::<(), bitpacking::set::wide::Error>(())
    /// ```
    #[inline]
    pub fn iter(&self) -> Iter<'_> {
        Iter::new(self.code(), self.len())
    }

    /// Returns an iterator over the ids within limits, in increasing order. There are none if the lower limit is above the upper one.
    ///
    /// ```
    /// use bitpacking::set::wide::WideSetBuf;
    ///
    /// let set = WideSetBuf::pack(&[5, 6, 1 << 40])?;
    /// assert_eq!(set.range(6..1 << 40).collect::<Vec<u64>>(), [6]);
    /// assert_eq!((set.range(7..).next(), set.range(..=6).len()), (Some(1 << 40), 2));
    /// # Ok::<(), bitpacking::set::wide::Error>(())
    /// ```
    pub fn range(&self, limits: impl RangeBounds<u64>) -> Iter<'_> {
        let position = match limits.start_bound() {
            Bound::Included(&id) => self.rank(id),
            Bound::Excluded(&id) => self.through(id),
            Bound::Unbounded => 0,
        };
        let end = match limits.end_bound() {
            Bound::Included(&id) => self.through(id),
            Bound::Excluded(&id) => self.rank(id),
            Bound::Unbounded => self.len(),
        };
        Iter { position, end: end.max(position), ..self.iter() }
    }

    /// How many ids are at most `id`.
    fn through(&self, id: u64) -> usize {
        id.checked_add(1).map_or(self.len(), |next| self.rank(next))
    }
}

/// The iterator borrows the bytes, and not the buffer.
impl<'a> IntoIterator for WideSetBuf<&'a [u8]> {
    type Item = u64;
    type IntoIter = Iter<'a>;

    #[inline]
    fn into_iter(self) -> Iter<'a> {
        Iter::new(self.opened.code, self.len())
    }
}
