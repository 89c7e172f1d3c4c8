//! Iterators over the ids of a set, part by part.

use core::fmt;
use core::iter::FusedIterator;
use core::ops::RangeBounds;

use super::{IdSet, IdSetBuf, ranges};
use crate::iterator::iterator;
use crate::room::Room;
use crate::sets;
use crate::stable_bytes::StableBytes;

/// How many ids are unpacked at once.
const MOST: usize = 256;

iterator! {
    /// The ids of a set, or of a range of it, in increasing order and from both ends.
    ///
    /// It unpacks up to 256 ids at once, and has a size of about 1 KB. It allocates nothing. Taken from both ends in turn, it unpacks ids again if the
    /// ends are far apart; `rev` does not. `fold`, and `sum` and `for_each` over it, are faster than a loop. For all ids at once,
    /// [`unpack`](IdSet::unpack) is the fastest.
    ///
    /// ```
    /// use bitpacking::set::IdSetBuf;
    ///
    /// let set: IdSetBuf = (0..1_000_000).collect();
    /// let mut ids = set.iter();
    /// assert_eq!((ids.next(), ids.nth(499_999), ids.next_back()), (Some(0), Some(500_000), Some(999_999)));
    /// ids.advance_to(700_000);
    /// assert_eq!((ids.len(), ids.next()), (299_999, Some(700_000)));
    /// # Ok::<(), bitpacking::set::Error>(())
    /// ```
    Iter of u32; IdSet, IdSetBuf, sets::Cursor, MOST, |_| MOST, read
}

/// Writes the ids from a position on, as many as there is room for.
fn read(cursor: &mut sets::Cursor<'_>, position: usize, ids: &mut [u32]) {
    // REQUIRES: the position is one of the set.
    cursor.move_to(position);
    cursor.fill(ids);
}

impl<'a> Iter<'a> {
    fn of(code: sets::IdSet<'a>) -> Self {
        Iter::new(code.cursor(), code.len())
    }

    /// Skips the ids that are below `target`, mostly without unpacking them.
    ///
    /// ```
    /// use bitpacking::set::IdSetBuf;
    ///
    /// let set = IdSetBuf::pack(&[1, 4, 6, 9])?;
    /// let mut ids = set.iter();
    /// ids.advance_to(5);
    /// assert_eq!(ids.next(), Some(6));
    /// # Ok::<(), bitpacking::set::Error>(())
    /// ```
    pub fn advance_to(&mut self, target: u32) {
        let ids = self.unpacked();
        if ids.last().is_some_and(|last| target <= *last) {
            self.position += ids.partition_point(|id| *id < target);
        } else {
            // Most often the cursor is after these.
            let after = self.position + ids.len();
            // REQUIRES: the position is one of the set: no id after the last is unpacked.
            self.code.move_to(after);
            self.code.seek(target);
            self.position = self.code.position().min(self.end);
        }
    }

    /// Skips the ids at the end that are above `target`, without unpacking them.
    ///
    /// ```
    /// use bitpacking::set::IdSetBuf;
    ///
    /// let set = IdSetBuf::pack(&[1, 4, 6, 9])?;
    /// let mut ids = set.iter();
    /// ids.advance_back_to(8);
    /// assert_eq!((ids.next_back(), ids.len()), (Some(6), 2));
    /// # Ok::<(), bitpacking::set::Error>(())
    /// ```
    pub fn advance_back_to(&mut self, target: u32) {
        if let Some(next) = target.checked_add(1) {
            // REQUIRES: the position is one of the set, or its end.
            self.code.move_to(self.position);
            self.code.seek(next);
            self.end = self.code.position().min(self.end);
        }
    }
}

impl DoubleEndedIterator for Iter<'_> {
    #[inline]
    fn next_back(&mut self) -> Option<u32> {
        if self.position >= self.end {
            return None;
        }
        let last = self.end - 1;
        let mut id = self.in_part(last);
        if id.is_none() {
            let len = MOST.min(self.end - self.position);
            self.unpack(self.end - len, len);
            id = self.in_part(last);
        }
        self.end = last;
        id
    }

    fn nth_back(&mut self, n: usize) -> Option<u32> {
        self.end = self.end.saturating_sub(n).max(self.position);
        self.next_back()
    }
}

/// The ids of a set that is consumed. It is an [`Iter`] that owns the bytes.
pub struct IntoIter<B> {
    /// The iterator reads the bytes, which no call returns or changes.
    ids: Iter<'static>,
    _bytes: B,
}

impl<B> Iterator for IntoIter<B> {
    type Item = u32;

    #[inline]
    fn next(&mut self) -> Option<u32> {
        self.ids.next()
    }

    #[inline]
    fn size_hint(&self) -> (usize, Option<usize>) {
        self.ids.size_hint()
    }

    fn nth(&mut self, n: usize) -> Option<u32> {
        self.ids.nth(n)
    }

    fn fold<A, F: FnMut(A, u32) -> A>(self, init: A, f: F) -> A {
        // The bytes are there until `fold` returns: this binding drops them.
        let IntoIter { ids, _bytes } = self;
        ids.fold(init, f)
    }
}

impl<B> DoubleEndedIterator for IntoIter<B> {
    #[inline]
    fn next_back(&mut self) -> Option<u32> {
        self.ids.next_back()
    }
}

impl<B> ExactSizeIterator for IntoIter<B> {}

impl<B> FusedIterator for IntoIter<B> {}

impl<B> fmt::Debug for IntoIter<B> {
    fn fmt(&self, f: &mut fmt::Formatter<'_>) -> fmt::Result {
        self.ids.fmt(f)
    }
}

impl<B: StableBytes> IntoIterator for IdSetBuf<B> {
    type Item = u32;
    type IntoIter = IntoIter<B>;

    fn into_iter(self) -> IntoIter<B> {
        // The iterator is not there longer than the bytes, whose address is the same after they move, as `StableBytes` promises.
        IntoIter { ids: Iter::of(self.opened.code), _bytes: self.bytes }
    }
}

impl IdSet {
    /// Returns an iterator over all ids, in increasing order.
    ///
    /// ```
    /// use bitpacking::set::IdSetBuf;
    ///
    /// let set = IdSetBuf::pack(&[1, 4, 6, 9])?;
    /// assert_eq!(set.iter().map(|id| 2 * id).collect::<Vec<u32>>(), [2, 8, 12, 18]);
    /// for id in &set {
    ///     assert!(set.contains(id));
    /// }
    /// # Ok::<(), bitpacking::set::Error>(())
    /// ```
    #[inline]
    pub fn iter(&self) -> Iter<'_> {
        Iter::of(self.code())
    }

    /// Returns an iterator over the ids within limits, in increasing order. There are none if the lower limit is above the upper one.
    ///
    /// ```
    /// use bitpacking::set::IdSetBuf;
    ///
    /// let set = IdSetBuf::pack(&[1, 4, 6, 9])?;
    /// assert_eq!(set.range(4..9).collect::<Vec<u32>>(), [4, 6]);
    /// assert_eq!((set.range(5..).next(), set.range(..=6).len(), set.range(..9).next_back()), (Some(6), 3, Some(6)));
    /// # Ok::<(), bitpacking::set::Error>(())
    /// ```
    pub fn range(&self, limits: impl RangeBounds<u32>) -> Iter<'_> {
        let (first, end) = ranges::limits(limits);
        let position = self.below(first);
        Iter { position, end: self.below(end).max(position), ..self.iter() }
    }
}
