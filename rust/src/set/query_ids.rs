//! The ids of a query, part by part.

use core::fmt;
use core::iter::FusedIterator;

use super::cursor::cursor;
use crate::queries;
use crate::sets;

/// How many ids are found at once.
const MOST: usize = 256;

/// A position in the ids of a [`Query`](super::Query) that only moves forward. As an iterator it yields the ids from here on.
///
/// ```
/// use bitpacking::set::{IdSetBuf, Query};
///
/// let [cats, dogs] = [[1, 4, 6, 9], [4, 6, 7, 8]].map(|ids| IdSetBuf::pack(&ids).unwrap());
/// let query = Query::from(&cats) | &dogs;
/// let mut ids = query.ids()?;
/// assert_eq!((ids.next(), ids.value()), (Some(1), Some(4)));
/// ids.advance_to(7);
/// assert!(ids.eq([7, 8, 9]));
/// # Ok::<(), bitpacking::set::QueryError>(())
/// ```
pub struct QueryIds<'a> {
    later: Later<'a>,
    found: [u32; MOST],
    /// The index of the id here, and how many were found. They are equal only after the last id.
    at: usize,
    len: usize,
}

/// What is after the ids that were found.
pub(super) enum Later<'a> {
    /// The ids of a set alone, which a walk over bitmaps would find many times slower if they are far apart.
    Set(sets::Cursor<'a>),
    Query(queries::Query<'a>),
}

impl Later<'_> {
    fn next_ids(&mut self, ids: &mut [u32]) -> usize {
        match self {
            Later::Set(cursor) => cursor.fill(ids),
            Later::Query(query) => query.next_ids(ids),
        }
    }

    fn seek(&mut self, target: u32) {
        match self {
            Later::Set(cursor) => {
                cursor.seek(target);
            }
            Later::Query(query) => query.seek(target),
        }
    }
}

impl<'a> QueryIds<'a> {
    pub(super) fn new(later: Later<'a>) -> Self {
        let mut ids = QueryIds { later, found: [0; MOST], at: 0, len: 0 };
        ids.find();
        ids
    }

    /// The ids from here on that were found.
    fn part(&self) -> &[u32] {
        &self.found[self.at..self.len]
    }

    /// Finds the next ids.
    #[inline(never)]
    fn find(&mut self) {
        self.len = self.later.next_ids(&mut self.found);
        self.at = 0;
    }

    /// Calls a function with all ids from here on, in parts.
    pub(super) fn for_each_part(&mut self, mut call: impl FnMut(&[u32])) {
        while self.at < self.len {
            call(self.part());
            self.find();
        }
    }

    /// Returns the id here, or `None` after the last.
    ///
    /// ```
    /// use bitpacking::set::{IdSetBuf, Query};
    ///
    /// let cats = IdSetBuf::pack(&[1, 4, 6, 9]).unwrap();
    /// assert_eq!(Query::from(&cats).ids()?.value(), Some(1));
    /// # Ok::<(), bitpacking::set::QueryError>(())
    /// ```
    #[inline]
    pub fn value(&self) -> Option<u32> {
        self.part().first().copied()
    }

    /// Moves to the next id, and returns it. After the last id it does not move.
    ///
    /// ```
    /// use bitpacking::set::{IdSetBuf, Query};
    ///
    /// let cats = IdSetBuf::pack(&[1, 4]).unwrap();
    /// let query = Query::from(&cats);
    /// let mut ids = query.ids()?;
    /// assert_eq!((ids.advance(), ids.advance(), ids.advance()), (Some(4), None, None));
    /// # Ok::<(), bitpacking::set::QueryError>(())
    /// ```
    #[inline]
    pub fn advance(&mut self) -> Option<u32> {
        if self.at < self.len {
            self.at += 1;
            if self.at == self.len {
                self.find();
            }
        }
        self.value()
    }

    /// Moves to the first id from here on that is at least `target`, or after the last if there is none, and returns it. Chunks of sets before
    /// it are not read.
    ///
    /// ```
    /// use bitpacking::set::{IdSetBuf, Query};
    ///
    /// let cats = IdSetBuf::pack(&[1, 4, 6, 9]).unwrap();
    /// let query = Query::from(&cats);
    /// let mut ids = query.ids()?;
    /// assert_eq!((ids.seek(5), ids.seek(2), ids.seek(10)), (Some(6), Some(6), None));
    /// # Ok::<(), bitpacking::set::QueryError>(())
    /// ```
    pub fn seek(&mut self, target: u32) -> Option<u32> {
        let part = self.part();
        if part.last().is_some_and(|last| *last < target) {
            self.later.seek(target);
            self.find();
        } else {
            self.at += part.partition_point(|id| *id < target);
        }
        self.value()
    }

    /// Writes the ids from here on at the start of a slice, until it is full or the last is written. Moves after them, and returns their number. The
    /// rest of the slice may change.
    ///
    /// ```
    /// use bitpacking::set::{IdSetBuf, Query};
    ///
    /// let [cats, dogs] = [[1, 4, 6, 9], [4, 6, 7, 8]].map(IdSetBuf::from);
    /// let query = Query::from(&cats) | &dogs;
    /// let (mut ids, mut page) = (query.ids()?, [0; 4]);
    /// assert_eq!((ids.fill(&mut page), page, ids.value()), (4, [1, 4, 6, 7], Some(8)));
    /// assert_eq!((ids.fill(&mut page), &page[..2], ids.value()), (2, &[8, 9][..], None));
    /// # Ok::<(), bitpacking::set::QueryError>(())
    /// ```
    pub fn fill(&mut self, ids: &mut [u32]) -> usize {
        let part = self.part();
        let len = part.len().min(ids.len());
        ids[..len].copy_from_slice(&part[..len]);
        self.at += len;
        if self.at < self.len {
            return len;
        }
        let more = self.later.next_ids(&mut ids[len..]);
        self.find();
        len + more
    }

    /// Skips the ids that are below `target`, as [`seek`](QueryIds::seek) does: the name of iterators of sets.
    ///
    /// ```
    /// use bitpacking::set::{IdSetBuf, Query};
    ///
    /// let cats = IdSetBuf::pack(&[1, 4, 6, 9]).unwrap();
    /// let query = Query::from(&cats);
    /// let mut ids = query.ids()?;
    /// ids.advance_to(5);
    /// assert_eq!(ids.next(), Some(6));
    /// # Ok::<(), bitpacking::set::QueryError>(())
    /// ```
    pub fn advance_to(&mut self, target: u32) {
        self.seek(target);
    }
}

cursor!(QueryIds<'_>);

impl Iterator for QueryIds<'_> {
    type Item = u32;

    #[inline]
    fn next(&mut self) -> Option<u32> {
        let id = self.value();
        self.advance();
        id
    }

    fn size_hint(&self) -> (usize, Option<usize>) {
        (self.part().len(), None)
    }

    fn fold<A, F: FnMut(A, u32) -> A>(mut self, init: A, mut f: F) -> A {
        let mut folded = init;
        while self.at < self.len {
            folded = self.part().iter().copied().fold(folded, &mut f);
            self.find();
        }
        folded
    }
}

impl FusedIterator for QueryIds<'_> {}

impl fmt::Debug for QueryIds<'_> {
    fn fmt(&self, f: &mut fmt::Formatter<'_>) -> fmt::Result {
        f.debug_struct("QueryIds").field("value", &self.value()).finish_non_exhaustive()
    }
}
