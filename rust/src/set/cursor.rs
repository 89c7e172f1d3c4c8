//! Cursors: positions in increasing ids that only move forward.

use core::fmt;

use super::IdSet;
use crate::sets;

/// A position in increasing ids that only moves forward: of a set, a [`SetCursor`], or of a query, its [`QueryIds`](super::QueryIds).
///
/// One function walks both:
///
/// ```
/// use bitpacking::set::{Cursor, IdSetBuf, Query};
///
/// /// Returns the ids that both have.
/// fn shared(mut one: impl Cursor, mut other: impl Cursor) -> Vec<u32> {
///     let mut found = Vec::new();
///     while let Some(id) = one.value() {
///         match other.seek(id) {
///             None => break,
///             Some(next) if next == id => {
///                 found.push(id);
///                 one.advance();
///             }
///             Some(next) => {
///                 one.seek(next);
///             }
///         }
///     }
///     found
/// }
///
/// let [cats, dogs, old] = [[1, 4, 6, 9], [4, 6, 7, 8], [2, 6, 8, 9]].map(|ids| IdSetBuf::pack(&ids).unwrap());
/// let either = Query::from(&cats) | &dogs;
/// assert_eq!(shared(either.ids().unwrap(), old.cursor()), [6, 8, 9]);
/// ```
pub trait Cursor {
    /// Returns the id here, or `None` after the last.
    fn value(&self) -> Option<u32>;

    /// Moves to the next id, and returns it. After the last id it does not move.
    fn advance(&mut self) -> Option<u32>;

    /// Moves to the first id from here on that is at least `target`, or after the last if there is none, and returns it.
    fn seek(&mut self, target: u32) -> Option<u32>;
}

/// Implements the trait by the methods of the same names, which users call without importing it.
macro_rules! cursor {
    ($cursor:ty) => {
        impl $crate::set::Cursor for $cursor {
            #[inline]
            fn value(&self) -> Option<u32> {
                <$cursor>::value(self)
            }

            #[inline]
            fn advance(&mut self) -> Option<u32> {
                <$cursor>::advance(self)
            }

            #[inline]
            fn seek(&mut self, target: u32) -> Option<u32> {
                <$cursor>::seek(self, target)
            }
        }
    };
}

pub(super) use cursor;

/// A position in the ids of a set that only moves forward. It unpacks up to 256 ids at once, has a size of about 1 KB, and allocates nothing.
///
/// ```
/// use bitpacking::set::IdSetBuf;
///
/// let set = IdSetBuf::pack(&[1, 4, 6, 9])?;
/// let mut ids = set.cursor();
/// assert_eq!((ids.value(), ids.seek(5), ids.position()), (Some(1), Some(6), 2));
/// assert_eq!((ids.advance(), ids.advance(), ids.position()), (Some(9), None, 4));
/// # Ok::<(), bitpacking::set::Error>(())
/// ```
#[derive(Clone)]
pub struct SetCursor<'a> {
    ids: sets::Ids<'a>,
}

impl SetCursor<'_> {
    /// Returns the id here, or `None` after the last.
    ///
    /// ```
    /// use bitpacking::set::IdSetBuf;
    ///
    /// assert_eq!(IdSetBuf::pack(&[1, 4])?.cursor().value(), Some(1));
    /// # Ok::<(), bitpacking::set::Error>(())
    /// ```
    #[inline]
    pub fn value(&self) -> Option<u32> {
        self.ids.value()
    }

    /// Returns the position here: how many ids are before this one. After the last it is the number of ids.
    ///
    /// ```
    /// use bitpacking::set::IdSetBuf;
    ///
    /// let set = IdSetBuf::pack(&[1, 4, 6, 9])?;
    /// let mut ids = set.cursor();
    /// ids.seek(9);
    /// assert_eq!(ids.position(), 3);
    /// # Ok::<(), bitpacking::set::Error>(())
    /// ```
    #[inline]
    pub fn position(&self) -> usize {
        self.ids.position()
    }

    /// Moves to the next id, and returns it. After the last id it does not move.
    ///
    /// ```
    /// use bitpacking::set::IdSetBuf;
    ///
    /// let set = IdSetBuf::pack(&[1, 4])?;
    /// let mut ids = set.cursor();
    /// assert_eq!((ids.advance(), ids.advance(), ids.advance()), (Some(4), None, None));
    /// # Ok::<(), bitpacking::set::Error>(())
    /// ```
    #[inline]
    pub fn advance(&mut self) -> Option<u32> {
        self.ids.advance()
    }

    /// Moves to the first id from here on that is at least `target`, or after the last if there is none, and returns it.
    ///
    /// ```
    /// use bitpacking::set::IdSetBuf;
    ///
    /// let set = IdSetBuf::pack(&[1, 4, 6, 9])?;
    /// let mut ids = set.cursor();
    /// assert_eq!((ids.seek(6), ids.seek(2), ids.seek(10)), (Some(6), Some(6), None));
    /// # Ok::<(), bitpacking::set::Error>(())
    /// ```
    #[inline]
    pub fn seek(&mut self, target: u32) -> Option<u32> {
        self.ids.seek(target)
    }

    /// Writes the ids from here on at the start of a slice, until it is full or the last is written. Moves after them, and returns their number. The
    /// rest of the slice is unchanged.
    ///
    /// ```
    /// use bitpacking::set::IdSetBuf;
    ///
    /// let set = IdSetBuf::pack(&[1, 4, 6, 9])?;
    /// let (mut ids, mut page) = (set.cursor(), [0; 3]);
    /// assert_eq!((ids.fill(&mut page), page, ids.value()), (3, [1, 4, 6], Some(9)));
    /// assert_eq!((ids.fill(&mut page), page, ids.value()), (1, [9, 4, 6], None));
    /// # Ok::<(), bitpacking::set::Error>(())
    /// ```
    pub fn fill(&mut self, ids: &mut [u32]) -> usize {
        self.ids.fill(ids)
    }
}

cursor!(SetCursor<'_>);

impl fmt::Debug for SetCursor<'_> {
    fn fmt(&self, f: &mut fmt::Formatter<'_>) -> fmt::Result {
        f.debug_struct("SetCursor").field("position", &self.position()).field("value", &self.value()).finish_non_exhaustive()
    }
}

impl IdSet {
    /// Returns a cursor at the first id.
    ///
    /// ```
    /// use bitpacking::set::IdSetBuf;
    ///
    /// let set = IdSetBuf::pack(&[1, 4, 6, 9])?;
    /// let (mut ids, mut sum) = (set.cursor(), 0);
    /// while let Some(id) = ids.value() {
    ///     sum += id;
    ///     ids.advance();
    /// }
    /// assert_eq!(sum, 20);
    /// # Ok::<(), bitpacking::set::Error>(())
    /// ```
    pub fn cursor(&self) -> SetCursor<'_> {
        SetCursor { ids: self.code().iter() }
    }
}
