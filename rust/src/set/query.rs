//! Trees of sets, joined by AND, OR, AND NOT and XOR.

use alloc::vec;
use alloc::vec::Vec;
use core::fmt;
use core::ops::{BitAnd, BitOr, BitXor, Sub};

use super::combining::written;
use super::query_ids::{Later, QueryIds};
use super::{Error, IdSet, IdSetBuf};
use crate::growing::Growing;
use crate::queries;
use crate::queries::Step;
use crate::sets;
use crate::slices::Operation;

/// The most operands that wait at once.
const MOST_WAITING: usize = 64;

/// Why a query was not run.
///
/// ```
/// use bitpacking::set::{IdSetBuf, Query, QueryError};
///
/// let cats = IdSetBuf::pack(&[1, 4, 6, 9]).unwrap();
/// let deep = (0..64).fold(Query::from(&cats), |query, _| Query::from(&cats) - query);
/// assert_eq!(deep.count(), Err(QueryError::TooDeep));
/// ```
#[derive(Clone, Copy, PartialEq, Eq, Debug)]
#[non_exhaustive]
pub enum QueryError {
    /// More than 64 operands wait at once.
    TooDeep,
    /// There is no memory for the operands that wait, or for the set.
    Memory,
    /// The set would have this many ids, and so more than 268,435,456.
    TooLong(usize),
}

impl fmt::Display for QueryError {
    fn fmt(&self, f: &mut fmt::Formatter<'_>) -> fmt::Result {
        match self {
            QueryError::TooDeep => f.write_str("more than 64 operands wait for operations"),
            QueryError::Memory => f.write_str("out of memory"),
            QueryError::TooLong(count) => Error::TooLong(*count).fmt(f),
        }
    }
}

impl core::error::Error for QueryError {}

/// Which ids are wanted: the ids of a set, or of any tree of sets that are joined by [`and`](Query::and), [`or`](Query::or),
/// [`and_not`](Query::and_not) and [`xor`](Query::xor), also as `&`, `|`, `-` and `^`.
///
/// A query borrows its sets and finds nothing itself: [`ids`](Query::ids) begins at the first id, and its ids come part by part. A part of a set
/// is read only if the answer can have ids of it. No call is recursive, so a tree may be of any depth.
///
/// An operand waits while the other operand of its operation is found, and at most 64 may wait at once. A tree that is joined by AND, OR and XOR,
/// or to the left, as `a - b - c`, needs far fewer than it has sets: at most one more than the base-two logarithm of their number. Only if AND
/// NOT is nested to the right, as `a - (b - (c - d))`, does each level need one more.
///
/// If all ids are wanted of sets that are joined in one way, [`intersect_all`](super::intersect_all), [`unite_all`](super::unite_all) and
/// [`subtract_all`](super::subtract_all) are faster.
///
/// ```
/// use bitpacking::set::{IdSetBuf, Query};
///
/// let [cats, dogs, old] = [[1, 4, 6, 9], [4, 6, 7, 8], [2, 6, 8, 9]].map(|ids| IdSetBuf::pack(&ids).unwrap());
/// let query = (Query::from(&cats) | &dogs) - &old;
/// assert_eq!(query.unpack()?, [1, 4, 7]);
///
/// let mut ids = query.ids()?;
/// assert_eq!((ids.value(), ids.seek(5), ids.advance()), (Some(1), Some(7), None));
/// # Ok::<(), bitpacking::set::QueryError>(())
/// ```
#[derive(Clone)]
pub struct Query<'a> {
    sets: Vec<sets::IdSet<'a>>,
    /// In postfix order. Each step that is a set names the next one. If more operands would wait than may, the last of them is the last step.
    steps: Vec<Step>,
    /// How many operands wait at once.
    waiting: usize,
}

impl<'a> Query<'a> {
    /// Returns the query for the ids that both have, also as `&`.
    ///
    /// ```
    /// use bitpacking::set::{IdSetBuf, Query};
    ///
    /// let [cats, dogs] = [[1, 4, 6, 9], [4, 6, 7, 8]].map(|ids| IdSetBuf::pack(&ids).unwrap());
    /// assert_eq!(Query::from(&cats).and(&dogs).unpack()?, [4, 6]);
    /// # Ok::<(), bitpacking::set::QueryError>(())
    /// ```
    #[must_use]
    pub fn and(self, other: impl Into<Query<'a>>) -> Self {
        self.in_any_order(Operation::And, other.into())
    }

    /// Returns the query for the ids that at least one of the two has, also as `|`.
    ///
    /// ```
    /// use bitpacking::set::{IdSetBuf, Query};
    ///
    /// let [cats, dogs] = [[1, 4, 6, 9], [4, 6, 7, 8]].map(|ids| IdSetBuf::pack(&ids).unwrap());
    /// assert_eq!(Query::from(&cats).or(&dogs).unpack()?, [1, 4, 6, 7, 8, 9]);
    /// # Ok::<(), bitpacking::set::QueryError>(())
    /// ```
    #[must_use]
    pub fn or(self, other: impl Into<Query<'a>>) -> Self {
        self.in_any_order(Operation::Or, other.into())
    }

    /// Returns the query for the ids that this query has and the other lacks, also as `-`.
    ///
    /// ```
    /// use bitpacking::set::{IdSetBuf, Query};
    ///
    /// let [cats, dogs] = [[1, 4, 6, 9], [4, 6, 7, 8]].map(|ids| IdSetBuf::pack(&ids).unwrap());
    /// assert_eq!(Query::from(&cats).and_not(&dogs).unpack()?, [1, 9]);
    /// # Ok::<(), bitpacking::set::QueryError>(())
    /// ```
    #[must_use]
    pub fn and_not(self, other: impl Into<Query<'a>>) -> Self {
        self.join(Operation::AndNot, other.into())
    }

    /// Returns the query for the ids that exactly one of the two has, also as `^`.
    ///
    /// ```
    /// use bitpacking::set::{IdSetBuf, Query};
    ///
    /// let [cats, dogs] = [[1, 4, 6, 9], [4, 6, 7, 8]].map(|ids| IdSetBuf::pack(&ids).unwrap());
    /// assert_eq!(Query::from(&cats).xor(&dogs).unpack()?, [1, 7, 8, 9]);
    /// # Ok::<(), bitpacking::set::QueryError>(())
    /// ```
    #[must_use]
    pub fn xor(self, other: impl Into<Query<'a>>) -> Self {
        self.in_any_order(Operation::Xor, other.into())
    }

    /// Joins two queries whose order does not matter. The one for which more operands wait is the first, so that the fewest wait.
    fn in_any_order(self, operation: Operation, other: Query<'a>) -> Self {
        if other.waiting > self.waiting { other.join(operation, self) } else { self.join(operation, other) }
    }

    /// Joins two queries. Each step is moved at most 64 times, since more operands wait than did before it was moved.
    fn join(mut self, operation: Operation, other: Query<'a>) -> Self {
        if self.waiting > MOST_WAITING {
            return self;
        }
        let before = self.sets.len();
        self.sets.extend(other.sets);
        self.steps.extend(other.steps.into_iter().map(|step| match step {
            Step::Set(set) => Step::Set(before + set),
            Step::Combine(_) => step,
        }));
        self.steps.push(Step::Combine(operation));
        self.waiting = self.waiting.max(1 + other.waiting);
        if self.waiting > MOST_WAITING {
            self.cut();
        }
        self
    }

    /// Drops the steps after the first set that is one operand too many: no query that has this one can be run.
    fn cut(&mut self) {
        let (mut waiting, mut sets) = (0, 0);
        let too_many = self.steps.iter().position(|step| match step {
            Step::Set(_) => {
                waiting += 1;
                sets += 1;
                waiting > MOST_WAITING
            }
            Step::Combine(_) => {
                waiting -= 1;
                false
            }
        });
        self.steps.truncate(too_many.map_or(self.steps.len(), |last| last + 1));
        self.sets.truncate(sets);
    }

    /// Returns a cursor at the first id, which is an iterator too. Allocates 8 KB for each operand that waits at once, and nothing for a set alone.
    ///
    /// # Errors
    ///
    /// `TooDeep`, if more than 64 operands wait at once; `Memory`.
    ///
    /// ```
    /// use bitpacking::set::{IdSetBuf, Query};
    ///
    /// let [cats, dogs] = [[1, 4, 6, 9], [4, 6, 7, 8]].map(|ids| IdSetBuf::pack(&ids).unwrap());
    /// let query = Query::from(&cats) | &dogs;
    /// assert_eq!(query.ids()?.take(3).collect::<Vec<u32>>(), [1, 4, 6]);
    /// # Ok::<(), bitpacking::set::QueryError>(())
    /// ```
    pub fn ids(&self) -> Result<QueryIds<'_>, QueryError> {
        if let [set] = self.sets[..] {
            return Ok(QueryIds::new(Later::Set(set.cursor())));
        }
        let query = queries::Query::new(&self.sets, &self.steps, Vec::new()).map_err(|fault| match fault {
            queries::QueryError::Memory => QueryError::Memory,
            // The steps have no other fault, since each joins two queries.
            _ => QueryError::TooDeep,
        })?;
        Ok(QueryIds::new(Later::Query(query)))
    }

    /// Returns all ids, in increasing order. Allocates as [`ids`](Query::ids) does, and 4 bytes for each id.
    ///
    /// # Errors
    ///
    /// As [`ids`](Query::ids).
    ///
    /// ```
    /// use bitpacking::set::{IdSetBuf, Query};
    ///
    /// let [cats, dogs] = [[1, 4, 6, 9], [4, 6, 7, 8]].map(|ids| IdSetBuf::pack(&ids).unwrap());
    /// assert_eq!((Query::from(&cats) & &dogs).unpack()?, [4, 6]);
    /// # Ok::<(), bitpacking::set::QueryError>(())
    /// ```
    pub fn unpack(&self) -> Result<Vec<u32>, QueryError> {
        let mut ids = Vec::new();
        self.unpack_into(&mut ids)?;
        Ok(ids)
    }

    /// Replaces the values of a vector by all ids, in increasing order. Allocates as [`ids`](Query::ids) does, and if the capacity of the vector
    /// is too small.
    ///
    /// # Errors
    ///
    /// As [`ids`](Query::ids). The vector is then unchanged.
    ///
    /// ```
    /// use bitpacking::set::{IdSetBuf, Query};
    ///
    /// let [cats, dogs] = [[1, 4, 6, 9], [4, 6, 7, 8]].map(|ids| IdSetBuf::pack(&ids).unwrap());
    /// let mut ids = vec![8, 3];
    /// (Query::from(&cats) & &dogs).unpack_into(&mut ids)?;
    /// assert_eq!(ids, [4, 6]);
    /// # Ok::<(), bitpacking::set::QueryError>(())
    /// ```
    pub fn unpack_into(&self, ids: &mut Vec<u32>) -> Result<(), QueryError> {
        let mut left = self.ids()?;
        ids.clear();
        left.for_each_part(|part| ids.extend_from_slice(part));
        Ok(())
    }

    /// Returns the set of all ids. Allocates its bytes, 8 KB for each operand that waits at once, and 16 bytes for each chunk of the sets, or for
    /// each id of a set that is not in chunks, but at most 1 MB.
    ///
    /// # Errors
    ///
    /// `TooDeep`, if more than 64 operands wait at once; `TooLong`, if there are more than 268,435,456 ids; `Memory`.
    ///
    /// ```
    /// use bitpacking::set::{IdSetBuf, Query};
    ///
    /// let [cats, dogs, old] = [[1, 4, 6, 9], [4, 6, 7, 8], [2, 6, 8, 9]].map(|ids| IdSetBuf::pack(&ids).unwrap());
    /// let young: IdSetBuf = ((Query::from(&cats) | &dogs) - &old).pack()?;
    /// assert_eq!(young.unpack(), [1, 4, 7]);
    /// # Ok::<(), bitpacking::set::QueryError>(())
    /// ```
    pub fn pack(&self) -> Result<IdSetBuf, QueryError> {
        if self.waiting > MOST_WAITING {
            return Err(QueryError::TooDeep);
        }
        let mut bitmaps = Vec::new();
        bitmaps.try_resize(self.waiting, [0; 1024]).map_err(|_| QueryError::Memory)?;
        let most = self.sets.iter().map(|set| set.parts().rest.len()).fold(0, usize::saturating_add);
        let packed = written(queries::combine_room(&self.sets), most, |room, bytes| {
            // Each step joins two queries, and there is a bitmap for each operand that waits, so that the steps have no fault.
            queries::query_set_to(&self.sets, &self.steps, &mut bitmaps, room, bytes).expect("steps without a fault")
        });
        packed.map_err(|error| match error {
            Error::TooLong(count) => QueryError::TooLong(count),
            _ => QueryError::Memory,
        })
    }

    /// Returns how many ids there are. Allocates as [`ids`](Query::ids) does.
    ///
    /// # Errors
    ///
    /// As [`ids`](Query::ids).
    ///
    /// # Panics
    ///
    /// On a machine of 32 bits, if the query has all 2^32 ids.
    ///
    /// ```
    /// use bitpacking::set::{IdSetBuf, Query};
    ///
    /// let [cats, dogs] = [[1, 4, 6, 9], [4, 6, 7, 8]].map(|ids| IdSetBuf::pack(&ids).unwrap());
    /// assert_eq!((Query::from(&cats) | &dogs).count()?, 6);
    /// # Ok::<(), bitpacking::set::QueryError>(())
    /// ```
    #[track_caller]
    pub fn count(&self) -> Result<usize, QueryError> {
        let mut count = 0;
        self.ids()?.for_each_part(|part| count += part.len() as u64);
        Ok(usize::try_from(count).expect("a count of ids that fits `usize`"))
    }
}

impl fmt::Debug for Query<'_> {
    fn fmt(&self, f: &mut fmt::Formatter<'_>) -> fmt::Result {
        f.debug_struct("Query").field("sets", &self.sets.len()).finish_non_exhaustive()
    }
}

impl<'a> From<&'a IdSet> for Query<'a> {
    /// Returns the query for all ids of a set.
    fn from(set: &'a IdSet) -> Self {
        Query { sets: vec![set.code()], steps: vec![Step::Set(0)], waiting: 1 }
    }
}

impl<'a, B> From<&'a IdSetBuf<B>> for Query<'a> {
    /// Returns the query for all ids of a set.
    fn from(set: &'a IdSetBuf<B>) -> Self {
        Query::from(&**set)
    }
}

impl<'a> From<&Query<'a>> for Query<'a> {
    /// Returns a clone.
    fn from(query: &Query<'a>) -> Self {
        query.clone()
    }
}

/// An operator of queries, by the method of the same meaning.
macro_rules! operator {
    ($trait:ident $name:ident $method:ident) => {
        impl<'a, Q: Into<Query<'a>>> $trait<Q> for Query<'a> {
            type Output = Query<'a>;

            fn $name(self, other: Q) -> Query<'a> {
                self.$method(other)
            }
        }

        impl<'a, Q: Into<Query<'a>>> $trait<Q> for &Query<'a> {
            type Output = Query<'a>;

            fn $name(self, other: Q) -> Query<'a> {
                self.clone().$method(other)
            }
        }
    };
}

operator!(BitAnd bitand and);
operator!(BitOr bitor or);
operator!(BitXor bitxor xor);
operator!(Sub sub and_not);
