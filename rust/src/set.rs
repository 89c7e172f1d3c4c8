//! Sets of ids: increasing `u32` integers, such as the documents that have a word.
//!
//! A set is packed into bytes once, and then read from these bytes: a call unpacks only the part that it reads. The bytes are tested when they
//! are opened, so they may come from a file or from another machine.
//!
//! ```
//! use bitpacking::set::{IdSet, IdSetBuf};
//!
//! let cats = IdSetBuf::pack(&[1, 4, 6, 9])?;
//! let dogs: IdSetBuf = (4..1000).step_by(2).collect();
//! assert!(cats.contains(6));
//! assert_eq!((&cats & &dogs).unpack(), [4, 6]);
//! let mut all = &cats | &dogs | IdSetBuf::from([5]);
//! all -= &dogs;
//! assert_eq!(all.unpack(), [1, 5, 9]);
//!
//! let bytes: &[u8] = dogs.as_bytes(); // what is stored
//! let stored = IdSet::open(bytes)?;
//! assert_eq!((stored.len(), stored.max(), stored.seek(301)), (498, Some(998), Some((149, 302))));
//! # Ok::<(), bitpacking::set::Error>(())
//! ```
//!
//! [`IdSet`] has the calls that read, and is always behind a reference, as a `str` is. [`IdSetBuf`] owns or borrows the bytes of a set. The bytes
//! of a set do not change: a call that combines sets or appends ids returns another set, and `|=` and `extend` replace a set by another one.
//! Sets of 64-bit ids are in [`wide`].
//!
//! # Sizes
//!
//! A set of n ids takes at most `9 * n / 2 + 10` bytes. Of ids that share their high 16 bits each takes at most two bytes, and few runs of
//! consecutive ones two bytes for each end of a run: 49 KB may hold 268,435,456 ids, so look at `len` before you unpack a set of others.
//!
//! # Memory
//!
//! Each call says what it allocates; most that read a set allocate nothing. An iterator or a cursor has room for 256 ids, and so a size of about
//! 1 KB. [`intersect_all`], [`unite_all`] and [`subtract_all`] of more than two sets need about 120 KB of stack, and calls that make a set of sets
//! 160 KB. If there is no memory, a call fails with `Memory` if it says so, and else panics or aborts, as a `Vec` does.

mod builder;
mod combining;
mod comparing;
mod cursor;
mod in_place;
mod iter;
mod many;
mod opening;
mod operators;
mod packing;
mod pairs;
mod query;
mod query_ids;
mod ranges;
mod reading;
mod roaring;
pub mod wide;

use alloc::borrow::ToOwned;
use alloc::vec::Vec;
use core::borrow::Borrow;
use core::fmt;
use core::hash::{Hash, Hasher};
use core::ops::Deref;

pub use crate::sets::Description;
pub use crate::slices::SetError as Error;
pub use builder::SetBuilder;
pub use cursor::{Cursor, SetCursor};
pub use iter::{IntoIter, Iter};
pub use many::{
    intersect_all, intersect_all_into, intersect_all_len, subtract_all, subtract_all_into, subtract_all_len,
    symmetric_difference_all, symmetric_difference_all_into, symmetric_difference_all_len, unite_all, unite_all_into,
    unite_all_len,
};
pub use opening::{OpenError, open_many};
pub use packing::{pack_into, pack_to, packed_len};
pub use query::{Query, QueryError};
pub use query_ids::QueryIds;

use crate::buffer::buffer;
use crate::sets;
use crate::stable_bytes::{ClonedBytes, StableBytes};

/// How many ids `Debug` shows.
const MOST_SHOWN: usize = 16;

buffer! {
    /// An opened set of ids: it is always behind a reference, and [`IdSetBuf`] has its bytes.
    ///
    /// No one can have an `IdSet` itself, nor borrow one by `&mut`, so that it never outlives its bytes:
    ///
    /// ```compile_fail,E0596
    /// use bitpacking::set::IdSetBuf;
    ///
    /// let mut long = IdSetBuf::pack(&[1, 4, 6]).unwrap();
    /// let mut short = IdSetBuf::pack(&[2]).unwrap();
    /// std::mem::swap(&mut *long, &mut *short);
    /// ```
    ///
    /// ```compile_fail,E0505
    /// use bitpacking::set::{IdSet, IdSetBuf};
    ///
    /// let owned = IdSetBuf::pack(&[1, 4, 6]).unwrap();
    /// let opened: &IdSet = &owned;
    /// drop(owned);
    /// opened.len();
    /// ```
    IdSet of sets::IdSet<'static>, Error, [0x80];
    /// A set of ids, with the bytes that it owns or borrows. It has all calls of [`IdSet`].
    ///
    /// ```
    /// use bitpacking::set::IdSetBuf;
    ///
    /// struct Deleted {
    ///     ids: IdSetBuf,
    /// }
    ///
    /// let deleted = Deleted { ids: IdSetBuf::pack(&[7, 9, 10, 300])? };
    /// assert_eq!(deleted.ids.seek(8), Some((1, 9)));
    /// assert_eq!(deleted.ids.into_bytes(), [0x84, 7, 9, 1, 0, 0x84, 4]);
    /// # Ok::<(), bitpacking::set::Error>(())
    /// ```
    ///
    /// A set is cloned only if its bytes are of a type whose clones this crate knows:
    ///
    /// ```compile_fail,E0277
    /// use bitpacking::StableBytes;
    /// use bitpacking::set::IdSetBuf;
    ///
    /// #[derive(Clone)]
    /// struct Mapping(Vec<u8>);
    ///
    /// impl AsRef<[u8]> for Mapping {
    ///     fn as_ref(&self) -> &[u8] {
    ///         &self.0
    ///     }
    /// }
    ///
    /// // SAFETY: the vector does not change.
    /// unsafe impl StableBytes for Mapping {}
    ///
    /// fn cloned<T: Clone>(value: &T) -> T {
    ///     value.clone()
    /// }
    ///
    /// cloned(&IdSetBuf::open(Mapping(vec![0x80])).unwrap());
    /// ```
    IdSetBuf
}

impl IdSetBuf {
    /// Returns the set without ids.
    ///
    /// ```
    /// use bitpacking::set::IdSetBuf;
    ///
    /// let mut primes = IdSetBuf::new();
    /// for prime in [2, 3, 5, 7] {
    ///     primes.insert(prime)?;
    /// }
    /// assert_eq!(primes.len(), 4);
    /// # Ok::<(), bitpacking::set::Error>(())
    /// ```
    pub fn new() -> IdSetBuf {
        IdSetBuf::default()
    }
}

impl<B: StableBytes> IdSetBuf<B> {
    /// Opens bytes that were opened before, without testing them again.
    ///
    /// # Safety
    ///
    /// The bytes are the encoding of a set: [`open`](IdSetBuf::open) accepted these bytes, or a call of this module packed them.
    ///
    /// ```
    /// use bitpacking::set::IdSetBuf;
    ///
    /// let bytes = IdSetBuf::pack(&[1, 4, 6, 9])?.into_bytes();
    /// // SAFETY: these bytes were just packed.
    /// let ids = unsafe { IdSetBuf::open_unchecked(bytes) };
    /// assert_eq!(ids.unpack(), [1, 4, 6, 9]);
    /// # Ok::<(), bitpacking::set::Error>(())
    /// ```
    pub unsafe fn open_unchecked(bytes: B) -> Self {
        // REQUIRES: the bytes have no fault, as the caller promises.
        let opened = IdSetBuf::of(bytes, |bytes| Ok(sets::IdSet::of_tested(bytes)));
        opened.expect("bytes without a fault are opened")
    }
}

impl IdSet {
    /// Opens the encoding of a set. Tests all bytes, which may be untrusted, and allocates nothing.
    ///
    /// # Errors
    ///
    /// The first fault of the bytes, in the order of `docs/FORMAT.md` of the repository.
    ///
    /// ```
    /// use bitpacking::set::{Error, IdSet};
    ///
    /// let ids = IdSet::open(&[0x84, 7, 9, 1, 0, 0x84, 4])?;
    /// assert_eq!(ids.unpack(), [7, 9, 10, 300]);
    /// assert_eq!(IdSet::open(&[0x84, 7]).err(), Some(Error::Short));
    /// # Ok::<(), Error>(())
    /// ```
    pub fn open(bytes: &[u8]) -> Result<IdSetBuf<&[u8]>, Error> {
        IdSetBuf::open(bytes)
    }

    /// Opens bytes that were opened before, without testing them again. Reads at most 9 of them.
    ///
    /// # Safety
    ///
    /// The bytes are the encoding of a set: [`open`](IdSet::open) accepted these bytes, or a call of this module packed them.
    ///
    /// ```
    /// use bitpacking::set::{IdSet, IdSetBuf};
    ///
    /// let stored = IdSetBuf::pack(&[1, 4, 6, 9])?.into_bytes();
    /// // SAFETY: these bytes were just packed.
    /// let ids = unsafe { IdSet::open_unchecked(&stored) };
    /// assert_eq!(ids.max(), Some(9));
    /// # Ok::<(), bitpacking::set::Error>(())
    /// ```
    pub unsafe fn open_unchecked(bytes: &[u8]) -> IdSetBuf<&[u8]> {
        // SAFETY: the caller promises what the call requires.
        unsafe { IdSetBuf::open_unchecked(bytes) }
    }

    /// The proved set, which borrows the bytes as long as this one is borrowed.
    #[inline(always)]
    pub(crate) fn code(&self) -> sets::IdSet<'_> {
        self.code
    }
}

// REQUIRES: each call returns the set of the same ids, as an opened set does not change.
impl sets::AsSet for &IdSet {
    #[inline(always)]
    fn as_set(&self) -> sets::IdSet<'_> {
        self.code
    }
}

/// Shows the ids as a set, such as `{1, 4, 9}`, and of more than 16 ids the first 16 and `..`.
///
/// ```
/// use bitpacking::set::IdSetBuf;
///
/// assert_eq!(format!("{:?}", IdSetBuf::pack(&[1, 4, 9])?), "{1, 4, 9}");
/// # Ok::<(), bitpacking::set::Error>(())
/// ```
impl fmt::Debug for IdSet {
    fn fmt(&self, f: &mut fmt::Formatter<'_>) -> fmt::Result {
        let mut shown = f.debug_set();
        shown.entries(self.iter().take(MOST_SHOWN));
        if self.len() > MOST_SHOWN { shown.finish_non_exhaustive() } else { shown.finish() }
    }
}
