//! Sets of 64-bit ids: increasing `u64` integers, such as keys of a database, hashes and times.
//!
//! ```
//! use bitpacking::set::wide::{WideSet, WideSetBuf};
//!
//! let keys = WideSetBuf::pack(&[7, 1 << 40, u64::MAX])?;
//! assert!(keys.contains(1 << 40));
//! let old = WideSetBuf::pack(&[7, 9])?;
//! assert_eq!((&keys - &old).unpack(), [1 << 40, u64::MAX]);
//!
//! let bytes: &[u8] = keys.as_bytes(); // what is stored
//! let stored = WideSet::open(bytes)?;
//! assert_eq!((stored.len(), stored.seek(8), stored.max()), (3, Some((1, 1 << 40)), Some(u64::MAX)));
//! # Ok::<(), bitpacking::set::wide::Error>(())
//! ```
//!
//! [`WideSet`] and [`WideSetBuf`] are as [`IdSet`](super::IdSet) and [`IdSetBuf`] are: a `WideSet` is always behind a reference, and a `WideSetBuf`
//! owns or borrows its bytes. Two wide sets are combined as two id sets are: `&`, `|`, `-` and `^` return another wide set. [`WideSet::part`] has the
//! ids that share their high 32 bits as an id set, which has all calls of [`set`](super).
//!
//! # Sizes
//!
//! A wide set has at most 268,435,456 ids, and n ids take at most `33 * n / 4 + 22` bytes. If there are on average at least 8 ids for each different
//! value of the high 32 bits, each of these values has an id set of the low 32 bits. Else an id takes 4 bytes for its low 32 bits, and the high ones
//! are a sorted column. 49 KB may hold 268,435,456 ids, so look at [`len`](WideSet::len) before you unpack a set of others.

mod builder;
mod combining;
mod iter;
mod packing;
mod reading;

use alloc::borrow::ToOwned;
use alloc::vec::Vec;
use core::borrow::Borrow;
use core::fmt;
use core::hash::{Hash, Hasher};
use core::ops::Deref;

/// Why a wide set was not packed or opened.
///
/// ```
/// use bitpacking::set::wide::{Error, WideSet, WideSetBuf};
///
/// let error = WideSetBuf::pack(&[5, 1 << 40, 1 << 40]).unwrap_err();
/// assert_eq!(error, Error::NotSorted(2));
/// assert_eq!(error.to_string(), "the id at position 2 is out of order");
/// assert_eq!(WideSet::open(&[5]).unwrap_err().to_string(), "5 is the first byte of no wide set");
/// ```
pub use crate::wide::WideError as Error;

pub use builder::WideSetBuilder;
pub use iter::Iter;

use super::{IdSetBuf, MOST_SHOWN};
use crate::buffer::buffer;
use crate::stable_bytes::{ClonedBytes, StableBytes};
use crate::wide;

buffer! {
    /// An opened set of 64-bit ids: it is always behind a reference, and [`WideSetBuf`] has its bytes.
    ///
    /// ```
    /// use bitpacking::set::wide::{Error, WideSet, WideSetBuf};
    ///
    /// fn is_new(seen: &WideSet, hash: u64) -> bool {
    ///     !seen.contains(hash)
    /// }
    ///
    /// let owned = WideSetBuf::pack(&[5, 1 << 63])?;
    /// let borrowed = WideSet::open(owned.as_bytes())?;
    /// assert!(is_new(&owned, 1 << 40) && !is_new(&borrowed, 1 << 63));
    /// # Ok::<(), Error>(())
    /// ```
    WideSet of wide::WideSet<'static>, Error, [9, 0, 0x60];
    /// A set of 64-bit ids, with the bytes that it owns or borrows. It has all calls of [`WideSet`]. The default is the empty set.
    ///
    /// ```
    /// use std::sync::Arc;
    ///
    /// use bitpacking::set::wide::{Error, WideSetBuf};
    ///
    /// let bytes: Arc<[u8]> = Arc::new([9, 1, 0x61, 0, 5, 0, 0, 0]);
    /// let ids: WideSetBuf<Arc<[u8]>> = WideSetBuf::open(bytes)?;
    /// assert_eq!(ids.unpack(), [5]);
    /// # Ok::<(), Error>(())
    /// ```
    WideSetBuf
}

impl<B: StableBytes> WideSetBuf<B> {
    /// Opens bytes that were opened before, without testing them again.
    ///
    /// # Safety
    ///
    /// The bytes are the encoding of a wide set: [`open`](WideSetBuf::open) accepted these bytes, or a call of this module packed them.
    ///
    /// ```
    /// use bitpacking::set::wide::{Error, WideSetBuf};
    ///
    /// let bytes = WideSetBuf::pack(&[5, 1 << 40])?.into_bytes();
    /// // SAFETY: these bytes were just packed.
    /// let ids = unsafe { WideSetBuf::open_unchecked(bytes) };
    /// assert_eq!(ids.unpack(), [5, 1 << 40]);
    /// # Ok::<(), Error>(())
    /// ```
    pub unsafe fn open_unchecked(bytes: B) -> Self {
        // REQUIRES: the bytes have no fault, as the caller promises.
        let opened = WideSetBuf::of(bytes, |bytes| Ok(wide::WideSet::of_tested(bytes)));
        opened.expect("bytes without a fault are opened")
    }
}

impl WideSet {
    /// Opens the encoding of a wide set. Tests all bytes, which may be untrusted, and allocates nothing.
    ///
    /// # Errors
    ///
    /// The first fault of the bytes, in the order of `docs/FORMAT.md` of the repository.
    ///
    /// ```
    /// use bitpacking::set::wide::{Error, WideSet};
    ///
    /// let ids = WideSet::open(&[9, 1, 0x61, 0, 5, 0, 0, 0])?;
    /// assert_eq!(ids.unpack(), [5]);
    /// assert_eq!(WideSet::open(&[9, 1]).err(), Some(Error::Short));
    /// # Ok::<(), Error>(())
    /// ```
    pub fn open(bytes: &[u8]) -> Result<WideSetBuf<&[u8]>, Error> {
        WideSetBuf::open(bytes)
    }

    /// Opens bytes that were opened before, without testing them again. Reads at most 10 of them.
    ///
    /// # Safety
    ///
    /// The bytes are the encoding of a wide set: [`open`](WideSet::open) accepted these bytes, or a call of this module packed them.
    ///
    /// ```
    /// use bitpacking::set::wide::{Error, WideSet, WideSetBuf};
    ///
    /// let stored = WideSetBuf::pack(&[5, 1 << 40])?.into_bytes();
    /// // SAFETY: these bytes were just packed.
    /// let ids = unsafe { WideSet::open_unchecked(&stored) };
    /// assert_eq!(ids.max(), Some(1 << 40));
    /// # Ok::<(), Error>(())
    /// ```
    pub unsafe fn open_unchecked(bytes: &[u8]) -> WideSetBuf<&[u8]> {
        // SAFETY: the caller promises what the call requires.
        unsafe { WideSetBuf::open_unchecked(bytes) }
    }

    /// The proved set, which borrows the bytes as long as this one is borrowed.
    #[inline(always)]
    fn code(&self) -> wide::WideSet<'_> {
        self.code
    }
}

/// Shows the ids as a set, such as `{1, 4, 9}`, and of more than 16 ids the first 16 and `..`.
///
/// ```
/// use bitpacking::set::wide::WideSetBuf;
///
/// assert_eq!(format!("{:?}", WideSetBuf::pack(&[1, 4, 1 << 40])?), "{1, 4, 1099511627776}");
/// # Ok::<(), bitpacking::set::wide::Error>(())
/// ```
impl fmt::Debug for WideSet {
    fn fmt(&self, f: &mut fmt::Formatter<'_>) -> fmt::Result {
        let mut shown = f.debug_set();
        shown.entries(self.iter().take(MOST_SHOWN));
        if self.len() > MOST_SHOWN { shown.finish_non_exhaustive() } else { shown.finish() }
    }
}
