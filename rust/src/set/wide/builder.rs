//! Wide sets whose ids come one after the other.

use core::borrow::Borrow;
use core::fmt;

use super::{Error, WideSetBuf};
use crate::wide;

/// Collects increasing 64-bit ids one by one, and then packs them.
///
/// A vector has the ids, 8 bytes for each, since the encoding of a set begins with their number. An id that is out of order is refused when it is
/// pushed, and the builder is then unchanged.
///
/// ```
/// use bitpacking::set::wide::{Error, WideSetBuilder};
///
/// let mut ids = WideSetBuilder::new();
/// ids.push(7)?;
/// ids.extend([1 << 40, 1 << 41])?;
/// assert_eq!(ids.push(1 << 41), Err(Error::NotSorted(3)));
/// assert_eq!(ids.pack().unpack(), [7, 1 << 40, 1 << 41]);
/// # Ok::<(), Error>(())
/// ```
pub struct WideSetBuilder {
    code: wide::WideSetBuilder,
}

impl WideSetBuilder {
    /// Returns a builder without ids. Allocates nothing.
    ///
    /// ```
    /// assert!(bitpacking::set::wide::WideSetBuilder::new().is_empty());
    /// ```
    pub fn new() -> Self {
        WideSetBuilder { code: wide::WideSetBuilder::new() }
    }

    /// Pushes an id.
    ///
    /// # Errors
    ///
    /// The first of: `TooLong`, if there are 268,435,456 ids; `NotSorted`, with the number of ids so far, if the id is not above the last one;
    /// `Memory`. The builder is then unchanged.
    ///
    /// ```
    /// use bitpacking::set::wide::{Error, WideSetBuilder};
    ///
    /// let mut ids = WideSetBuilder::new();
    /// ids.push(1 << 40)?;
    /// assert_eq!(ids.push(5), Err(Error::NotSorted(1)));
    /// # Ok::<(), Error>(())
    /// ```
    #[inline]
    pub fn push(&mut self, id: u64) -> Result<(), Error> {
        self.code.push(id)
    }

    /// Pushes all ids of a slice, or none.
    ///
    /// # Errors
    ///
    /// As [`push`](WideSetBuilder::push): `NotSorted` has the position in the set of the first id that is not above the one before it. The builder
    /// is then unchanged.
    ///
    /// ```
    /// use bitpacking::set::wide::{Error, WideSetBuilder};
    ///
    /// let mut ids = WideSetBuilder::new();
    /// ids.push_all(&[5, 6])?;
    /// assert_eq!(ids.push_all(&[1 << 40, 8]), Err(Error::NotSorted(3)));
    /// assert_eq!(ids.len(), 2);
    /// # Ok::<(), Error>(())
    /// ```
    pub fn push_all(&mut self, ids: &[u64]) -> Result<(), Error> {
        self.code.push_all(ids)
    }

    /// Pushes the ids of an iterator, up to the first that is refused.
    ///
    /// # Errors
    ///
    /// As [`push`](WideSetBuilder::push), for that id.
    ///
    /// ```
    /// use bitpacking::set::wide::{Error, WideSetBuilder};
    ///
    /// let mut ids = WideSetBuilder::new();
    /// assert_eq!(ids.extend([5, 8, 8, 9]), Err(Error::NotSorted(2)));
    /// assert_eq!(ids.pack().unpack(), [5, 8]);
    /// ```
    pub fn extend(&mut self, ids: impl IntoIterator<Item = impl Borrow<u64>>) -> Result<(), Error> {
        ids.into_iter().try_for_each(|id| self.push(*id.borrow()))
    }

    /// Returns the number of ids that were pushed.
    ///
    /// ```
    /// let mut ids = bitpacking::set::wide::WideSetBuilder::new();
    /// ids.push_all(&[5, 1 << 40])?;
    /// assert_eq!(ids.len(), 2);
    /// # Ok::<(), bitpacking::set::wide::Error>(())
    /// ```
    pub fn len(&self) -> usize {
        self.code.len()
    }

    /// Returns whether no id was pushed.
    ///
    /// ```
    /// assert!(bitpacking::set::wide::WideSetBuilder::new().is_empty());
    /// ```
    pub fn is_empty(&self) -> bool {
        self.code.is_empty()
    }

    /// Returns the last id that was pushed, or `None` if there is none. The next one has to be above it.
    ///
    /// ```
    /// let mut ids = bitpacking::set::wide::WideSetBuilder::new();
    /// ids.push(1 << 40)?;
    /// assert_eq!(ids.last(), Some(1 << 40));
    /// # Ok::<(), bitpacking::set::wide::Error>(())
    /// ```
    #[inline]
    pub fn last(&self) -> Option<u64> {
        self.code.last()
    }

    /// Returns the set of the ids. The builder retains them: more can be pushed. Allocates as [`WideSetBuf::pack`] does.
    ///
    /// ```
    /// let mut ids = bitpacking::set::wide::WideSetBuilder::new();
    /// ids.push(5)?;
    /// assert_eq!(ids.pack().as_bytes(), [9, 1, 0x61, 0, 5, 0, 0, 0]);
    /// # Ok::<(), bitpacking::set::wide::Error>(())
    /// ```
    pub fn pack(&self) -> WideSetBuf {
        WideSetBuf::pack(self.code.ids()).expect("ids that increase, and memory for the set")
    }
}

impl Default for WideSetBuilder {
    fn default() -> Self {
        WideSetBuilder::new()
    }
}

impl fmt::Debug for WideSetBuilder {
    fn fmt(&self, f: &mut fmt::Formatter<'_>) -> fmt::Result {
        f.debug_struct("WideSetBuilder").field("ids", &self.code.ids()).finish()
    }
}
