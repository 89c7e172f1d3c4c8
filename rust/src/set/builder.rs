//! Sets whose ids come one after the other.

use alloc::vec::Vec;
use core::borrow::Borrow;

use super::packing::packed;
use super::{Error, IdSetBuf};
use crate::sets;

/// The most ids of a set.
const MOST: usize = 1 << 28;

/// Collects increasing ids one by one, and then packs them.
///
/// A vector has the ids, 4 bytes for each, since the encoding of a set begins with their number. An id that is out of order is refused when it is
/// pushed, and the builder is then unchanged.
///
/// ```
/// use bitpacking::set::{Error, SetBuilder};
///
/// let mut ids = SetBuilder::new();
/// ids.push(7)?;
/// ids.extend(9..12)?;
/// assert_eq!(ids.push(11), Err(Error::NotSorted(4)));
/// assert_eq!(ids.pack().unpack(), [7, 9, 10, 11]);
/// # Ok::<(), Error>(())
/// ```
#[derive(Clone, Debug, Default)]
pub struct SetBuilder {
    ids: Vec<u32>,
}

impl SetBuilder {
    /// Returns a builder without ids. Allocates nothing.
    ///
    /// ```
    /// assert!(bitpacking::set::SetBuilder::new().is_empty());
    /// ```
    pub const fn new() -> Self {
        SetBuilder { ids: Vec::new() }
    }

    /// Pushes an id.
    ///
    /// # Errors
    ///
    /// The first of: `TooLong`, if there are 268,435,456 ids; `NotSorted`, with the number of ids so far, if the id is not above the last one.
    /// The builder is then unchanged.
    ///
    /// ```
    /// use bitpacking::set::{Error, SetBuilder};
    ///
    /// let mut ids = SetBuilder::new();
    /// ids.push(5)?;
    /// assert_eq!(ids.push(5), Err(Error::NotSorted(1)));
    /// ids.push(6)?;
    /// # Ok::<(), Error>(())
    /// ```
    #[inline]
    pub fn push(&mut self, id: u32) -> Result<(), Error> {
        // REQUIRES: the ids of the builder are a set, as each was tested before it was pushed.
        sets::test_pushed(&self.ids, &[id])?;
        self.ids.push(id);
        Ok(())
    }

    /// Pushes the ids of an iterator, up to the first that is refused.
    ///
    /// # Errors
    ///
    /// As [`push`](SetBuilder::push), for that id.
    ///
    /// ```
    /// use bitpacking::set::{Error, SetBuilder};
    ///
    /// let mut ids = SetBuilder::new();
    /// ids.extend(&[2, 3])?;
    /// assert_eq!(ids.extend([5, 8, 8, 9]), Err(Error::NotSorted(4)));
    /// assert_eq!(ids.pack().unpack(), [2, 3, 5, 8]);
    /// # Ok::<(), Error>(())
    /// ```
    pub fn extend(&mut self, ids: impl IntoIterator<Item = impl Borrow<u32>>) -> Result<(), Error> {
        let ids = ids.into_iter();
        self.ids.reserve(ids.size_hint().0.min(MOST - self.ids.len()));
        for id in ids {
            self.push(*id.borrow())?;
        }
        Ok(())
    }

    /// Returns the number of ids that were pushed.
    ///
    /// ```
    /// let mut ids = bitpacking::set::SetBuilder::new();
    /// ids.extend([6, 7])?;
    /// assert_eq!(ids.len(), 2);
    /// # Ok::<(), bitpacking::set::Error>(())
    /// ```
    pub fn len(&self) -> usize {
        self.ids.len()
    }

    /// Returns whether no id was pushed.
    ///
    /// ```
    /// assert!(bitpacking::set::SetBuilder::new().is_empty());
    /// ```
    pub fn is_empty(&self) -> bool {
        self.ids.is_empty()
    }

    /// Returns the last id that was pushed, or `None` if there is none. The next one has to be above it.
    ///
    /// ```
    /// let mut ids = bitpacking::set::SetBuilder::new();
    /// ids.push(6)?;
    /// assert_eq!(ids.last(), Some(6));
    /// # Ok::<(), bitpacking::set::Error>(())
    /// ```
    #[inline]
    pub fn last(&self) -> Option<u32> {
        self.ids.last().copied()
    }

    /// Drops the ids. The memory is used again for the ids of the next set.
    ///
    /// ```
    /// use bitpacking::set::SetBuilder;
    ///
    /// let (mut sets, mut ids) = (Vec::new(), SetBuilder::new());
    /// for word in [[4, 7], [1, 9]] {
    ///     ids.clear();
    ///     ids.extend(word)?;
    ///     sets.push(ids.pack());
    /// }
    /// assert_eq!(sets[1].unpack(), [1, 9]);
    /// # Ok::<(), bitpacking::set::Error>(())
    /// ```
    pub fn clear(&mut self) {
        self.ids.clear();
    }

    /// Returns the set of the ids. The builder retains them: more can be pushed. Allocates the bytes of the encoding.
    ///
    /// ```
    /// use bitpacking::set::SetBuilder;
    ///
    /// let mut ids = SetBuilder::new();
    /// ids.extend([7, 9, 10, 300])?;
    /// assert_eq!(ids.pack().as_bytes(), [0x84, 7, 9, 1, 0, 0x84, 4]);
    /// # Ok::<(), bitpacking::set::Error>(())
    /// ```
    pub fn pack(&self) -> IdSetBuf {
        packed(|bytes| sets::encode(&self.ids, bytes)).expect("ids that increase, and memory for the set")
    }
}
