//! What a wide set has.

use alloc::vec::Vec;

use super::{IdSetBuf, WideSet};
use crate::growing::resize;
use crate::set::IdSet;

impl WideSet {
    /// Returns the number of ids, at most 268,435,456.
    ///
    /// ```
    /// use bitpacking::set::wide::WideSetBuf;
    ///
    /// assert_eq!(WideSetBuf::pack(&[5, 1 << 40])?.len(), 2);
    /// # Ok::<(), bitpacking::set::wide::Error>(())
    /// ```
    #[inline]
    pub fn len(&self) -> usize {
        self.code().len()
    }

    /// Returns whether there is no id.
    ///
    /// ```
    /// use bitpacking::set::wide::WideSetBuf;
    ///
    /// assert!(WideSetBuf::default().is_empty());
    /// ```
    #[inline]
    pub fn is_empty(&self) -> bool {
        self.code().is_empty()
    }

    /// Returns whether the set has an id. Finds one chunk of an id set by halving, or at most two blocks of 128 high words, and looks into these.
    ///
    /// ```
    /// use bitpacking::set::wide::WideSetBuf;
    ///
    /// let ids = WideSetBuf::pack(&[5, 1 << 40])?;
    /// assert!(ids.contains(1 << 40) && !ids.contains(6));
    /// # Ok::<(), bitpacking::set::wide::Error>(())
    /// ```
    #[inline]
    pub fn contains(&self, id: u64) -> bool {
        self.code().contains(id)
    }

    /// Returns how many ids are **below** `id`: its position, if the set has it. It takes as long as [`contains`](WideSet::contains).
    ///
    /// ```
    /// use bitpacking::set::wide::WideSetBuf;
    ///
    /// let ids = WideSetBuf::pack(&[5, 1 << 40])?;
    /// assert_eq!((ids.rank(5), ids.rank(6), ids.rank(u64::MAX)), (0, 1, 2));
    /// # Ok::<(), bitpacking::set::wide::Error>(())
    /// ```
    #[inline]
    pub fn rank(&self, id: u64) -> usize {
        self.code().rank(id)
    }

    /// Returns the id at a position, or `None` if the position is not below [`len`](WideSet::len). Positions begin at 0.
    ///
    /// ```
    /// use bitpacking::set::wide::WideSetBuf;
    ///
    /// let ids = WideSetBuf::pack(&[5, 1 << 40])?;
    /// assert_eq!((ids.select(1), ids.select(2)), (Some(1 << 40), None));
    /// # Ok::<(), bitpacking::set::wide::Error>(())
    /// ```
    #[inline]
    pub fn select(&self, position: usize) -> Option<u64> {
        self.code().select(position)
    }

    /// Returns the position and the value of the first id that is at least `target`, or `None` if all ids are below it.
    ///
    /// ```
    /// use bitpacking::set::wide::WideSetBuf;
    ///
    /// let ids = WideSetBuf::pack(&[5, 1 << 40])?;
    /// assert_eq!((ids.seek(6), ids.seek(u64::MAX)), (Some((1, 1 << 40)), None));
    /// # Ok::<(), bitpacking::set::wide::Error>(())
    /// ```
    #[inline]
    pub fn seek(&self, target: u64) -> Option<(usize, u64)> {
        self.code().seek(target)
    }

    /// Returns the least id, or `None` if there is none.
    ///
    /// ```
    /// use bitpacking::set::wide::WideSetBuf;
    ///
    /// assert_eq!(WideSetBuf::pack(&[5, 1 << 40])?.min(), Some(5));
    /// # Ok::<(), bitpacking::set::wide::Error>(())
    /// ```
    pub fn min(&self) -> Option<u64> {
        self.select(0)
    }

    /// Returns the greatest id, or `None` if there is none.
    ///
    /// ```
    /// use bitpacking::set::wide::WideSetBuf;
    ///
    /// assert_eq!(WideSetBuf::pack(&[5, 1 << 40])?.max(), Some(1 << 40));
    /// # Ok::<(), bitpacking::set::wide::Error>(())
    /// ```
    pub fn max(&self) -> Option<u64> {
        self.select(self.len().checked_sub(1)?)
    }

    /// Returns all ids, in increasing order. Allocates 8 bytes for each.
    ///
    /// ```
    /// use bitpacking::set::wide::WideSetBuf;
    ///
    /// assert_eq!(WideSetBuf::pack(&[5, 1 << 40])?.unpack(), [5, 1 << 40]);
    /// # Ok::<(), bitpacking::set::wide::Error>(())
    /// ```
    pub fn unpack(&self) -> Vec<u64> {
        let mut ids = Vec::new();
        self.unpack_into(&mut ids);
        ids
    }

    /// Replaces the values of a vector by all ids, in increasing order. Allocates only if the capacity of the vector is below
    /// [`len`](WideSet::len).
    ///
    /// ```
    /// use bitpacking::set::wide::WideSetBuf;
    ///
    /// let mut ids = vec![7; 1000];
    /// WideSetBuf::pack(&[5, 1 << 40])?.unpack_into(&mut ids);
    /// assert_eq!(ids, [5, 1 << 40]);
    /// # Ok::<(), bitpacking::set::wide::Error>(())
    /// ```
    pub fn unpack_into(&self, ids: &mut Vec<u64>) {
        resize(ids, self.len());
        // REQUIRES: there is room for all ids: the vector is as long as the set.
        self.code().copy_to(ids);
    }

    /// Writes the ids from position `from` on at the start of a slice, until it is full or the set ends, and returns their number. The rest of
    /// the slice is unchanged. Unpacks only blocks and chunks that have such ids.
    ///
    /// ```
    /// use bitpacking::set::wide::WideSetBuf;
    ///
    /// let ids = WideSetBuf::pack(&[5, 6, 1 << 40])?;
    /// let mut page = [0; 3];
    /// assert_eq!((ids.unpack_range(1, &mut page), page), (2, [6, 1 << 40, 0]));
    /// # Ok::<(), bitpacking::set::wide::Error>(())
    /// ```
    pub fn unpack_range(&self, from: usize, ids: &mut [u64]) -> usize {
        self.code().copy_range(from, ids)
    }

    /// Returns the ids whose high 32 bits are `high` as the id set of their low 32 bits. It borrows the bytes of this set. Looks at each chunk of that
    /// id set, and allocates nothing.
    ///
    /// It is `None` if there is no such id. It is also `None` if this set has on average fewer than 8 ids for each different value of the high 32
    /// bits: its bytes have no id sets then, and [`range`](WideSet::range) finds the ids.
    ///
    /// ```
    /// use bitpacking::set::wide::WideSetBuf;
    ///
    /// // An id has the number of a shop, 3 or 8, in its high 32 bits, and the number of an order in its low ones.
    /// let orders: WideSetBuf = [3, 8].into_iter().flat_map(|shop| (100..200).map(move |order| (shop << 32) + order)).collect();
    /// let shop = orders.part(8).unwrap();
    /// assert_eq!((shop.len(), shop.min(), shop.contains(150)), (100, Some(100), true));
    /// assert!(orders.part(4).is_none());
    ///
    /// let few = WideSetBuf::from([(8 << 32) + 150]);
    /// assert!(few.part(8).is_none());
    /// assert_eq!(few.range(8 << 32..9 << 32).map(|id| id as u32).collect::<Vec<u32>>(), [150]);
    /// ```
    pub fn part(&self, high: u32) -> Option<IdSetBuf<&[u8]>> {
        let part = self.code().part(high)?;
        // The proved set does not return its bytes: they are as many as it says, and end with what is after its counts.
        let end = part.parts().rest.as_ptr_range().end.addr() - self.as_bytes().as_ptr().addr();
        let bytes = &self.as_bytes()[end - part.describe().bytes..end];
        // SAFETY: they were tested when this set was opened.
        Some(unsafe { IdSet::open_unchecked(bytes) })
    }

    /// Writes the encoding, all of [`as_bytes`](WideSet::as_bytes), to a writer. A set has no end mark: its reader has to know its length in bytes.
    ///
    /// # Errors
    ///
    /// As the writer.
    ///
    /// ```
    /// use bitpacking::set::wide::WideSetBuf;
    ///
    /// let mut file = Vec::new();
    /// WideSetBuf::pack(&[5])?.write_to(&mut file)?;
    /// assert_eq!(file, [9, 1, 0x61, 0, 5, 0, 0, 0]);
    /// # Ok::<(), std::io::Error>(())
    /// ```
    #[cfg(feature = "std")]
    pub fn write_to(&self, mut writer: impl std::io::Write) -> std::io::Result<()> {
        writer.write_all(self.as_bytes())
    }
}
