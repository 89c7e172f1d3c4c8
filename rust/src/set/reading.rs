//! What a set has.

use alloc::vec::Vec;

use super::{Description, IdSet};
use crate::growing::resize;

impl IdSet {
    /// Returns the number of ids, at most 268,435,456.
    ///
    /// ```
    /// use bitpacking::set::IdSetBuf;
    ///
    /// assert_eq!(IdSetBuf::pack(&[1, 4, 6, 9])?.len(), 4);
    /// # Ok::<(), bitpacking::set::Error>(())
    /// ```
    #[inline]
    pub fn len(&self) -> usize {
        self.code().len()
    }

    /// Returns what the set is like: how many ids and bytes it has, how many chunks, and how many of these have a body of each form. Looks at each
    /// chunk, and allocates nothing.
    ///
    /// ```
    /// use bitpacking::set::IdSetBuf;
    ///
    /// let mut ids: IdSetBuf = (0..65_536).step_by(3).collect();
    /// ids.insert_range(65_536..200_000)?;
    /// let it = ids.describe();
    /// assert_eq!((it.ids, it.bytes == ids.as_bytes().len()), (156_310, true));
    /// assert_eq!((it.chunks, it.numbers, it.blocks, it.runs), (4, 0, 1, 3));
    /// # Ok::<(), bitpacking::set::Error>(())
    /// ```
    pub fn describe(&self) -> Description {
        self.code().describe()
    }

    /// Returns whether there is no id.
    ///
    /// ```
    /// use bitpacking::set::IdSetBuf;
    ///
    /// assert!(IdSetBuf::default().is_empty());
    /// ```
    #[inline]
    pub fn is_empty(&self) -> bool {
        self.code().is_empty()
    }

    /// Returns whether the set has an id. Looks into one chunk of up to 65,536 ids, which it finds by halving.
    ///
    /// ```
    /// use bitpacking::set::IdSetBuf;
    ///
    /// let ids = IdSetBuf::pack(&[1, 4, 6, 9])?;
    /// assert!(ids.contains(6) && !ids.contains(7));
    /// # Ok::<(), bitpacking::set::Error>(())
    /// ```
    #[inline]
    pub fn contains(&self, id: u32) -> bool {
        self.code().contains(id)
    }

    /// Returns how many ids are **below** `id`: its position, if the set has it. In `roaring` and CRoaring `rank` also counts `id` itself, if the set
    /// has it.
    ///
    /// ```
    /// use bitpacking::set::IdSetBuf;
    ///
    /// let ids = IdSetBuf::pack(&[1, 4, 6, 9])?;
    /// assert_eq!((ids.rank(0), ids.rank(6), ids.rank(7)), (0, 2, 3));
    /// # Ok::<(), bitpacking::set::Error>(())
    /// ```
    #[inline]
    pub fn rank(&self, id: u32) -> usize {
        self.code().rank(id)
    }

    /// Returns the id at a position, or `None` if the position is not below [`len`](IdSet::len). Positions begin at 0.
    ///
    /// ```
    /// use bitpacking::set::IdSetBuf;
    ///
    /// let ids = IdSetBuf::pack(&[1, 4, 6, 9])?;
    /// assert_eq!((ids.select(2), ids.select(4)), (Some(6), None));
    /// # Ok::<(), bitpacking::set::Error>(())
    /// ```
    #[inline]
    pub fn select(&self, position: usize) -> Option<u32> {
        self.code().select(position)
    }

    /// Returns the position and the value of the first id that is at least `target`, or `None` if all ids are below it.
    ///
    /// ```
    /// use bitpacking::set::IdSetBuf;
    ///
    /// let ids = IdSetBuf::pack(&[1, 4, 6, 9])?;
    /// assert_eq!((ids.seek(5), ids.seek(6), ids.seek(10)), (Some((2, 6)), Some((2, 6)), None));
    /// # Ok::<(), bitpacking::set::Error>(())
    /// ```
    #[inline]
    pub fn seek(&self, target: u32) -> Option<(usize, u32)> {
        self.code().seek(target)
    }

    /// Returns the least id, or `None` if there is none.
    ///
    /// ```
    /// use bitpacking::set::IdSetBuf;
    ///
    /// assert_eq!(IdSetBuf::pack(&[1, 4, 6, 9])?.min(), Some(1));
    /// # Ok::<(), bitpacking::set::Error>(())
    /// ```
    pub fn min(&self) -> Option<u32> {
        self.select(0)
    }

    /// Returns the greatest id, or `None` if there is none.
    ///
    /// ```
    /// use bitpacking::set::IdSetBuf;
    ///
    /// assert_eq!(IdSetBuf::pack(&[1, 4, 6, 9])?.max(), Some(9));
    /// # Ok::<(), bitpacking::set::Error>(())
    /// ```
    pub fn max(&self) -> Option<u32> {
        self.select(self.len().checked_sub(1)?)
    }

    /// Returns all ids, in increasing order. Allocates 4 bytes for each.
    ///
    /// ```
    /// use bitpacking::set::IdSetBuf;
    ///
    /// assert_eq!(IdSetBuf::pack(&[1, 4, 6, 9])?.unpack(), [1, 4, 6, 9]);
    /// # Ok::<(), bitpacking::set::Error>(())
    /// ```
    pub fn unpack(&self) -> Vec<u32> {
        let mut ids = Vec::new();
        self.unpack_into(&mut ids);
        ids
    }

    /// Replaces the values of a vector by all ids, in increasing order. Allocates only if the capacity of the vector is below
    /// [`len`](IdSet::len).
    ///
    /// ```
    /// use bitpacking::set::IdSetBuf;
    ///
    /// let sets = [IdSetBuf::pack(&[1, 4, 6, 9])?, IdSetBuf::pack(&[2])?];
    /// let (mut ids, mut sum) = (Vec::new(), 0);
    /// for set in &sets {
    ///     set.unpack_into(&mut ids);
    ///     sum += ids.iter().sum::<u32>();
    /// }
    /// assert_eq!((ids, sum), (vec![2], 22));
    /// # Ok::<(), bitpacking::set::Error>(())
    /// ```
    pub fn unpack_into(&self, ids: &mut Vec<u32>) {
        resize(ids, self.len());
        // REQUIRES: there is room for all ids: the vector is as long as the set.
        self.code().copy_to(ids);
    }

    /// Writes the ids from position `from` on at the start of a slice, until it is full or the set ends, and returns their number. The rest of
    /// the slice is unchanged. Unpacks only chunks that have such ids.
    ///
    /// ```
    /// use bitpacking::set::IdSetBuf;
    ///
    /// let ids = IdSetBuf::pack(&[1, 4, 6, 9])?;
    /// let mut page = [0; 3];
    /// assert_eq!((ids.unpack_range(2, &mut page), page), (2, [6, 9, 0]));
    /// # Ok::<(), bitpacking::set::Error>(())
    /// ```
    pub fn unpack_range(&self, from: usize, ids: &mut [u32]) -> usize {
        self.code().copy_range(from, ids)
    }

    /// Writes the encoding, all of [`as_bytes`](IdSet::as_bytes), to a writer. A set has no end mark: its reader has to know its length in bytes.
    ///
    /// # Errors
    ///
    /// As the writer.
    ///
    /// ```
    /// use bitpacking::set::IdSetBuf;
    ///
    /// let mut file = Vec::new();
    /// IdSetBuf::pack(&[7, 9, 10, 300])?.write_to(&mut file)?;
    /// assert_eq!(file, [0x84, 7, 9, 1, 0, 0x84, 4]);
    /// # Ok::<(), std::io::Error>(())
    /// ```
    #[cfg(feature = "std")]
    pub fn write_to(&self, mut writer: impl std::io::Write) -> std::io::Result<()> {
        writer.write_all(self.as_bytes())
    }
}
