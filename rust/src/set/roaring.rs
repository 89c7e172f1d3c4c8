//! Bitmaps in Roaring's portable format, as sets; and the bitmap of a set.

use alloc::vec::Vec;

use super::packing::packed;
use super::{Error, IdSet, IdSetBuf};
use crate::growing::Growing;
use crate::roaring;

impl IdSetBuf {
    /// Returns the set of the ids of a bitmap in Roaring's portable format, as `roaring_bitmap_portable_serialize` of CRoaring and `serialize_into` of the
    /// crate `roaring` write it. All bytes are tested, so they may come from a file or from another machine. Allocates the bytes of the set, or at first
    /// five quarters of the bytes of the bitmap, and 16 bytes for each container while it runs.
    ///
    /// # Errors
    ///
    /// The first fault of bytes that are no bitmap: `Short`, `BadVersion` (no cookie of Roaring), `BadNumber` (too many containers), `BadKey`,
    /// `BadOffset`, `NotSorted`, `BadBody` or `Trailing`; `TooLong`, if there are more than 268,435,456 ids; `Memory`. What `Display` shows calls a
    /// container a chunk, and a cookie the first byte of a set.
    ///
    /// ```
    /// use bitpacking::set::{Error, IdSetBuf};
    ///
    /// // 0 to 9 as a run.
    /// let bytes = [0x3B, 0x30, 0, 0, 1, 0, 0, 9, 0, 1, 0, 0, 0, 9, 0];
    /// assert!(IdSetBuf::from_roaring(&bytes)?.iter().eq(0..10));
    /// assert_eq!(IdSetBuf::from_roaring(&bytes[..14]).err(), Some(Error::Short));
    /// # Ok::<(), Error>(())
    /// ```
    pub fn from_roaring(bytes: &[u8]) -> Result<IdSetBuf, Error> {
        let mut room = Vec::new();
        room.try_resize(roaring::roaring_room(bytes)?, 0).map_err(|_| Error::Memory)?;
        packed(|set| {
            // Arrays and bits take at most a quarter more as chunks. Few runs may take more bytes as blocks.
            set.try_resize(bytes.len() / 4 * 5 + 16, 0).map_err(|_| Error::Memory)?;
            let mut len = roaring::fill_from_roaring(bytes, &mut room, set)?;
            if len > set.len() {
                set.try_resize(len, 0).map_err(|_| Error::Memory)?;
                len = roaring::fill_from_roaring(bytes, &mut room, set)?;
            }
            set.truncate(len);
            set.shrink_to_fit();
            Ok(())
        })
    }
}

impl IdSet {
    /// Returns the length in bytes of the ids as a bitmap in Roaring's portable format: as many as `roaring_bitmap_portable_serialize` of CRoaring
    /// writes after `roaring_bitmap_run_optimize`. Allocates nothing.
    ///
    /// ```
    /// use bitpacking::set::IdSetBuf;
    ///
    /// // A run takes 15 bytes.
    /// assert_eq!(IdSetBuf::from_iter(0..10).roaring_len(), 15);
    /// assert_eq!(IdSetBuf::pack(&[3, 7, 65536])?.roaring_len(), 30);
    /// # Ok::<(), bitpacking::set::Error>(())
    /// ```
    pub fn roaring_len(&self) -> usize {
        roaring::roaring_len(&self.code())
    }

    /// Returns the ids as a bitmap in Roaring's portable format: the bytes that `roaring_bitmap_portable_serialize` of CRoaring writes after
    /// `roaring_bitmap_run_optimize`. `deserialize_from` of the crate `roaring` reads them. Allocates these, or at first up to three times as many as the
    /// set has.
    ///
    /// # Errors
    ///
    /// `Memory`.
    ///
    /// ```
    /// use bitpacking::set::{Error, IdSetBuf};
    ///
    /// // 0 to 9 as a run.
    /// let bytes = IdSetBuf::from_iter(0..10).to_roaring()?;
    /// assert_eq!(bytes, [0x3B, 0x30, 0, 0, 1, 0, 0, 9, 0, 1, 0, 0, 0, 9, 0]);
    /// # Ok::<(), Error>(())
    /// ```
    pub fn to_roaring(&self) -> Result<Vec<u8>, Error> {
        let (set, mut bytes) = (self.code(), Vec::new());
        // To measure the bitmap takes longer than room that is enough for it, unless that is far more than the set takes.
        let most = 8 + 9 * set.places() + (2 * self.len()).min(8192 * set.places());
        let room = if most <= 3 * self.as_bytes().len() { most } else { self.roaring_len() };
        bytes.try_resize(room, 0).map_err(|_| Error::Memory)?;
        let len = roaring::set_to_roaring(&set, &mut bytes);
        bytes.truncate(len);
        bytes.shrink_to_fit();
        Ok(bytes)
    }
}
