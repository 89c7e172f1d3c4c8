//! From values to the bytes of a column.

use alloc::vec::Vec;

use super::{ColumnBuf, Error, Kind};
use crate::columns::{encode, encode_to, encoded_len};

impl ColumnBuf {
    /// Packs values. Allocates the bytes of the column once, which are at most `17 * values.len() / 4 + 16`.
    ///
    /// # Errors
    ///
    /// The first of: `TooLong`, if there are more than 268,435,456 values; `NotSorted`, with the position of the first value that is below the
    /// one before it in a sorted column; `Memory`, if there is no memory for the bytes.
    ///
    /// ```
    /// use bitpacking::column::{ColumnBuf, Error, Kind};
    ///
    /// let column = ColumnBuf::pack(Kind::Sorted, &[5, 5, 9])?;
    /// // Three values from 5 on, whose differences 0 and 4 have three bits each.
    /// assert_eq!(column.as_bytes(), [0x63, 5, 3, 0x20]);
    /// assert_eq!(ColumnBuf::pack(Kind::Sorted, &[5, 5, 4]), Err(Error::NotSorted(2)));
    /// # Ok::<(), Error>(())
    /// ```
    pub fn pack(kind: Kind, values: &[u32]) -> Result<Self, Error> {
        packed(|bytes| encode(kind, values, bytes))
    }
}

/// Packs a plain column. It collects the values in a vector first, and allocates as [`ColumnBuf::pack`] does.
///
/// # Panics
///
/// If there are more than 268,435,456 values, or no memory for the bytes.
///
/// ```
/// use bitpacking::column::{ColumnBuf, Kind};
///
/// let counts: ColumnBuf = "to be or not to be".split(' ').map(|word| word.len() as u32).collect();
/// assert_eq!(counts.kind(), Kind::Plain);
/// assert_eq!(counts.unpack(), [2, 2, 2, 3, 2, 2]);
/// ```
impl FromIterator<u32> for ColumnBuf {
    fn from_iter<I: IntoIterator<Item = u32>>(values: I) -> Self {
        let values: Vec<u32> = values.into_iter().collect();
        ColumnBuf::pack(Kind::Plain, &values).unwrap_or_else(|error| panic!("{error}"))
    }
}

/// Appends the bytes of a column to a vector, and returns how many these are. The vector grows at most once.
///
/// # Errors
///
/// As [`ColumnBuf::pack`]. The vector is then unchanged.
///
/// ```
/// use bitpacking::column::{Column, Error, Kind, pack_into};
///
/// let mut file = b"prices:".to_vec();
/// let size = pack_into(Kind::Plain, &[3, 1], &mut file)?;
/// assert_eq!((size, &file[7..]), (4, &[0x42, 1, 2, 2][..]));
/// # Ok::<(), Error>(())
/// ```
pub fn pack_into(kind: Kind, values: &[u32], bytes: &mut Vec<u8>) -> Result<usize, Error> {
    let start = bytes.len();
    encode(kind, values, bytes)?;
    Ok(bytes.len() - start)
}

/// Writes the bytes of a column at the start of a slice, and returns how many these are. Bytes after them are unchanged. Allocates nothing.
///
/// `17 * values.len() / 4 + 16` bytes are always enough.
///
/// # Errors
///
/// The first of: `TooLong` and `NotSorted`, as [`ColumnBuf::pack`] returns them; `Short`, if the slice is shorter than the column. Nothing is
/// written then.
///
/// ```
/// use bitpacking::column::{Error, Kind, pack_to};
///
/// let mut page = [0; 8];
/// assert_eq!(pack_to(Kind::Plain, &[3, 1], &mut page), Ok(4));
/// assert_eq!(page, [0x42, 1, 2, 2, 0, 0, 0, 0]);
/// assert_eq!(pack_to(Kind::Plain, &[3, 1], &mut page[..3]), Err(Error::Short));
/// ```
pub fn pack_to(kind: Kind, values: &[u32], bytes: &mut [u8]) -> Result<usize, Error> {
    encode_to(kind, values, bytes)
}

/// Returns how many bytes a column has, without writing them. Allocates nothing.
///
/// # Errors
///
/// The first of `TooLong` and `NotSorted`, as [`ColumnBuf::pack`] returns them.
///
/// ```
/// use bitpacking::column::{Error, Kind, packed_len};
///
/// assert_eq!(packed_len(Kind::Sorted, &[5, 5, 9]), Ok(4));
/// assert_eq!(packed_len(Kind::Sorted, &[5, 4, 9]), Err(Error::NotSorted(1)));
/// ```
pub fn packed_len(kind: Kind, values: &[u32]) -> Result<usize, Error> {
    encoded_len(kind, values)
}

/// The column whose encoding a call appends to an empty vector.
pub(super) fn packed(call: impl FnOnce(&mut Vec<u8>) -> Result<(), Error>) -> Result<ColumnBuf, Error> {
    let mut bytes = Vec::new();
    call(&mut bytes)?;
    // SAFETY: the call packed these bytes.
    Ok(unsafe { ColumnBuf::open_unchecked(bytes) })
}
