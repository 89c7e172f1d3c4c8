//! Two sets combined, and what combines any number of them.

use alloc::vec::Vec;

use super::packing::packed;
use super::pairs::operations;
use super::{Error, IdSet, IdSetBuf};
use crate::growing::{Growing, resize};
use crate::queries;
use crate::slices::Operation;

/// The most ids for which a call makes room without counting the ids of the answer first: 16 MB.
const MOST_UNCOUNTED: usize = 1 << 22;

/// Room in bytes for a short set: to free less takes longer than to combine short sets.
const MORE: usize = 100;

/// How many ids the first set gives, combined with each other set in turn.
#[track_caller]
pub(super) fn count(operation: Operation, sets: &[&IdSet]) -> usize {
    usize::try_from(queries::combine_all_count(operation, sets)).expect("a count of ids that fits `usize`")
}

/// How many ids an operation on sets gives at most.
fn most_ids(operation: Operation, sets: &[&IdSet]) -> usize {
    let lens = sets.iter().map(|set| set.len());
    match operation {
        Operation::And => lens.min().unwrap_or(0),
        Operation::AndNot => sets.first().map_or(0, |set| set.len()),
        Operation::Or | Operation::Xor => lens.fold(0, usize::saturating_add),
    }
}

/// For how many ids a call makes room. It counts them if there may be far fewer: many sets can share most of their ids.
fn room(operation: Operation, sets: &[&IdSet]) -> usize {
    let most = most_ids(operation, sets);
    let longest = sets.iter().map(|set| set.len()).max().unwrap_or(0);
    match operation {
        Operation::Or | Operation::Xor if most > MOST_UNCOUNTED && most / 2 > longest => count(operation, sets),
        _ => most,
    }
}

/// Replaces the values of a vector by the ids of the first set, combined with each other set in turn.
pub(super) fn combine_into(operation: Operation, sets: &[&IdSet], ids: &mut Vec<u32>) {
    resize(ids, room(operation, sets));
    let len = queries::combine_all_to(operation, sets, ids).expect("room for all ids");
    ids.truncate(len);
}

/// The ids of the first set, combined with each other set in turn, in a vector with at most as much room again, and room for 32 more: to free
/// less takes longer than to combine short sets.
pub(super) fn combine(operation: Operation, sets: &[&IdSet]) -> Vec<u32> {
    let mut ids = Vec::new();
    combine_into(operation, sets, &mut ids);
    if ids.capacity() > 2 * ids.len() + 32 { ids.as_slice().to_vec() } else { ids }
}

/// The set that a call writes at the start of bytes. The call has work space for as many items, and bytes for `most`: twice as many each time that
/// it says that these are too few.
pub(super) fn written(
    items: usize,
    most: usize,
    mut call: impl FnMut(&mut [u32], &mut [u8]) -> Result<usize, Error>,
) -> Result<IdSetBuf, Error> {
    let mut room = Vec::new();
    room.try_resize(items, 0).map_err(|_| Error::Memory)?;
    packed(|bytes| {
        let mut len = most.saturating_add(MORE);
        loop {
            bytes.try_resize(len, 0).map_err(|_| Error::Memory)?;
            match call(&mut room, bytes) {
                Err(Error::Short) => len = len.saturating_mul(2),
                size => {
                    bytes.truncate(size?);
                    break;
                }
            }
        }
        if bytes.capacity() > 2 * bytes.len() + MORE {
            bytes.shrink_to_fit();
        }
        Ok(())
    })
}

/// The set of the ids of the first set, combined with each other set in turn, or `TooLong` or `Memory`.
pub(super) fn try_combine_set(operation: Operation, sets: &[&IdSet]) -> Result<IdSetBuf, Error> {
    // The answer seldom takes more bytes than the sets, and in chunks at most two for each id.
    let all = sets.iter().map(|set| set.as_bytes().len()).fold(0, usize::saturating_add);
    let most = all.min(most_ids(operation, sets).saturating_mul(2));
    written(queries::combine_room(sets), most, |room, bytes| queries::combine_all_set_to(operation, sets, room, bytes))
}

/// Two sets combined. A call that returns a set allocates as many bytes as both sets have, more if the answer has more, and 16 for each chunk, or for
/// each id of a set that is not in chunks.
impl IdSet {
    operations! { IdSetBuf of u32 in "set", "Allocates only" }

    /// The set that an operation on two sets gives. Panics if there is an error.
    #[track_caller]
    pub(super) fn combine(&self, operation: Operation, other: &IdSet) -> IdSetBuf {
        match self.try_combine(operation, other) {
            Ok(set) => set,
            Err(error) => panic!("{error}"),
        }
    }

    fn try_combine(&self, operation: Operation, other: &IdSet) -> Result<IdSetBuf, Error> {
        try_combine_set(operation, &[self, other])
    }

    fn combine_into(&self, operation: Operation, other: &IdSet, ids: &mut Vec<u32>) {
        combine_into(operation, &[self, other], ids);
    }

    fn combine_len(&self, operation: Operation, other: &IdSet) -> usize {
        queries::combine_count(operation, &self.code(), &other.code())
    }
}
