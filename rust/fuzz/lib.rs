//! Any bytes as a set, as a column and as a wide set: what opens is read by each call, with arguments from the bytes, and compared with a vector. The last two bytes
//! also cut the others in two sets, columns or wide sets, which are combined.

mod columns;
mod sets;
mod wide_sets;

use bitpacking::column::Column;
use bitpacking::set::wide::WideSet;
use bitpacking::set::{IdSet, IdSetBuf};

/// Longer sets and columns, which few bytes can have, are only read at some places.
const MOST: usize = 1 << 16;

/// How many arguments an input has at most.
const ARGUMENTS: usize = 24;

/// Numbers from the bytes: each four of them, some alone, and the ends.
fn arguments(bytes: &[u8]) -> Vec<u32> {
    let words = bytes.windows(4).step_by(bytes.len() / ARGUMENTS + 1);
    let words = words.map(|it| u32::from_le_bytes([it[0], it[1], it[2], it[3]]));
    let singles = bytes.iter().take(ARGUMENTS).map(|it| u32::from(*it));
    words.chain(singles).chain([0, u32::MAX]).collect()
}

/// The bytes before the last two, cut in two by these.
fn cut(bytes: &[u8]) -> Option<(&[u8], &[u8])> {
    let (rest, at) = bytes.split_last_chunk::<2>()?;
    rest.split_at_checked(u16::from_le_bytes(*at) as usize)
}

/// # Safety
///
/// There are `len` bytes at `bytes`.
#[unsafe(no_mangle)]
pub unsafe extern "C" fn LLVMFuzzerTestOneInput(bytes: *const u8, len: usize) -> i32 {
    // SAFETY: the caller has the bytes.
    let bytes = if len == 0 { &[] } else { unsafe { core::slice::from_raw_parts(bytes, len) } };
    let given = arguments(bytes);
    if let Ok(set) = IdSet::open(bytes) {
        sets::read(&set, &given);
    }
    if let Ok(set) = IdSetBuf::from_roaring(bytes) {
        assert!(IdSet::open(set.as_bytes()).is_ok());
        sets::read(&set, &given);
    }
    if let Ok(column) = Column::open(bytes) {
        columns::read(&column, &given);
    }
    if let Ok(set) = WideSet::open(bytes) {
        let pairs = given.windows(2).map(|it| (u64::from(it[0]) << 32) | u64::from(it[1]));
        wide_sets::read(&set, &pairs.collect::<Vec<u64>>());
    }
    if let Some((one, other)) = cut(bytes) {
        if let (Ok(one), Ok(other)) = (IdSet::open(one), IdSet::open(other)) {
            sets::combine(&one, &other, &given);
        }
        if let (Ok(one), Ok(other)) = (Column::open(one), Column::open(other)) {
            columns::combine(&one, &other, &given);
        }
        if let (Ok(one), Ok(other)) = (WideSet::open(one), WideSet::open(other)) {
            wide_sets::combine(&one, &other);
        }
    }
    0
}
