//! What each call allocates, as its comment says: how often, and how many bytes.

use alloc::borrow::ToOwned;
use alloc::vec::Vec;
use core::cell::Cell;
use core::hint::black_box;
use std::alloc::{GlobalAlloc, Layout, System};

use crate::chain::{Kind as ChainKind, pack_all, unpack_all};
use crate::column::{self, Column, ColumnBuf, ColumnBuilder, Kind};
use crate::ranked::{Scored, Term, best, best_among};
use crate::ranking;
use crate::set::wide::{WideSet, WideSetBuf, WideSetBuilder};
use crate::set::{self, IdSet, IdSetBuf, Query, SetBuilder};
use crate::{BitPacker4x, Pack};

std::thread_local! {
    /// How often this thread allocated, or made an allocation larger, and the bytes that it asked for.
    static COUNTED: Cell<(usize, usize)> = const { Cell::new((0, 0)) };
}

/// The allocator of the system, which counts.
struct Counting;

fn count(bytes: usize) {
    COUNTED.set((COUNTED.get().0 + 1, COUNTED.get().1 + bytes));
}

// SAFETY: the allocator of the system does what is asked.
unsafe impl GlobalAlloc for Counting {
    unsafe fn alloc(&self, layout: Layout) -> *mut u8 {
        count(layout.size());
        // SAFETY: as the caller promises.
        unsafe { System.alloc(layout) }
    }

    unsafe fn alloc_zeroed(&self, layout: Layout) -> *mut u8 {
        count(layout.size());
        // SAFETY: as the caller promises.
        unsafe { System.alloc_zeroed(layout) }
    }

    unsafe fn realloc(&self, at: *mut u8, layout: Layout, size: usize) -> *mut u8 {
        count(size);
        // SAFETY: as the caller promises.
        unsafe { System.realloc(at, layout, size) }
    }

    unsafe fn dealloc(&self, at: *mut u8, layout: Layout) {
        // SAFETY: as the caller promises.
        unsafe { System.dealloc(at, layout) }
    }
}

#[global_allocator]
static ALLOCATOR: Counting = Counting;

/// Runs a call, and tests how often it allocates at most, and how many bytes.
fn within<R>(times: usize, bytes: usize, name: &str, call: impl FnOnce() -> R) {
    COUNTED.set((0, 0));
    let result = black_box(call());
    let found = COUNTED.get();
    drop(result);
    let is_within = found.0 <= times && found.1 <= bytes;
    assert!(is_within, "{name} allocates {found:?}, and may {:?}", (times, bytes));
}

/// The bytes of a vector of ids, and of one of bytes: the least that the standard library allocates are 16 and 8.
fn ids_of(len: usize) -> usize {
    4 * len.max(4)
}

fn octets(bytes: &[u8]) -> usize {
    bytes.len().max(8)
}

/// Calls, each with how often it may allocate, and how many bytes.
macro_rules! each {
    ($($times:expr, $bytes:expr => $call:expr;)*) => { $(within($times, $bytes, stringify!($call), || $call);)* };
}

/// Calls that allocate nothing.
macro_rules! nothing {
    ($($call:expr;)*) => { each! { $(0, 0 => $call;)* } };
}

/// Ids with gaps of this size.
fn spread(len: u32, step: u32) -> IdSetBuf {
    (0..len).map(|k| k * step).collect()
}

/// Sets of all forms: of no ids, few ids, an array, numbers, blocks, numbers in many chunks, half of all ids of two chunks, and runs.
fn sets() -> [IdSetBuf; 8] {
    [(0, 1), (100, 7), (400, 1 << 20), (1000, 300), (5000, 3), (6000, 9001), (2 << 15, 2), (100_000, 1)]
        .map(|(len, step)| spread(len, step))
}

fn columns() -> Vec<ColumnBuf> {
    let lens = [0, 1, 31, 128, 300, 10_000];
    let all = lens.map(|len| (0..len).map(|k| 7 * k + k % 5).collect::<Vec<u32>>());
    all.iter().flat_map(|it| [Kind::Plain, Kind::Sorted].map(|kind| ColumnBuf::pack(kind, it).unwrap())).collect()
}

#[test]
fn bitmaps() {
    for set in sets() {
        let (bitmap, bytes) = (set.to_roaring().unwrap(), set.as_bytes().len());
        let containers = set.unpack().chunk_by(|one, other| one >> 16 == other >> 16).count();
        assert_eq!(IdSetBuf::from_roaring(&bitmap).unwrap().into_bytes().capacity(), bytes);
        nothing! { set.roaring_len(); }
        each! {
            2, bitmap.len() + bitmap.len().max(3 * bytes) => set.to_roaring();
            3, 16 * containers + bitmap.len() / 4 * 5 + 16 + bytes => IdSetBuf::from_roaring(&bitmap);
        }
    }
}

#[test]
fn reading_a_set() {
    for set in sets() {
        let set: &IdSet = &set;
        let (bytes, len, last) = (set.as_bytes(), set.len(), set.max().unwrap_or(0));
        let (middle, mut page, mut ids) = (last / 2, [0; 300], Vec::with_capacity(len + 3));
        nothing! {
            IdSet::open(bytes).unwrap().len();
            // SAFETY: these bytes were opened before.
            unsafe { IdSet::open_unchecked(bytes) }.len();
            (set.len(), set.is_empty(), set.min(), set.max());
            (set.contains(middle), set.rank(middle), set.select(len / 2), set.seek(middle));
            set.unpack_range(len / 3, &mut page);
            set.unpack_into(&mut ids);
            set.iter().map(u64::from).sum::<u64>();
            set.iter().rev().take(999).count();
            set.range(middle..).step_by(99).count();
            { let mut iter = set.iter(); iter.next(); iter.advance_to(middle); iter.next_back() };
            { let mut cursor = set.cursor(); cursor.seek(middle); cursor.advance() };
            set.write_to(std::io::sink());
            set::packed_len(&ids);
        }
        let query = Query::from(set);
        // A set alone.
        nothing! {
            query.ids().unwrap().take(1000).count();
            query.ids().unwrap().seek(middle);
            query.count();
            query.unpack_into(&mut ids);
        }
        each! {
            1, 4 * len => set.unpack();
            1, bytes.len() => set.to_owned();
            1, octets(bytes) => IdSetBuf::pack(&ids);
        }
    }
}

/// Whatever two sets of these have in common.
#[test]
fn combining_sets() {
    let sets = sets();
    for one in &sets {
        for other in &sets {
            let (one, other): (&IdSet, &IdSet) = (one, other);
            let [and, or, not, xor] = [one & other, one | other, one - other, one ^ other];
            // Work space, room for the bytes of both, twice and four times that if the answer has more, and for its bytes if it has far fewer.
            let room =
                16 * (one.code().places() + other.code().places()) + 7 * (one.as_bytes().len() + other.as_bytes().len() + 100);
            let set_of = |answer: &IdSet| room + 2 * octets(answer.as_bytes());
            let mut ids = Vec::with_capacity(one.len() + other.len());
            nothing! {
                (one.intersect_len(other), one.unite_len(other), one.subtract_len(other), one.symmetric_difference_len(other));
                (one.is_subset(other), one.is_disjoint(other), one.jaccard(other), one < other);
                (one.describe(), one.count_between(7..), one.contains_range(..9), set::symmetric_difference_all_len(&[one, other, one]));
                (one.intersect_into(other, &mut ids), one.symmetric_difference_into(other, &mut ids));
                (one.subtract_into(other, &mut ids), one.unite_into(other, &mut ids));
                other.retain_in(&mut ids);
                one.add_to(&mut ids);
                other.remove_from(&mut ids);
                (set::intersect_all_len(&[one, other, one]), set::unite_all_len(&[one, other, one]), set::subtract_all_len(&[one, other]));
                { set::unite_all_into(&[one, other], &mut ids); set::subtract_all_into(&[one, other, other], &mut ids) };
                set::intersect_all_into(&[one, other, one], &mut ids);
            }
            each! {
                5, set_of(&and) => one.intersect(other);
                5, set_of(&or) => one | other;
                5, set_of(&not) => one.subtract(other);
                5, set_of(&xor) => one ^ other;
                // A shorter answer is copied.
                2, 4 * (one.len().min(other.len()) + and.len()) => set::intersect_all(&[one, other]);
                2, 4 * (one.len() + other.len() + or.len()) => set::unite_all(&[one, other]);
                2, 4 * (one.len() + not.len()) => set::subtract_all(&[one, other]);
            }
            // Two operands wait at once, and three in the second query.
            let query = Query::from(one) | other;
            let more = Query::from(one) - (Query::from(other) & one);
            each! {
                1, 2 * 8192 => query.ids().unwrap().take(1000).count();
                1, 2 * 8192 => query.unpack_into(&mut ids);
                1, 3 * 8192 => more.count();
                6, set_of(&or) + 2 * 8192 => query.pack().unwrap();
                6, set_of(&not) + room + 3 * 8192 => more.pack().unwrap();
                6, set_of(&or) + room => IdSetBuf::unite_all(&[one, other, one]);
            }
        }
    }
}

#[test]
fn packing_a_set() {
    for set in sets() {
        let (ids, len) = (set.unpack(), octets(set.as_bytes()));
        let (mut room, mut file) = (std::vec![0; len], Vec::with_capacity(len));
        let mut builder = SetBuilder::new();
        builder.extend(&ids).unwrap();
        nothing! {
            (SetBuilder::new(), set::packed_len(&ids));
            set::pack_to(&ids, &mut room);
            set::pack_into(&ids, &mut file);
            { builder.clear(); builder.extend(&ids) };
        }
        each! {
            1, 2 * len => set::pack_into(&ids, &mut file);
            1, len => builder.pack();
            1, ids_of(ids.len()) => SetBuilder::new().extend(&ids);
            2, ids_of(ids.len()) + len => ids.iter().copied().rev().collect::<IdSetBuf>();
        }
    }
}

/// Of no ids, few, hashes, and many with the same high word.
#[test]
fn wide_sets() {
    for (len, step) in [(0, 1), (9, 7), (2000, 0x000F_1234_5678_9ABC), (70_000, 3)] {
        let ids: Vec<u64> = (0..len).map(|k| k * step).collect();
        let (packed, mut builder, mut unpacked) = (WideSetBuf::pack(&ids).unwrap(), WideSetBuilder::new(), ids.clone());
        builder.push_all(&ids).unwrap();
        let (set, len, last, mut page): (&WideSet, _, _, _) = (&packed, ids.len(), packed.max().unwrap_or(0), [0; 300]);
        nothing! {
            WideSet::open(set.as_bytes()).unwrap().len();
            // SAFETY: these bytes were packed.
            unsafe { WideSet::open_unchecked(set.as_bytes()) }.len();
            (set.len(), set.is_empty(), set.min(), set.max());
            (set.contains(last / 2), set.rank(last / 2), set.select(len / 2), set.seek(last / 2));
            (set.unpack_range(len / 3, &mut page), set.part(0).map(|part| part.len()));
            set.unpack_into(&mut unpacked);
            set.iter().step_by(99).fold(0, |all, id| all ^ id);
            set.range(last / 2..).fold(0, |all, id| all ^ id);
            set.write_to(std::io::sink());
            WideSetBuilder::new();
        }
        let space_and_bytes = 4 * len + octets(set.as_bytes());
        each! {
            1, 8 * len => set.unpack();
            1, set.as_bytes().len() => set.to_owned();
            2, space_and_bytes => WideSetBuf::pack(&ids);
            2, space_and_bytes => builder.pack();
            3, 8 * len.max(4) + space_and_bytes => ids.iter().rev().collect::<WideSetBuf>();
        }
    }
}

/// Each may have as many ids as the sets say: room for these, and as much work space.
#[test]
fn combining_wide_sets() {
    let sets = [(0, 1), (9, 7), (2000, 0x000F_1234_5678_9ABC), (3000, 14)]
        .map(|(len, step)| (0..len).map(|k: u64| k * step).collect::<WideSetBuf>());
    for one in &sets {
        for other in &sets {
            let (one, other): (&WideSet, &WideSet) = (one, other);
            let (less, all) = (one.len().min(other.len()), one.len() + other.len());
            let set_of = |room: usize, set: &WideSet| 12 * room.max(4) + octets(set.as_bytes());
            let [and, or, not, xor] = [one & other, one | other, one - other, one ^ other];
            let mut ids = Vec::with_capacity(all);
            nothing! {
                (one.intersect_len(other), one.unite_len(other), one.subtract_len(other), one.symmetric_difference_len(other));
                (one.is_subset(other), one.is_superset(other), one.is_disjoint(other), one.jaccard(other));
            }
            each! {
                3, set_of(less, &and) => one.intersect(other);
                3, set_of(all, &or) => one | other;
                3, set_of(one.len(), &not) => one.try_subtract(other);
                3, set_of(all, &xor) => one ^ other;
                1, 4 * less => one.intersect_into(other, &mut ids);
                1, 4 * all => one.unite_into(other, &mut ids);
                1, 4 * one.len() => one.subtract_into(other, &mut ids);
                2, 12 * all => one.symmetric_difference_into(other, &mut Vec::new());
            }
        }
    }
    // They have fewer bytes than ids, and the answer has none.
    let [even, odd] = [0, 1].map(|first| (first..20_000).step_by(2).collect::<WideSetBuf>());
    each! { 3, 12 * 4 + 8 => even.intersect(&odd); }
}

/// Of 12 chunks of 32,768 ids, 11 are copied: the ids of the last one and those after it take 4 bytes each.
#[test]
fn appending_to_a_set() {
    let (set, more) = (spread(12 << 15, 2), [(12 << 16) - 1, 12 << 16, 13 << 16]);
    let whole = set.append(&more).unwrap();
    each! { 2, ids_of((1 << 15) + more.len()) + octets(whole.as_bytes()) => set.append(&more).unwrap(); }
    for set in sets() {
        let more = [u32::MAX - 1, u32::MAX];
        let whole = set.append(&more).unwrap();
        each! { 2, ids_of(whole.len()) + octets(whole.as_bytes()) => set.append(&more).unwrap(); }
    }
}

#[test]
fn reading_a_column() {
    for column in columns() {
        let column: &Column = &column;
        let (bytes, len) = (column.as_bytes(), column.len());
        let (mut values, mut positions, mut page) = (Vec::with_capacity(len + 3), Vec::with_capacity(len + 300), [0; 300]);
        let asked: Vec<usize> = (0..len).step_by(3).collect();
        nothing! {
            Column::open(bytes).unwrap().len();
            (column.kind(), column.len(), column.is_empty(), column.blocks(), column.bounds(0));
            (column.get(len / 2), column.get_wide(1 << 40, len / 3));
            (column.seek(100).ok(), column.count_between(50..500), column.positions_between(50..500).count());
            column.positions_between_into(50..500, &mut positions);
            (column.unpack_range(len / 3, &mut page), column.iter().map(u64::from).sum::<u64>(), column.iter().step_by(99).count());
            { let mut cursor = column.cursor(); cursor.skip_block(); cursor.move_to(len / 2); cursor.block().len() };
            column.unpack_into(&mut values);
            column.gather_into(&asked, &mut values);
            column.write_to(std::io::sink());
        }
        each! {
            1, 4 * len => column.unpack();
            1, 8 * len => column.unpack_wide(1 << 40);
            1, 4 * asked.len() => column.gather(&asked).unwrap();
            1, bytes.len() => column.to_owned();
        }
    }
}

#[test]
fn packing_a_column() {
    let other = ColumnBuf::pack(Kind::Sorted, &[1, 2, 300]).unwrap();
    for packed in columns() {
        let (kind, values, len) = (packed.kind(), packed.unpack(), octets(packed.as_bytes()));
        let (mut room, mut file, mut builder) = (std::vec![0; len], Vec::with_capacity(len), ColumnBuilder::new(kind));
        builder.push_all(&values).unwrap();
        let appended = octets(packed.append(&[1 << 20]).unwrap().as_bytes());
        let joined = octets(packed.join(&other, 1 << 20).unwrap().as_bytes());
        nothing! {
            (ColumnBuilder::new(kind), column::packed_len(kind, &values));
            column::pack_to(kind, &values, &mut room);
            column::pack_into(kind, &values, &mut file);
            { builder.clear(); builder.push_all(&values) };
        }
        each! {
            1, 2 * len => column::pack_into(kind, &values, &mut file);
            1, len => ColumnBuf::pack(kind, &values);
            1, len => builder.pack();
            1, ids_of(values.len()) => ColumnBuilder::new(kind).push_all(&values);
            1, appended => packed.append(&[1 << 20]);
            2, ids_of(other.len()) + joined => packed.join(&other, 1 << 20);
        }
    }
}

/// Blocks and chains are packed into slices.
#[test]
fn packing_blocks() {
    let values: Vec<u32> = (0..1280).map(|k| 3 * k).collect();
    let (mut widths, mut bytes, mut unpacked) = ([0; 10], [0; 5120], [0; 1280]);
    nothing! {
        BitPacker4x.pack_sorted(0, &values[..128], &mut bytes);
        pack_all(BitPacker4x, ChainKind::Sorted(0), &values, &mut widths, &mut bytes).unwrap();
        unpack_all(BitPacker4x, ChainKind::Sorted(0), &widths, &bytes, &mut unpacked).unwrap();
    }
}

/// Ranked search allocates for the words and for the documents that are wanted, and not for all documents. By AND of all words it first finds
/// the documents that have all.
#[test]
fn ranking() {
    let table: Vec<u32> = (0..5 * 256).map(|k| k / 256 * (300 - k % 256)).collect();
    let steps = [3, 5, 7];
    let sets = steps.map(|step| (0..200_000).step_by(step).collect::<IdSetBuf>());
    let counts = sets.each_ref().map(|set| set.iter().map(|id| 1 + id % 3).collect::<ColumnBuf>());
    let terms: Vec<Term<'_>> = (0..3).map(|k| Term::new(&sets[k], &counts[k], &table).unwrap()).collect();
    let documents: Vec<u32> = (0..1000).collect();
    let words = 3 * (size_of::<Term<'_>>() + size_of::<ranking::Term<'_>>());
    let (found, walks) = (10 * size_of::<Scored>(), 3 * size_of::<ranking::Walk>());
    // All three have one of 105 documents. There is room first for as many as the shortest set has.
    let common = 4 * (sets[2].len() + 200_000usize.div_ceil(105)) + 3 * size_of::<&IdSet>();
    nothing! { Term::new(&sets[0], &counts[0], &table).ok(); }
    each! {
        4, words + found + walks => best(&terms, &[], 1, 10);
        4, words + found + walks => best(&terms, &[], 2, 10);
        6, words + found + common => best(&terms, &[], 3, 10);
        3, words + found => best_among(&documents, &terms, &[], 10);
    }
}
