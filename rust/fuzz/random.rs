//! Random sets, columns, queries, chains and ranked searches, beside vectors and trees of the standard library: `random ROUNDS FIRST` runs rounds from
//! one on, and names one that fails. It prints last how many damaged bytes opened, and how many did not.

mod columns;
mod sets;
mod wide_sets;

use std::collections::BTreeSet;
use std::ops::{Bound, RangeBounds};
use std::{cell::Cell, cmp::Reverse, env, iter, rc::Rc, sync::Arc};

use bitpacking::chain::{self, pack_all, unpack_all};
use bitpacking::column::{Column, ColumnBuf, ColumnBuilder, Kind};
use bitpacking::ranked::{CLASSES, Term, best, best_among};
use bitpacking::set::wide::{WideSet, WideSetBuf};
use bitpacking::set::{self, Cursor, IdSet, IdSetBuf, Query, SetBuilder};
use bitpacking::{BitPacker1x, BitPacker4x, BitPacker8x, Packer, StableBytes};

/// Longer sets and columns, which damaged bytes can have, are only read at some places.
const MOST: usize = 1 << 16;

/// Numbers that only look random, the same ones for a round.
struct Numbers(Cell<u64>);

impl Numbers {
    fn next(&self) -> u32 {
        self.0.set(self.0.get().wrapping_mul(6_364_136_223_846_793_005).wrapping_add(1_442_695_040_888_963_407));
        (self.0.get() >> 32) as u32
    }

    fn wide(&self) -> u64 {
        (u64::from(self.next()) << 32) | u64::from(self.next())
    }

    /// A number below another, which is above 0.
    fn below(&self, bound: usize) -> usize {
        ((u64::from(self.next()) * bound as u64) >> 32) as usize
    }

    fn of<T: Copy>(&self, items: &[T]) -> T {
        items[self.below(items.len())]
    }

    /// An argument of a call: an item or a neighbour, an end, or another number.
    fn near(&self, items: &[u32]) -> u32 {
        let item = if items.is_empty() { 7 } else { self.of(items) };
        if self.below(9) == 0 { self.of(&[0, u32::MAX, self.next()]) } else { item.wrapping_add(self.of(&[0, 1, u32::MAX])) }
    }
}

/// Increasing ids: few, of an array, of numbers and blocks, and runs; at either end of all ids, or between.
fn ids(numbers: &Numbers) -> Vec<u32> {
    let (count, room) = numbers.of(&[(0, 1), (1, 9), (90, 200), (127, 1 << 31), (400, u32::MAX), (1500, 200_000), (4000, 9000)]);
    let base = numbers.of(&[0, 0, 65_530, 1 << 20, u32::MAX]).min(u32::MAX - room);
    let mut ids: BTreeSet<u32> = (0..count).map(|_| base + numbers.below(room as usize + 1) as u32).collect();
    for _ in 0..numbers.of(&[0, 0, 1, 3]) {
        let first = base.saturating_add(numbers.below(200_000) as u32).min(u32::MAX - 3000);
        ids.extend(first..first + numbers.of(&[5, 300, 3000]));
    }
    // On both sides of the limits of a chunk of runs.
    for run in 0..numbers.of(&[0, 0, 0, 31, 32, 33]) {
        let first = base.min(u32::MAX - 20_000) + 400 * run;
        ids.extend(first..first + numbers.of(&[15, 16, 17]));
    }
    ids.into_iter().collect()
}

/// Increasing 64-bit ids: few, hashes, many with the same high word, and about eight for each; from either end of all ids, or between.
fn wide_ids(numbers: &Numbers) -> Vec<u64> {
    let (count, gap) =
        numbers.of(&[(0, 1), (1, 1 << 60), (90, 1 << 57), (1500, 1 << 53), (1500, 1 << 30), (4000, 1 << 20), (9000, 3)]);
    let mut next = numbers.of(&[0, 0, (1 << 32) - 700, 1 << 52]);
    let mut ids = Vec::new();
    for _ in 0..count {
        ids.push(next);
        next += 1 + numbers.wide() % gap;
    }
    if numbers.below(4) == 0 { ids.iter().rev().map(|id| u64::MAX - id).collect() } else { ids }
}

/// Values of a column of a kind: blocks of all widths.
fn values(numbers: &Numbers, kind: Kind) -> Vec<u32> {
    let len = numbers.of(&[0, 1, 30, 31, 32, 127, 128, 129, 300, 1000]) + numbers.of(&[0, 0, 1, 97]);
    let (mut value, mut mask) = (numbers.next() >> numbers.below(32), 0);
    let one = |k: usize| {
        if k % 128 == 0 {
            mask = u32::MAX.checked_shr(numbers.below(33) as u32).unwrap_or(0) >> if kind == Kind::Sorted { 11 } else { 0 };
        }
        let above = value.saturating_add(numbers.next() & mask);
        value = if kind == Kind::Sorted { above } else { value };
        above
    };
    (0..len).map(one).collect()
}

/// Checks that sets over equal bytes are equal, whatever type has the bytes.
fn held<B: StableBytes>(bytes: B, set: &IdSetBuf, ids: &[u32]) {
    let held = IdSetBuf::open(bytes).unwrap();
    assert!(held == *set && *held == **set && held.iter().eq(ids.iter().copied()));
    let mut taken = held.into_iter();
    assert_eq!((taken.next_back(), taken.next()), (ids.last().copied(), ids.first().filter(|_| ids.len() > 1).copied()));
}

/// The ids within limits from both ends, by an iterator that skips.
fn both_ends(numbers: &Numbers, set: &IdSet, ids: &[u32]) {
    let end = || numbers.of(&[Bound::Included(numbers.near(ids)), Bound::Excluded(numbers.near(ids)), Bound::Unbounded]);
    let limits = (end(), end());
    let within: Vec<u32> = ids.iter().copied().filter(|id| limits.contains(id)).collect();
    let (mut found, mut right) = (set.range(limits), &within[..]);
    for _ in 0..60 {
        let some = numbers.of(&[0, 0, 1, 300]);
        let rest = right.len().saturating_sub(some + 1);
        match numbers.below(5) {
            0 | 1 => {
                assert_eq!(found.nth(some), right.get(some).copied());
                right = &right[right.len() - rest..];
            }
            2 | 3 => {
                assert_eq!(found.nth_back(some), right.iter().nth_back(some).copied());
                right = &right[..rest];
            }
            _ => {
                let target = numbers.near(&right[..right.len() / 8]);
                found.advance_to(target);
                right = &right[right.partition_point(|id| *id < target)..];
            }
        }
        assert_eq!(found.size_hint(), (right.len(), Some(right.len())));
    }
    assert!(found.clone().rev().eq(right.iter().rev().copied()) && found.eq(right.iter().copied()));
}

/// A cursor, which moves forward.
fn forward(numbers: &Numbers, mut cursor: impl Cursor, mut right: &[u32]) {
    for _ in 0..60 {
        if numbers.below(3) == 0 {
            right = right.get(1..).unwrap_or(&[]);
            assert_eq!(cursor.advance(), right.first().copied());
        } else {
            let target = numbers.near(&right[..right.len() / 8]);
            right = &right[right.partition_point(|id| *id < target)..];
            assert_eq!(cursor.seek(target), right.first().copied());
        }
        assert_eq!(cursor.value(), right.first().copied());
    }
}

/// Operators of sets that own and that borrow their bytes, and those that assign.
fn operators(one: &IdSetBuf, ids: &[u32], other: &IdSetBuf, more: &[u32]) {
    let [a, b] = [ids, more].map(|it| it.iter().copied().collect::<BTreeSet<u32>>());
    let (borrowed, mut assigned) = (IdSet::open(other.as_bytes()).unwrap(), [(); 4].map(|()| one.clone()));
    assigned[0] &= other;
    assigned[1] |= &borrowed;
    assigned[2] -= &borrowed;
    assigned[3] ^= other;
    let made = [one & other, &**one | &borrowed, one - &**other, &**one ^ &**other];
    for (k, model) in [&a & &b, &a | &b, &a - &b, &a ^ &b].into_iter().enumerate() {
        assert!(made[k].iter().eq(model) && made[k] == assigned[k]);
    }
}

/// Checks that appending, and building one by one, return what packing all ids or values returns, or the same error.
fn growing(numbers: &Numbers, ids: &[u32], kind: Kind, values: &[u32]) {
    let (all, at) = (IdSetBuf::pack(ids).unwrap(), numbers.below(ids.len() + 1));
    let (set, mut builder, mut column) = (IdSetBuf::pack(&ids[..at]).unwrap(), SetBuilder::new(), ColumnBuilder::new(kind));
    assert_eq!(set.append(&ids[at..]).as_ref(), Ok(&all));
    for (k, &id) in ids.iter().enumerate() {
        assert_eq!((builder.push(id), builder.push(id / 3)), (Ok(()), Err(set::Error::NotSorted(k + 1))));
    }
    assert!(at == 0 || set.append(&ids[at - 1..]).err() == Some(set::Error::NotSorted(at)));
    assert_eq!((column.extend(&values[..values.len() / 2]), column.push_all(&values[values.len() / 2..])), (Ok(()), Ok(())));
    assert_eq!(column.push_all(&[u32::MAX, 0]).is_err(), kind == Kind::Sorted);
    assert!(builder.pack() == all && ids.iter().rev().chain(ids).copied().collect::<IdSetBuf>() == all);
    assert!(kind == Kind::Plain || column.pack() == ColumnBuf::pack(kind, values).unwrap());
}

/// A query of some sets, and its ids.
fn tree<'a>(numbers: &Numbers, sets: &'a [(IdSetBuf, BTreeSet<u32>)], left: usize) -> (Query<'a>, BTreeSet<u32>) {
    if left <= 1 {
        let (set, model) = &sets[numbers.below(sets.len())];
        return (Query::from(set), model.clone());
    }
    let part = 1 + numbers.below(left - 1);
    let ((one, a), (other, b)) = (tree(numbers, sets, part), tree(numbers, sets, left - part));
    match numbers.below(4) {
        0 => (one & other, &a & &b),
        1 => (one.or(&other), &a | &b),
        2 => (&one - other, &a - &b),
        _ => (one ^ &other, &a ^ &b),
    }
}

/// Queries: of some sets, and of 3,000 levels over numbers below 64, which are the bits of a word.
fn queries(numbers: &Numbers) {
    let sets: Vec<_> = (0..4).map(|_| ids(numbers)).map(|it| (IdSetBuf::pack(&it).unwrap(), it.into_iter().collect())).collect();
    let (query, model) = tree(numbers, &sets, 1 + numbers.below(9));
    let found: Vec<u32> = model.into_iter().collect();
    assert!(query.unpack().as_ref() == Ok(&found) && query.count() == Ok(found.len()));
    forward(numbers, query.ids().unwrap(), &found);
    let words = [0; 3].map(|_| numbers.wide());
    let sets = words.map(|word| (0..64).filter(|bit| (word >> bit) & 1 == 1).collect::<IdSetBuf>());
    let (mut query, mut word) = (Query::from(&sets[0]), words[0]);
    for level in 0..3000 {
        let (set, other) = (&sets[level % 3], words[level % 3]);
        (query, word) = match numbers.below(5) {
            0 => (query & set, word & other),
            1 => (query | set, word | other),
            2 => (query - set, word & !other),
            3 => (query ^ set, word ^ other),
            _ => (Query::from(set) ^ query, other ^ word),
        };
    }
    assert_eq!(query.ids().unwrap().fold(0, |word, id| word | (1 << id)), word);
}

/// Checks blocks of each kind: the width fits the greatest code, and unpacking returns the values.
fn chains<P: Packer>(numbers: &Numbers, packer: P) {
    let (blocks, mask, start) = (numbers.below(4), u32::MAX >> numbers.below(32), numbers.next());
    let values: Vec<u32> = (0..blocks * P::BLOCK_LEN).map(|_| numbers.next() & mask).collect();
    let before = |first: u32| iter::once(first).chain(values.iter().copied());
    let differences = |first: u32| before(first).zip(&values).map(|(before, it)| it.wrapping_sub(before));
    let strict = |first| differences(first).map(|it| it.wrapping_sub(1)).collect();
    for (kind, codes) in [
        (chain::Kind::Plain, values.clone()),
        (chain::Kind::Sorted(start), differences(start).collect()),
        (chain::Kind::StrictlySorted(Some(start)), strict(start)),
        (chain::Kind::StrictlySorted(None), strict(u32::MAX)),
    ] {
        let right = codes.chunks(P::BLOCK_LEN).map(|block| 32 - block.iter().fold(0, |all, it| all | it).leading_zeros() as u8);
        let (mut widths, mut bytes, mut unpacked) = (vec![0; blocks], vec![0; 4 * values.len()], vec![7; values.len() + 3]);
        let size = pack_all(packer, kind, &values, &mut widths, &mut bytes).unwrap();
        assert!(widths.iter().copied().eq(right) && size == widths.iter().map(|it| P::compressed_block_size(*it)).sum());
        assert_eq!(unpack_all(packer, kind, &widths, &bytes[..size], &mut unpacked), Ok(size));
        assert!(unpacked.starts_with(&values) && unpacked.ends_with(&[7; 3]));
    }
}

/// The best documents of some words, beside a scan of all of them.
fn ranked(numbers: &Numbers) {
    let (documents, rows, most) = (numbers.of(&[50, 700, 3000]), 1 + numbers.below(4), numbers.of(&[0, 1, 10, 5000]));
    let steps: Vec<u32> = (0..rows * CLASSES).map(|k| (k / CLASSES * (400 - k % CLASSES)) as u32 / 7).collect();
    let classes: Vec<u8> = (0..numbers.below(documents + 1)).map(|_| numbers.next() as u8).collect();
    let some = |one_in: usize| -> Vec<u32> { (0..documents as u32 + 9).filter(|_| numbers.below(one_in) == 0).collect() };
    let words = iter::repeat_with(|| some(numbers.of(&[1, 3, 50]))).take(numbers.below(5));
    let words: Vec<_> = words.map(|ids| (ids.iter().map(|_| numbers.below(6) as u32).collect::<Vec<u32>>(), ids)).collect();
    let packed: Vec<_> =
        words.iter().map(|it| (IdSetBuf::pack(&it.1).unwrap(), ColumnBuf::pack(Kind::Plain, &it.0).unwrap())).collect();
    let terms: Vec<_> = packed.iter().map(|it| Term::new(&it.0, &it.1, &steps).unwrap()).collect();
    let scanned = |ids: &[u32], at_least: usize| {
        let part = |word: &(Vec<u32>, Vec<u32>), id: u32| {
            let count = word.0[word.1.binary_search(&id).ok()?] as usize;
            Some(u64::from(steps[count.min(rows - 1) * CLASSES + usize::from(classes.get(id as usize).copied().unwrap_or(0))]))
        };
        let parts = |id: u32| words.iter().filter_map(move |word| part(word, id));
        let have = ids.iter().filter(|id| parts(**id).count() >= at_least);
        let all: BTreeSet<_> = have.map(|id| (Reverse(parts(*id).sum::<u64>()), *id)).collect();
        all.into_iter().take(most)
    };
    let (given, at_least) = (some(3), numbers.below(words.len() + 2));
    assert!(
        best(&terms, &classes, at_least, most).iter().map(|it| (Reverse(it.score), it.id)).eq(scanned(&some(1), at_least.max(1)))
    );
    assert!(
        best_among(&given, &terms, &classes, most).unwrap().iter().map(|it| (Reverse(it.score), it.id)).eq(scanned(&given, 0))
    );
}

/// Bytes that were changed, removed or added: what opens is read by all calls, and encodes to itself. Adds up how many did not open, and did.
fn damaged(numbers: &Numbers, right: &[u8], counts: &mut [usize; 2]) {
    for _ in 0..12 {
        let mut bytes = right.to_vec();
        for _ in 0..numbers.of(&[1, 1, 2, 5]) {
            let at = numbers.below(bytes.len().min(numbers.of(&[12, 400, 1 << 20])));
            match numbers.below(6) {
                0 => bytes.truncate(at + 1),
                1 => bytes.insert(at, numbers.next() as u8),
                _ => bytes[at] ^= 1 << numbers.below(8),
            }
        }
        let set = IdSet::open(&bytes).map(|set| sets::read(&set, &[0, numbers.next(), u32::MAX]));
        let column = Column::open(&bytes).map(|column| columns::read(&column, &[0, numbers.next(), u32::MAX]));
        let wide = WideSet::open(&bytes).map(|set| wide_sets::read(&set, &[0, numbers.wide(), u64::MAX]));
        counts[usize::from(set.is_ok() || column.is_ok() || wide.is_ok())] += 1;
    }
}

fn round(numbers: &Numbers, counts: &mut [usize; 2]) {
    let (first, second) = (ids(numbers), ids(numbers));
    let [one, other] = [&first, &second].map(|ids| IdSetBuf::pack(ids).unwrap());
    let given = [0; 12].map(|_| numbers.near(&first));
    sets::read(&one, &given);
    sets::combine(&one, &other, &given);
    let bytes = one.as_bytes();
    held(bytes, &one, &first);
    held(bytes.to_vec(), &one, &first);
    held(Rc::<[u8]>::from(bytes), &one, &first);
    held(Arc::<[u8]>::from(bytes), &one, &first);
    operators(&one, &first, &other, &second);
    both_ends(numbers, &one, &first);
    forward(numbers, one.cursor(), &first);
    queries(numbers);
    ranked(numbers);
    chains(numbers, BitPacker1x);
    chains(numbers, BitPacker4x);
    chains(numbers, BitPacker8x);
    damaged(numbers, bytes, counts);
    let ids = wide_ids(numbers);
    let wide = WideSetBuf::pack(&ids).unwrap();
    assert_eq!(wide.unpack(), ids);
    wide_sets::read(&wide, &[0; 12].map(|_| numbers.wide() >> numbers.of(&[0, 3, 12, 32])));
    // Other ids, and some of these.
    let others = wide_ids(numbers).into_iter().chain(ids.into_iter().filter(|_| numbers.below(3) == 0)).collect::<WideSetBuf>();
    wide_sets::combine(&wide, &others);
    wide_sets::combine(&others, &wide);
    damaged(numbers, wide.as_bytes(), counts);
    for kind in [Kind::Plain, Kind::Sorted] {
        let values = values(numbers, kind);
        let column = ColumnBuf::pack(kind, &values).unwrap();
        columns::read(&column, &[0; 12].map(|_| numbers.near(&values)));
        columns::combine(&column, &ColumnBuf::pack(Kind::Plain, &first).unwrap(), &given);
        growing(numbers, &first, kind, &values);
        damaged(numbers, column.as_bytes(), counts);
    }
}

fn main() {
    let given: Vec<u64> = env::args().skip(1).map(|it| it.parse().expect("ROUNDS FIRST")).collect();
    let (mut counts, [rounds, first]) = ([0; 2], given[..].try_into().expect("ROUNDS FIRST"));
    for number in first..first + rounds {
        println!("round {number}");
        round(&Numbers(Cell::new((number + 1).wrapping_mul(0x9E37_79B9_7F4A_7C15) | 1)), &mut counts);
    }
    println!("damaged bytes: {} opened, {} did not", counts[1], counts[0]);
}
