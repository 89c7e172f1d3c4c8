//! Wide sets: what opened ones have, against plain sets; worked bytes; refused bytes.

use alloc::collections::{BTreeMap, BTreeSet};
use alloc::format;
use alloc::string::ToString;
use alloc::vec;
use alloc::vec::Vec;
use core::ops::Bound::{self, Excluded, Included, Unbounded};
use core::ops::RangeBounds;

use super::set_models::{Numbers, bytes_of, rows, wide_ids_of};
use crate::column;
use crate::set::IdSetBuf;
use crate::set::wide::{Error, Iter, WideSet, WideSetBuf, WideSetBuilder};

pub(super) type Model = BTreeSet<u64>;

pub(super) const CANARY: u64 = 0xA5A5_A5A5_A5A5_A5A5;

/// How many shapes [`shape`] has.
pub(super) const SHAPES: u32 = 14;

/// The ids of a shape, sometimes with one of the ends.
pub(super) fn shape(numbers: &mut Numbers, shape: u32) -> Model {
    let count = 1 + u64::from(numbers.below(700));
    let mut ids: Model = match shape {
        0 => return Model::new(),
        1 => return Model::from([numbers.next_wide()]),
        // Hashes.
        2 => (0..count).map(|_| numbers.next_wide()).collect(),
        // Snowflakes: milliseconds, a machine and a number, 70 or 7 milliseconds apart. About 15 or 146 share their high word.
        3 => (0..count).map(|k| ((1_700_000_000_000 + 70 * k) << 22) + (5 << 12) + k % 4096).collect(),
        4 => (0..3 * count).map(|k| ((1_700_000_000_000 + 7 * k) << 22) + (9 << 12)).collect(),
        // Numbers of rows, with few gaps: of a new table, and of one with many rows before them.
        5 => (1..=9 * count).filter(|k| k % 97 > 2).collect(),
        6 => (1..=9 * count).filter(|k| k % 97 > 2).map(|k| 5_000_000_000 + k).collect(),
        // Times in microseconds, and in nanoseconds: a second is 1,000,000 of the former.
        7 => (0..count).map(|k| 1_700_000_000_000_000 + 900_000 * k + u64::from(numbers.below(900_000))).collect(),
        8 => (0..count).map(|k| 1_700_000_000_000_000_000 + 900_000_000 * k).collect(),
        // Both sides of 2^32, and the last ids of all.
        9 => ((1 << 32) - count..(1 << 32) + count).collect(),
        10 => (0..count).map(|k| u64::MAX - k * k).collect(),
        // Eight ids for each high word, and one id less.
        11 => (0..8 * count).map(|k| ((k / 8) << 35) + ((k % 8) << 20)).collect(),
        12 => (1..8 * count).map(|k| ((k / 8) << 35) + ((k % 8) << 20)).collect(),
        // Runs over 2^32.
        _ => ((1 << 32) - 70_000..(1 << 32) + 70_000).filter(|k| k % 30_000 > 2).collect(),
    };
    if shape < 11 && numbers.below(4) == 0 {
        ids.extend([0, u64::MAX]);
    }
    ids
}

pub(super) fn listed(model: &Model) -> Vec<u64> {
    model.iter().copied().collect()
}

/// The ids that share their high word, by that word.
fn by_word(ids: &[u64]) -> BTreeMap<u32, Vec<u32>> {
    let mut words = BTreeMap::<u32, Vec<u32>>::new();
    for id in ids {
        words.entry((id >> 32) as u32).or_default().push(*id as u32);
    }
    words
}

/// Two sets of each shape.
fn sets(seed: u64) -> impl Iterator<Item = (Numbers, Vec<u64>, WideSetBuf)> {
    (0..2 * SHAPES).map(move |round| {
        let mut numbers = Numbers(seed + u64::from(round));
        let ids = listed(&shape(&mut numbers, round % SHAPES));
        let set = WideSetBuf::pack(&ids).unwrap();
        (numbers, ids, set)
    })
}

/// Ids of a set, those beside them, and some others.
fn targets(numbers: &mut Numbers, ids: &[u64]) -> Vec<u64> {
    let mut targets = vec![0, 1, u64::MAX - 1, u64::MAX];
    for _ in 0..60 {
        targets.push(numbers.next_wide());
        if !ids.is_empty() {
            let id = ids[numbers.below(ids.len() as u32) as usize];
            targets.extend([id, id.wrapping_add(1), id.wrapping_sub(1), id ^ 1 << 32, id ^ 1 << 16]);
        }
    }
    targets
}

fn reads(set: &WideSet, ids: &[u64], numbers: &mut Numbers) {
    assert_eq!((set.len(), set.is_empty()), (ids.len(), ids.is_empty()));
    assert_eq!((set.min(), set.max()), (ids.first().copied(), ids.last().copied()));
    assert_eq!(set.unpack(), ids);
    for target in targets(numbers, ids) {
        let rank = ids.partition_point(|id| *id < target);
        let found = ids.get(rank).map(|id| (rank, *id));
        assert_eq!((set.rank(target), set.seek(target)), (rank, found));
        assert_eq!(set.contains(target), found.is_some_and(|found| found.1 == target));
    }
    for _ in 0..60 {
        let position = numbers.below(ids.len() as u32 + 3) as usize;
        assert_eq!(set.select(position), ids.get(position).copied());
        let mut page = vec![CANARY; [0, 1, 40, 700][numbers.below(4) as usize]];
        let wanted: Vec<u64> = ids.iter().skip(position).take(page.len()).copied().collect();
        assert_eq!(set.unpack_range(position, &mut page), wanted.len());
        assert_eq!(page[..wanted.len()], wanted);
        assert!(page[wanted.len()..].iter().all(|id| *id == CANARY));
    }
    assert_eq!((set.select(usize::MAX), set.unpack_range(usize::MAX, &mut [CANARY])), (None, 0));
    // Into a vector with other values, and into one without memory.
    let mut vector = vec![CANARY; 9000];
    let before = vector.as_ptr();
    set.unpack_into(&mut vector);
    assert!(vector == ids && (ids.len() > 9000 || vector.as_ptr() == before));
    let mut vector = Vec::new();
    set.unpack_into(&mut vector);
    assert_eq!(vector, ids);
}

/// Byte 0 is 8 if there are at least 8 ids for each high word, and else 9.
#[test]
fn sets_of_each_shape() {
    for (mut numbers, ids, set) in sets(1) {
        let form = if !ids.is_empty() && ids.len() >= 8 * by_word(&ids).len() { 8 } else { 9 };
        assert_eq!(set.as_bytes()[0], form);
        reads(&set, &ids, &mut numbers);
        reads(&WideSet::open(set.as_bytes()).unwrap(), &ids, &mut numbers);
        // SAFETY: these bytes were just packed.
        let unchecked = unsafe { WideSet::open_unchecked(set.as_bytes()) };
        reads(&unchecked, &ids, &mut numbers);
    }
}

/// Eight ids for each high word are in words, and one less is spread out.
#[test]
fn both_forms_at_their_limits() {
    for words in [1, 2, 16, 17, 300] {
        let ids: Vec<u64> = (0..8 * words).map(|k| ((k / 8) << 33) + k % 8).collect();
        let (whole, less) = (WideSetBuf::pack(&ids).unwrap(), WideSetBuf::pack(&ids[1..]).unwrap());
        assert_eq!((whole.as_bytes()[0], less.as_bytes()[0]), (8, 9));
        reads(&whole, &ids, &mut Numbers(words));
        reads(&less, &ids[1..], &mut Numbers(words));
    }
}

/// A part has the bytes of the id set of the low words. It stays as long as the wide set.
#[test]
fn parts() {
    let mut found = 0;
    for (_, ids, set) in sets(30) {
        let words = by_word(&ids);
        let near = words.keys().flat_map(|word| [word.wrapping_sub(1), *word, word.wrapping_add(1)]);
        for high in near.chain([0, u32::MAX]) {
            let lows = words.get(&high).filter(|_| set.as_bytes()[0] == 8);
            let part = set.part(high);
            let bytes = lows.map(|lows| IdSetBuf::pack(lows).unwrap().into_bytes());
            assert_eq!(part.as_ref().map(|part| (part.unpack(), part.as_bytes().to_vec())), lows.cloned().zip(bytes));
            found += usize::from(part.is_some());
        }
    }
    assert!(found > 500, "{found}");
}

/// Moves an iterator at random, until no id is left.
fn moves(numbers: &mut Numbers, mut iter: Iter<'_>, ids: &[u64]) {
    let mut ids = ids.iter().copied();
    while ids.len() > 0 {
        assert_eq!((iter.len(), iter.size_hint()), (ids.len(), ids.size_hint()));
        let n = [0, 1, 3, 40, 300][numbers.below(5) as usize];
        match numbers.below(60) {
            0..20 => assert_eq!(iter.next(), ids.next()),
            20..40 => assert_eq!(iter.nth(n), ids.nth(n)),
            40..59 => assert!(iter.by_ref().take(n).eq(ids.by_ref().take(n))),
            _ => {
                assert_eq!((iter.clone().last(), iter.clone().count()), (ids.clone().last(), ids.len()));
                assert_eq!(iter.clone().fold(7, |all, id| all ^ id), ids.clone().fold(7, |all, id| all ^ id));
            }
        }
    }
    assert_eq!((iter.next(), iter.nth(2), iter.len()), (None, None, 0));
}

#[test]
fn iterators() {
    for (mut numbers, ids, set) in sets(60) {
        assert!(set.iter().eq(ids.iter().copied()) && (&set).into_iter().eq(&*set));
        assert!(WideSet::open(set.as_bytes()).unwrap().into_iter().eq(ids.iter().copied()));
        for _ in 0..3 {
            moves(&mut numbers, set.iter(), &ids);
        }
        let half = ids.len() / 2;
        if let Some(middle) = ids.get(half) {
            moves(&mut numbers, set.range(middle..), &ids[half..]);
            moves(&mut numbers, set.range(..middle), &ids[..half]);
        }
    }
}

/// The ids of all kinds of limits, by comparing each.
#[test]
fn ranges() {
    for (mut numbers, ids, set) in sets(90) {
        for _ in 0..8 {
            let asked = targets(&mut numbers, &ids);
            let mut limit = || asked[numbers.below(asked.len() as u32) as usize];
            let (from, to) = (limit(), limit());
            let bound = |kind: usize, limit: u64| -> Bound<u64> { [Included(limit), Excluded(limit), Unbounded][kind] };
            for kinds in 0..9 {
                let limits = (bound(kinds / 3, from), bound(kinds % 3, to));
                let wanted: Vec<u64> = ids.iter().copied().filter(|id| limits.contains(id)).collect();
                assert_eq!(set.range(limits).len(), wanted.len());
                assert!(set.range(limits).eq(wanted), "{limits:?}");
            }
        }
        let after = (Excluded(u64::MAX), Unbounded);
        assert_eq!((set.range(after).len(), set.range(..=u64::MAX).len()), (0, ids.len()));
    }
}

/// Bytes that docs/FORMAT.md works.
#[test]
fn worked_bytes() {
    let rows: [(Vec<u64>, &str); 7] = [
        (vec![], "090060"),
        (vec![5], "0901610005000000"),
        (vec![u64::MAX], "090161FFFFFFFF0FFFFFFFFF"),
        (vec![1, (1 << 32) + 1, 1 << 33], "090363000103010000000100000000000000"),
        ((0..=6).chain([1 << 32]).collect(), "0908680001400000000001000000020000000300000004000000050000000600000000000000"),
        ((5_000_000_000..=5_000_000_007).collect(), "08080111010000000708 8880E497D00200"),
        ((0..=14).chain([1 << 63]).collect(), "0810021100000000 0000008003050F10 8F0000 8100"),
    ];
    for (ids, field) in rows {
        let bytes = bytes_of(&field.replace(' ', ""));
        assert_eq!(WideSetBuf::pack(&ids).unwrap().as_bytes(), bytes, "{field}");
        assert_eq!(WideSet::open(&bytes).unwrap().unpack(), ids);
    }
}

#[test]
fn each_wide_set_of_the_vectors() {
    let rows = rows("wide_sets");
    assert_eq!(rows.len(), 524);
    let mut numbers = Numbers(5);
    for row in rows {
        let (ids, bytes) = (wide_ids_of(&row[0]), bytes_of(&row[1]));
        assert_eq!(WideSetBuf::pack(&ids).unwrap().as_bytes(), bytes);
        reads(&WideSet::open(&bytes).unwrap(), &ids, &mut numbers);
        assert_eq!(WideSetBuf::open(bytes).unwrap(), ids.iter().rev().collect::<WideSetBuf>());
    }
}

#[test]
fn refused_bytes() {
    let rows = rows("refused_wide_sets");
    assert_eq!(rows.len(), 2773);
    for row in rows {
        let bytes = bytes_of(&row[2]);
        let error = WideSet::open(&bytes).unwrap_err();
        let others = [WideSetBuf::open(bytes.clone()), WideSetBuf::try_from(bytes.clone())].map(|set| set.err());
        assert_eq!((others, WideSetBuf::try_from(&bytes[..]).err()), ([Some(error); 2], Some(error)));
        let shown = if let Error::Column(fault) = error { format!("{fault:?}") } else { format!("{error:?}") };
        assert_eq!((error.number().to_string(), shown), (row[0].clone(), row[1].clone()));
    }
}

/// Faults that docs/FORMAT.md works, and what each error says.
#[test]
fn errors_in_words() {
    for (field, error, says) in [
        ("-", Error::Short, "bytes are missing"),
        ("05", Error::BadVersion(5), "5 is the first byte of no wide set"),
        ("098500", Error::BadNumber, "a number does not have its only form"),
        ("098180808001", Error::TooLong(268_435_457), "268435457 ids are more than 268435456"),
        ("0901", Error::Short, "bytes are missing"),
        ("0901410505000000", Error::BadKind(0), "the column of the high words has kind 0"),
        ("09016005000000", Error::BadSum(0), "the sum of high word 0 does not fit the ids"),
        ("09026200000500000005000000", Error::NotSorted(1), "the id at position 1 is out of order"),
        ("08080110", Error::BadSizes(16), "16 does not say the least sizes of ends and sums"),
        ("08080111010000000008", Error::BadOffset(0), "the set of high word 0 has too few or too many bytes"),
        ("080801110100000007088780E497D00200", Error::BadBody(0), "the set of high word 0 is not one"),
        ("080801110100000007088880E497D0020000", Error::Trailing, "bytes are left over after the last id"),
    ] {
        let found = WideSet::open(&bytes_of(field)).unwrap_err();
        assert_eq!((found, found.to_string().as_str()), (error, says), "{field}");
    }
    for (error, says) in [
        (Error::BadKey(3), "high word 3 is not above the one before it"),
        (Error::LooseForm, "the ids belong in the other form"),
        (Error::Memory, "out of memory"),
        (Error::Column(column::Error::Padding), "the high words: a bit is set after the last code of a group"),
    ] {
        assert_eq!(error.to_string(), says);
    }
}

/// Ids that do not increase, with the position of the first fall.
#[test]
fn ids_out_of_order() {
    let rows: [(&[u64], usize); 4] = [(&[1, 1], 1), (&[0, 1 << 40, 1 << 39, 3], 2), (&[7, u64::MAX, 0], 2), (&[2, 3, 3, 1], 2)];
    for (ids, position) in rows {
        let error = Error::NotSorted(position);
        assert_eq!(WideSetBuf::pack(ids).err(), Some(error));
        let mut builder = WideSetBuilder::new();
        assert_eq!((builder.push_all(ids), builder.is_empty()), (Err(error), true));
        assert_eq!((builder.extend(ids), builder.pack().unpack()), (Err(error), ids[..position].to_vec()));
    }
}

#[test]
fn built_and_collected() {
    for (mut numbers, ids, set) in sets(120) {
        let cut = numbers.below(ids.len() as u32 + 1) as usize;
        let mut builder = WideSetBuilder::default();
        assert!(builder.is_empty() && builder.last().is_none());
        ids[..cut].iter().for_each(|id| builder.push(*id).unwrap());
        assert_eq!(
            (builder.len(), builder.last(), builder.pack().unpack()),
            (cut, ids[..cut].last().copied(), ids[..cut].to_vec())
        );
        builder.push_all(&ids[cut..]).unwrap();
        assert_eq!(builder.pack(), set);
        if let Some(last) = builder.last() {
            let refused = [last, last.saturating_sub(1)].map(|id| builder.push(id));
            assert_eq!((refused, builder.len()), ([Err(Error::NotSorted(ids.len())); 2], ids.len()));
        }
        let mut extended = WideSetBuilder::new();
        extended.extend(ids.iter().copied()).unwrap();
        assert_eq!(extended.pack(), set);
        // In the opposite order, and twice.
        assert_eq!(ids.iter().rev().chain(&ids).copied().collect::<WideSetBuf>(), set);
    }
    assert_eq!([WideSetBuf::from([]), WideSetBuf::from([9, 1 << 40, 9])].map(|set| set.unpack()), [vec![], vec![9, 1 << 40]]);
}
