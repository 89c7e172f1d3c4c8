//! Ranges of ids as sets, and single ids and ranges put in and taken out, against plain sets.

use alloc::vec::Vec;
use core::ops::Bound;

use super::rounds;
use super::set_models::{FORMS, Model, Numbers, listed, packed, some_ids};
use super::set_reading::longest;
use crate::set::{Error, IdSetBuf};

const LAST: u32 = u32::MAX;

/// Limits near the ends of chunks, of all ids, and of the shortest runs.
fn limits(numbers: &mut Numbers) -> (u32, u32) {
    let first = match numbers.below(4) {
        0 => numbers.below(3),
        1 => LAST - numbers.below(200_000),
        2 => 65_536 * numbers.below(5) + 65_530 + numbers.below(12),
        _ => numbers.below(500_000),
    };
    let len = match numbers.below(4) {
        0 => numbers.below(20),
        1 => 120 + numbers.below(16),
        2 => 65_536 * numbers.below(4) + numbers.below(40),
        _ => numbers.below(200_000),
    };
    (first, first.saturating_add(len))
}

#[test]
fn ranges_of_ids() {
    let mut numbers = Numbers(21);
    for _ in 0..300 {
        let (first, end) = limits(&mut numbers);
        let ids: Vec<u32> = (first..end).collect();
        let set = IdSetBuf::pack(&ids).unwrap();
        assert_eq!(IdSetBuf::from_range(first..end).unwrap().as_bytes(), set.as_bytes(), "{first}..{end}");
        if let Some(last) = ids.last() {
            assert_eq!(IdSetBuf::from_range(first..=*last).unwrap(), set);
            let after = (Bound::Excluded(first), Bound::Included(*last));
            assert_eq!(IdSetBuf::from_range(after).unwrap(), IdSetBuf::pack(&ids[1..]).unwrap());
        }
    }
    assert_eq!(IdSetBuf::from_range(4..4).unwrap(), IdSetBuf::default());
    assert_eq!(IdSetBuf::from_range((Bound::Excluded(LAST), Bound::Unbounded)).unwrap(), IdSetBuf::default());
    assert_eq!(IdSetBuf::from_range(LAST..).unwrap().unpack(), [LAST]);
    assert_eq!(IdSetBuf::from_range(..1 << 28).unwrap(), IdSetBuf::open(longest(0)).unwrap());
    assert_eq!(IdSetBuf::from_range(..=1 << 28).err(), Some(Error::TooLong((1 << 28) + 1)));
}

#[test]
fn put_in_and_taken_out() {
    let mut numbers = Numbers(22);
    for round in rounds(4 * FORMS) {
        let mut model = some_ids(&mut numbers, round % FORMS);
        let mut set = packed(&model);
        for _ in 0..4 {
            let id = if numbers.below(2) == 0 { numbers.next() } else { model.iter().next().copied().unwrap_or(LAST) };
            assert_eq!((set.insert(id), set.insert(id)), (Ok(model.insert(id)), Ok(false)));
            assert_eq!(set.as_bytes(), packed(&model).as_bytes());
            let (first, end) = limits(&mut numbers);
            let all: Model = (first..end).collect();
            let within = model.range(first..end).count();
            assert_eq!((set.count_between(first..end), set.contains_range(first..end)), (within, within == all.len()));
            match numbers.below(3) {
                0 => {
                    set.insert_range(first..end).unwrap();
                    model.extend(all);
                    assert!(set.contains_range(first..end) && set.count_between(first..end) == (end - first) as usize);
                }
                1 => {
                    set.remove_range(first..end).unwrap();
                    model = &model - &all;
                }
                _ => {
                    set.flip(first..end).unwrap();
                    model = &model ^ &all;
                }
            }
            assert_eq!(set.as_bytes(), packed(&model).as_bytes());
            assert_eq!((set.remove(id), set.remove(id)), (Ok(model.remove(&id)), Ok(false)));
            assert_eq!(set.as_bytes(), packed(&model).as_bytes());
        }
        let end = u64::from(limits(&mut numbers).1);
        if end < 1 << 22 {
            let lacked: Model = (0..end as u32).filter(|id| !model.contains(id)).collect();
            assert_eq!(set.complement(end).unwrap().unpack(), listed(&lacked));
        }
        set.remove_range(..).unwrap();
        assert!(set.is_empty());
    }
}

#[test]
fn moved_by_a_number() {
    let mut numbers = Numbers(23);
    for round in rounds(10 * FORMS) {
        let model = some_ids(&mut numbers, round % FORMS);
        let set = packed(&model);
        let far = i64::from(numbers.next());
        for by in [0, 1, -1, 65536, -65536, 7 << 16, far, -far, i64::from(LAST), 1 << 32, i64::MAX, i64::MIN] {
            let moved = model.iter().filter_map(|&id| u32::try_from(i64::from(id).checked_add(by)?).ok());
            assert_eq!(set.shift(by).unwrap().as_bytes(), packed(&moved.collect()).as_bytes());
        }
    }
}

#[test]
fn more_ids_than_a_set_has() {
    let mut set = IdSetBuf::open(longest(0)).unwrap();
    let whole = set.clone();
    assert_eq!((set.insert(LAST), &set), (Err(Error::TooLong((1 << 28) + 1)), &whole));
    assert_eq!((set.insert_range(1 << 28..1 << 29), &set), (Err(Error::TooLong(1 << 29)), &whole));
    assert_eq!((set.insert_range(..), &set), (Err(Error::TooLong(1 << 32)), &whole));
    assert_eq!((set.remove(5), set.insert(LAST), set.len()), (Ok(true), Ok(true), 1 << 28));
    // Twice as many as a set has, less those that this one has.
    assert_eq!(set.complement(1 << 29).err(), Some(Error::TooLong((1 << 28) + 1)));
    assert_eq!(set.complement((1 << 29) - 1).unwrap().len(), 1 << 28);
    assert_eq!(set.complement(u64::MAX).err(), Some(Error::TooLong(15 << 28)));
    // Below 2^29 - 2 the set lacks 2^28 - 1 ids. It has the last id too.
    let end = (1 << 29) - 2;
    assert_eq!((set.flip(..1 << 29), set.flip(..end), set.len()), (Err(Error::TooLong((1 << 28) + 2)), Ok(()), 1 << 28));
    assert_eq!((set.flip(6..7), set.contains(6), set.contains(5)), (Err(Error::TooLong((1 << 28) + 1)), false, true));
    assert_eq!((set.flip(..end), set.contains_range(..5), set.contains_range(..)), (Ok(()), true, false));
    assert_eq!((set.count_between(..), set.count_between(LAST..), set.contains_range(LAST..)), (1 << 28, 1, true));
    assert_eq!((set.remove_range(7..), set.unpack()), (Ok(()), Vec::from([0, 1, 2, 3, 4, 6])));
    assert_eq!(set.complement(0), Ok(IdSetBuf::default()));
}
