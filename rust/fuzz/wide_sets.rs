//! Sets of 64-bit ids, and what a vector of ids says of them.

use std::collections::BTreeSet;

use bitpacking::set::IdSetBuf;
use bitpacking::set::wide::{Error, WideSet, WideSetBuf, WideSetBuilder};

use crate::MOST;

pub fn read(set: &WideSet, given: &[u64]) {
    if set.len() > MOST {
        return sample(set, given);
    }
    let ids = set.unpack();
    assert!(ids.len() == set.len() && ids.is_sorted_by(|a, b| a < b));
    assert_eq!((set.min(), set.max(), set.is_empty()), (ids.first().copied(), ids.last().copied(), ids.is_empty()));
    assert_eq!(WideSetBuf::pack(&ids).unwrap().as_bytes(), set.as_bytes(), "a wide set has one encoding");
    assert!(set.iter().eq(ids.iter().copied()));
    let own = ids.iter().step_by(ids.len() / 16 + 1).flat_map(|it| [it.wrapping_sub(1), *it, it.wrapping_add(1)]);
    for target in own.chain(given.iter().copied()) {
        let position = ids.partition_point(|it| *it < target);
        let found = ids.get(position).map(|it| (position, *it));
        assert_eq!(set.contains(target), found.is_some_and(|it| it.1 == target));
        assert_eq!((set.rank(target), set.seek(target)), (position, found));
        assert_eq!(set.select(target as usize), ids.get(target as usize).copied());
        assert!(set.range(target..).eq(ids[position..].iter().copied()));
        let mut page = [7; 300];
        let count = set.unpack_range(position, &mut page);
        assert_eq!((count, &page[..count]), (page.len().min(ids.len() - position), &ids[position..position + count]));
        assert!(page[count..].iter().all(|it| *it == 7));
        part(set, &ids, (target >> 32) as u32);
    }
    built(&ids, given);
}

/// The ids that share their high word, as an id set, if the bytes have one.
fn part(set: &WideSet, ids: &[u64], high: u32) {
    let ids = ids.iter().filter(|it| (**it >> 32) as u32 == high);
    let lows: Vec<u32> = ids.map(|it| *it as u32).collect();
    let right = IdSetBuf::pack(&lows).ok().filter(|lows| set.as_bytes()[0] == 8 && !lows.is_empty());
    let found = set.part(high);
    assert!(found.as_ref().map(|it| it.as_bytes()) == right.as_ref().map(|it| it.as_bytes()));
    assert!(found.is_none_or(|it| it.unpack() == lows));
}

/// By a builder, up to the first argument that is not above the id before it.
fn built(ids: &[u64], given: &[u64]) {
    let mut builder = WideSetBuilder::new();
    assert_eq!(builder.push_all(ids), Ok(()));
    let all = [ids, given].concat();
    let fall = all.windows(2).position(|it| it[0] >= it[1]).map(|it| it + 1);
    assert_eq!(WideSetBuf::pack(&all).err(), fall.map(Error::NotSorted));
    assert_eq!(builder.extend(given).err(), fall.map(Error::NotSorted));
    let right = &all[..fall.unwrap_or(all.len())];
    assert!(builder.len() == right.len() && builder.pack() == WideSetBuf::pack(right).unwrap());
}

pub fn combine(one: &WideSet, other: &WideSet) {
    if one.len().max(other.len()) > MOST {
        let common = one.intersect_len(other);
        assert_eq!((one.subtract_len(other), one.unite_len(other)), (one.len() - common, one.len() + other.len() - common));
        return;
    }
    let [a, b]: [BTreeSet<u64>; 2] = [one, other].map(|it| it.iter().collect());
    let wanted: [Vec<u64>; 4] = [&a & &b, &a | &b, &a - &b, &a ^ &b].map(|it| it.into_iter().collect());
    let packed = [one & other, one | other, one - other, one ^ other];
    let lens = [one.intersect_len(other), one.unite_len(other), one.subtract_len(other), one.symmetric_difference_len(other)];
    for (k, wanted) in wanted.iter().enumerate() {
        assert!(packed[k] == WideSetBuf::pack(wanted).unwrap() && lens[k] == wanted.len());
    }
    assert_eq!((one.is_subset(other), one.is_disjoint(other)), (a.is_subset(&b), a.is_disjoint(&b)));
}

/// A set with too many ids to unpack: each answer by another one.
fn sample(set: &WideSet, given: &[u64]) {
    for target in given {
        let position = set.rank(*target);
        assert_eq!(set.select(position), set.seek(*target).map(|it| it.1));
        assert!(position <= set.len() && set.seek(*target).is_none_or(|it| it.0 == position && it.1 >= *target));
        assert_eq!(set.contains(*target), set.select(position) == Some(*target));
        let mut page = [0; 300];
        let count = set.unpack_range(position, &mut page);
        assert!(set.range(target..).take(count).eq(page[..count].iter().copied()));
        assert!(set.part((target >> 32) as u32).is_none_or(|it| it.contains(*target as u32) == set.contains(*target)));
    }
}
