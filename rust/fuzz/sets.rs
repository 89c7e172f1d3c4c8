//! Sets, and what a vector of ids says of them.

use std::collections::BTreeSet;

use bitpacking::set::{self, Error, IdSet, IdSetBuf, Query};

use crate::MOST;

/// The first id at least a target, with its position.
fn first_from(ids: &[u32], target: u32) -> Option<(usize, u32)> {
    let position = ids.partition_point(|it| *it < target);
    ids.get(position).map(|it| (position, *it))
}

pub fn read(set: &IdSet, given: &[u32]) {
    if set.len() > MOST {
        return sample(set, given);
    }
    let ids = set.unpack();
    assert!(ids.len() == set.len() && ids.is_sorted_by(|a, b| a < b));
    assert_eq!((set.min(), set.max(), set.is_empty()), (ids.first().copied(), ids.last().copied(), ids.is_empty()));
    assert_eq!(IdSetBuf::pack(&ids).unwrap().as_bytes(), set.as_bytes(), "a set has one encoding");
    assert!(set.iter().eq(ids.iter().copied()) && set.iter().rev().eq(ids.iter().rev().copied()));
    let own = ids.iter().step_by(ids.len() / 16 + 1).flat_map(|it| [it.wrapping_sub(1), *it, it.wrapping_add(1)]);
    let mut cursor = set.cursor();
    for target in own.chain(given.iter().copied()) {
        let found = first_from(&ids, target);
        let position = found.map_or(ids.len(), |it| it.0);
        assert_eq!(set.contains(target), found.is_some_and(|it| it.1 == target));
        assert_eq!((set.rank(target), set.seek(target)), (position, found));
        assert_eq!(set.select(target as usize), ids.get(target as usize).copied());
        let from = cursor.position().max(position);
        assert_eq!((cursor.seek(target), cursor.position()), (ids.get(from).copied(), from.min(ids.len())));
        assert!(set.range(target..).eq(ids[position..].iter().copied()));
        let mut part = [7; 300];
        let count = set.unpack_range(position, &mut part);
        assert_eq!((count, &part[..count]), (part.len().min(ids.len() - position), &ids[position..position + count]));
        assert!(part[count..].iter().all(|it| *it == 7));
    }
    in_place(set, &ids, given);
    let bitmap = set.to_roaring().unwrap();
    assert_eq!(bitmap.len(), set.roaring_len());
    assert_eq!(IdSetBuf::from_roaring(&bitmap).unwrap().as_bytes(), set.as_bytes());
    let by = i64::from(given[0] as i32);
    assert!(set.shift(by).unwrap().iter().eq(ids.iter().filter_map(|it| u32::try_from(i64::from(*it) + by).ok())));
    let more = first_above(&ids, given);
    let all = [&ids[..], &more].concat();
    assert_eq!(set.append(&more).unwrap(), IdSetBuf::pack(&all).unwrap());
}

/// The numbers above all ids, in order and each once.
fn first_above(ids: &[u32], given: &[u32]) -> Vec<u32> {
    let above = given.iter().copied().filter(|it| ids.last().is_none_or(|last| it > last));
    above.collect::<BTreeSet<u32>>().into_iter().collect()
}

/// A set with too many ids to unpack: each answer by another one.
fn sample(set: &IdSet, given: &[u32]) {
    for target in given {
        let position = set.rank(*target);
        assert_eq!(set.select(position), set.seek(*target).map(|it| it.1));
        assert!(position <= set.len() && set.seek(*target).is_none_or(|it| it.0 == position && it.1 >= *target));
        assert_eq!(set.contains(*target), set.select(position) == Some(*target));
        let mut part = [0; 300];
        let count = set.unpack_range(position, &mut part);
        assert!(set.range(target..).take(count).eq(part[..count].iter().copied()));
    }
}

/// Vectors with and without the ids.
fn in_place(set: &IdSet, ids: &[u32], given: &[u32]) {
    let all: BTreeSet<u32> = given.iter().chain(ids.iter().step_by(3)).copied().collect();
    let sorted: Vec<u32> = all.iter().copied().collect();
    let has = |it: &u32| ids.binary_search(it).is_ok();
    let (mut retained, mut removed, mut added) = (sorted.clone(), sorted.clone(), sorted.clone());
    assert_eq!((set.retain_in(&mut retained), set.remove_from(&mut removed), set.add_to(&mut added)), (Ok(()), Ok(()), Ok(())));
    assert!(retained.iter().eq(all.iter().filter(|it| has(it))) && removed.iter().eq(all.iter().filter(|it| !has(it))));
    assert!(added.into_iter().eq(all.union(&ids.iter().copied().collect()).copied()));
    let fall = given.windows(2).position(|it| it[0] >= it[1]).map_or(Ok(()), |it| Err(Error::NotSorted(it + 1)));
    assert_eq!(set.retain_in(&mut given.to_vec()), fall);
}

pub fn combine(one: &IdSet, other: &IdSet, given: &[u32]) {
    if one.len().max(other.len()) > MOST {
        let common = one.intersect_len(other);
        assert_eq!((one.subtract_len(other), one.unite_len(other)), (one.len() - common, one.len() + other.len() - common));
        return;
    }
    let [a, b]: [BTreeSet<u32>; 2] = [one, other].map(|it| it.iter().collect());
    let wanted: [Vec<u32>; 4] = [
        a.intersection(&b).copied().collect(),
        a.union(&b).copied().collect(),
        a.difference(&b).copied().collect(),
        a.symmetric_difference(&b).copied().collect(),
    ];
    let packed = [one.intersect(other), one.unite(other), one.subtract(other), one.symmetric_difference(other)];
    let lens = [one.intersect_len(other), one.unite_len(other), one.subtract_len(other), one.symmetric_difference_len(other)];
    let query = Query::from(one);
    let queries = [query.clone().and(other), query.clone().or(other), query.clone().and_not(other), query.xor(other)];
    for (k, wanted) in wanted.iter().enumerate() {
        assert!(packed[k] == IdSetBuf::pack(wanted).unwrap() && lens[k] == wanted.len());
        assert!(queries[k].unpack().as_ref() == Ok(wanted) && queries[k].count() == Ok(wanted.len()));
        let mut found = queries[k].ids().unwrap();
        let target = given[k];
        found.seek(target);
        assert_eq!(found.value(), wanted.iter().copied().find(|it| *it >= target));
    }
    assert_eq!((one.is_subset(other), one.is_disjoint(other)), (a.is_subset(&b), a.is_disjoint(&b)));
    let three = [one, other, &*packed[3]];
    assert_eq!(set::intersect_all(&three), []);
    assert_eq!((set::unite_all(&three), set::unite_all_len(&three)), (wanted[1].clone(), wanted[1].len()));
    assert_eq!(set::subtract_all(&[&*packed[1], one, other]), []);
}
