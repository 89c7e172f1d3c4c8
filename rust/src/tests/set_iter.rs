//! Iterators, ranges and cursors of sets, against plain vectors.

use alloc::vec::Vec;
use core::ops::Bound;
use core::ops::Bound::{Excluded, Included, Unbounded};

use super::rounds;
use super::set_models::{FORMS, Model, Numbers, listed, packed, some_ids};
use super::set_reading::in_slices;
use crate::set::{Cursor, IdSet, IdSetBuf, Iter, SetCursor};

/// A model of each form, and its set.
fn sets(seed: u64) -> impl Iterator<Item = (Numbers, Model, IdSetBuf)> {
    (0..2 * FORMS).map(move |round| {
        let mut numbers = Numbers(seed + u64::from(round));
        let model = some_ids(&mut numbers, round % FORMS);
        let set = packed(&model);
        (numbers, model, set)
    })
}

/// A target near the next ids.
fn near(numbers: &mut Numbers, ids: &[u32]) -> u32 {
    let index = [0, 1, 20, 300, 5000][numbers.below(5) as usize];
    let id = ids.get(index).or(ids.last()).copied().unwrap_or(7);
    id.saturating_add(numbers.below(5)).saturating_sub(2)
}

/// Moves from both ends at random, until no id is left.
fn moves(numbers: &mut Numbers, mut iter: Iter<'_>, ids: &[u32]) {
    let mut ids = ids.iter();
    while ids.len() > 0 {
        assert_eq!((iter.len(), iter.size_hint()), (ids.len(), ids.size_hint()));
        let n = [0, 1, 3, 40, 300][numbers.below(5) as usize];
        match numbers.below(8) {
            0 => assert_eq!(iter.next(), ids.next().copied()),
            1 => assert_eq!(iter.next_back(), ids.next_back().copied()),
            2 => assert_eq!(iter.nth(n), ids.nth(n).copied()),
            3 => assert_eq!(iter.nth_back(n), ids.nth_back(n).copied()),
            4 => {
                let target = near(numbers, ids.as_slice());
                iter.advance_to(target);
                ids = ids.as_slice()[ids.as_slice().partition_point(|id| *id < target)..].iter();
            }
            5 => assert!(iter.by_ref().take(n).eq(ids.by_ref().take(n).copied())),
            6 => {
                let last = ids.as_slice()[ids.len().saturating_sub(1 + n)];
                let target = last.saturating_add(numbers.below(5)).saturating_sub(2);
                iter.advance_back_to(target);
                ids = ids.as_slice()[..ids.as_slice().partition_point(|id| *id <= target)].iter();
            }
            _ => {
                assert_eq!((iter.clone().last(), iter.clone().count()), (ids.clone().last().copied(), ids.len()));
                assert!(iter.clone().eq(ids.clone().copied()) && iter.clone().rev().eq(ids.clone().rev().copied()));
                assert_eq!(iter.clone().map(u64::from).sum::<u64>(), ids.clone().copied().map(u64::from).sum());
            }
        }
    }
    assert_eq!((iter.next(), iter.next_back(), iter.nth(2), iter.len()), (None, None, None, 0));
}

#[test]
fn iterators() {
    for (mut numbers, model, set) in sets(10) {
        let ids = listed(&model);
        assert!(set.iter().eq(ids.iter().copied()) && (&set).into_iter().rev().eq(ids.iter().rev().copied()));
        for _ in 0..3 {
            moves(&mut numbers, set.iter(), &ids);
        }
    }
}

/// Sets that are consumed, with bytes of their own and borrowed ones.
#[test]
fn consumed_sets() {
    for (_, model, set) in sets(40) {
        let ids = listed(&model);
        let borrowed = IdSet::open(set.as_bytes()).unwrap();
        let mut found = Vec::new();
        for id in borrowed {
            found.push(id);
        }
        assert_eq!(found, ids);
        assert!(set.clone().into_iter().rev().eq(ids.iter().rev().copied()));
        assert_eq!(set.clone().into_iter().map(u64::from).sum::<u64>(), ids.iter().copied().map(u64::from).sum());
        let mut owned = set.into_iter();
        assert_eq!((owned.len(), owned.nth(5), owned.next()), (ids.len(), ids.get(5).copied(), ids.get(6).copied()));
    }
}

/// The ids of all kinds of limits, by comparing each.
#[test]
fn ranges() {
    for (mut numbers, model, set) in sets(70) {
        let ids = listed(&model);
        for _ in rounds(60) {
            let mut limit = || match numbers.below(5) {
                0 => [0, 1, u32::MAX - 1, u32::MAX][numbers.below(4) as usize],
                1 => numbers.next(),
                _ => ids.get(numbers.below(ids.len() as u32 + 1) as usize).map_or(9, |id| id ^ (numbers.below(8) / 7)),
            };
            let (from, to) = (limit(), limit());
            let bound = |kind: u32, limit: u32| -> Bound<u32> { [Included(limit), Excluded(limit), Unbounded][kind as usize] };
            for kinds in 0..9 {
                let limits = (bound(kinds / 3, from), bound(kinds % 3, to));
                let within = |id: &u32| core::ops::RangeBounds::contains(&limits, id);
                let wanted: Vec<u32> = ids.iter().copied().filter(within).collect();
                assert_eq!(set.range(limits).collect::<Vec<u32>>(), wanted);
                assert_eq!((set.range(limits).len(), set.range(limits).next_back()), (wanted.len(), wanted.last().copied()));
                assert_eq!(set.count_between(limits), wanted.len());
            }
        }
        let middle = ids.get(ids.len() / 2).copied().unwrap_or(8);
        let upper: Vec<u32> = ids[ids.len() / 2..].to_vec();
        moves(&mut numbers, set.range(middle..), &upper);
        assert!(set.range(middle..middle).next().is_none() && set.range(..).eq(&set));
    }
}

/// Moves a cursor of any kind, also by `fill`, beside its plain ids.
pub(super) fn walks<C: Cursor>(numbers: &mut Numbers, mut cursor: C, fill: fn(&mut C, &mut [u32]) -> usize, ids: &[u32]) {
    let mut at = 0;
    assert_eq!(cursor.value(), ids.first().copied());
    while at < ids.len() {
        let step = numbers.below(4);
        if step == 0 {
            let mut page = [7; 600];
            let room = [0, 1, 2, 64, 255, 256, 257, 600][numbers.below(8) as usize];
            let len = room.min(ids.len() - at);
            assert_eq!((fill(&mut cursor, &mut page[..room]), &page[..len]), (len, &ids[at..at + len]));
            assert!(page[room..].iter().all(|id| *id == 7));
            at += len;
        } else if step == 1 {
            let target = near(numbers, &ids[at..]);
            at += ids[at..].partition_point(|id| *id < target);
            assert_eq!(cursor.seek(target), ids.get(at).copied());
        } else {
            at += 1;
            assert_eq!(cursor.advance(), ids.get(at).copied());
        }
        assert_eq!(cursor.value(), ids.get(at).copied());
    }
    assert_eq!((cursor.advance(), cursor.seek(0), cursor.value()), (None, None, None));
    assert_eq!((fill(&mut cursor, &mut [1; 300]), cursor.value()), (0, None));
}

/// The rest of a slice, after the last id.
#[test]
fn filled_to_the_end() {
    let set: IdSetBuf = (0..700).collect();
    let mut page = [7; 500];
    let mut cursor = set.cursor();
    assert_eq!((cursor.fill(&mut page), cursor.fill(&mut page), cursor.position()), (500, 200, 700));
    assert!(page[..200].iter().copied().eq(500..700) && page[200..].iter().copied().eq(200..500));
}

/// Cursors and iterators over slices of bytes, of bits and full ones, each as long or as short as it can be.
#[test]
fn slices_of_each_length() {
    let mut numbers = Numbers(130);
    for lengths in [&[31][..], &[32], &[33], &[255], &[256], &[31, 32, 33, 255, 256, 1]] {
        for slices in [1, 33, 256] {
            let ids = in_slices(&mut numbers, slices, lengths);
            let (set, ids) = (packed(&ids), listed(&ids));
            walks(&mut numbers, set.cursor(), SetCursor::fill, &ids);
            moves(&mut numbers, set.iter(), &ids);
        }
    }
}

#[test]
fn cursors() {
    for (mut numbers, model, set) in sets(100) {
        let ids = listed(&model);
        for _ in 0..3 {
            walks(&mut numbers, set.cursor(), SetCursor::fill, &ids);
        }
        let mut cursor = set.cursor();
        for step in 0..100 {
            let position = cursor.position();
            assert_eq!(cursor.value(), ids.get(position).copied());
            match step % 3 {
                0 => cursor.advance(),
                _ => cursor.seek(near(&mut numbers, &ids[position..])),
            };
        }
        let greatest = ids[cursor.position()..].last().copied().filter(|id| *id == u32::MAX);
        assert_eq!((cursor.seek(u32::MAX), cursor.clone().value()), (greatest, greatest));
        cursor.advance();
        assert_eq!((cursor.value(), cursor.position()), (None, ids.len()));
    }
}
