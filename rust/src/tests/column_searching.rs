//! Searching: the first value from a target on, values within a range, bounds of blocks.

use std::ops::{Bound, RangeBounds};
use std::vec;
use std::vec::Vec;

use super::column_model::{for_each_column, near};
use crate::column::{Column, ColumnBuf, Error, Kind};

#[test]
fn seeks() {
    for_each_column(12, |column, values, numbers| {
        for target in near(values, numbers) {
            let right = match column.kind() {
                Kind::Plain => Err(Error::WrongKind(Kind::Plain, Kind::Sorted)),
                Kind::Sorted => Ok(values.iter().position(|value| *value >= target).map(|position| (position, values[position]))),
            };
            assert_eq!(column.seek(target), right);
        }
    });
}

/// Counts and finds the values within a range, by each call.
fn finds(column: &Column, values: &[u32], range: impl RangeBounds<u32> + Clone, used: &mut Vec<usize>) {
    let right: Vec<usize> = (0..values.len()).filter(|position| range.contains(&values[*position])).collect();
    assert_eq!(column.count_between(range.clone()), right.len());
    column.positions_between_into(range.clone(), used);
    assert_eq!(*used, right);
    assert!(column.between_ids(range.clone()).iter().map(|id| id as usize).eq(right.iter().copied()));
    let mut found = column.positions_between(range);
    let (least, most) = found.size_hint();
    assert!(least <= right.len() && right.len() <= most.unwrap());
    assert!(found.clone().eq(right.iter().copied()));
    let half = right.len() / 2;
    assert!(found.by_ref().take(half).eq(right[..half].iter().copied()));
    let (least, most) = found.size_hint();
    assert!(least <= right.len() - half && right.len() - half <= most.unwrap());
    assert!(found.by_ref().eq(right[half..].iter().copied()));
    assert_eq!((found.next(), found.next(), found.size_hint()), (None, None, (0, Some(0))));
}

#[test]
fn values_within_ranges() {
    let mut used = vec![usize::MAX; 3000];
    for_each_column(13, |column, values, numbers| {
        let ends = near(values, numbers);
        finds(column, values, .., &mut used);
        for _ in 0..12 {
            let (low, high) = (ends[numbers.below(ends.len())], ends[numbers.below(ends.len())]);
            finds(column, values, low..=high, &mut used);
            finds(column, values, low..high, &mut used);
            finds(column, values, low.., &mut used);
            finds(column, values, ..high, &mut used);
            finds(column, values, ..=high, &mut used);
            finds(column, values, (Bound::Excluded(low), Bound::Included(high)), &mut used);
            finds(column, values, (Bound::Excluded(low), Bound::Excluded(high)), &mut used);
            finds(column, values, (Bound::Excluded(low), Bound::Unbounded), &mut used);
        }
    });
}

/// Ranges that have no value, of columns that have all of these ends.
#[test]
fn empty_ranges() {
    for kind in [Kind::Plain, Kind::Sorted] {
        let column = ColumnBuf::pack(kind, &[0, 0, 5, u32::MAX, u32::MAX]).unwrap();
        let none = |range: (Bound<u32>, Bound<u32>)| {
            let mut used = vec![7; 9];
            column.positions_between_into(range, &mut used);
            assert!(used.is_empty());
            assert_eq!((column.count_between(range), column.positions_between(range).next()), (0, None));
        };
        none((Bound::Excluded(u32::MAX), Bound::Unbounded));
        none((Bound::Unbounded, Bound::Excluded(0)));
        none((Bound::Included(5), Bound::Excluded(5)));
        none((Bound::Excluded(5), Bound::Included(5)));
        none((Bound::Included(6), Bound::Included(4)));
        none((Bound::Excluded(0), Bound::Excluded(1)));
        none((Bound::Included(6), Bound::Excluded(u32::MAX)));
        assert_eq!(column.positions_between(u32::MAX..).collect::<Vec<_>>(), [3, 4]);
        assert_eq!(column.positions_between(..1).collect::<Vec<_>>(), [0, 1]);
    }
}

/// More positions than a page has, in each block some and in some blocks all.
#[test]
fn many_positions() {
    let values: Vec<u32> = (0..100_000).map(|k| if k / 1000 % 3 == 0 { 5 } else { k * 7919 % 11 }).collect();
    let column: ColumnBuf = values.iter().copied().collect();
    let mut used = Vec::new();
    for high in 0..11 {
        finds(&column, &values, 5..=high, &mut used);
        finds(&column, &values, high..=high, &mut used);
    }
}

/// A plain block's bounds by its least value and the width of its greatest code; a sorted one's by its last value and the one before it.
#[test]
fn bounds_of_blocks() {
    for_each_column(14, |column, values, _| {
        assert_eq!(column.blocks(), values.len() / 128);
        for (block, part) in values.chunks_exact(128).enumerate() {
            let right = match column.kind() {
                Kind::Plain => {
                    let least = *part.iter().min().unwrap();
                    let width = 32 - (part.iter().max().unwrap() - least).leading_zeros();
                    (least, (u64::from(least) + (1 << width) - 1).min(u64::from(u32::MAX)) as u32)
                }
                Kind::Sorted => (values[(128 * block).saturating_sub(1)], part[127]),
            };
            assert_eq!(column.bounds(block), Some(right));
        }
        for block in [column.blocks(), column.blocks() + 1, 1 << 21, usize::MAX] {
            assert_eq!(column.bounds(block), None);
        }
    });
}
