//! Reading: all values, values at positions, iterators, cursors, 64-bit values.

use std::vec;
use std::vec::Vec;

use super::column_model::{Numbers, for_each_column, panic_of};
use crate::column::{Column, ColumnBuf, Cursor, Iter, Kind, OutOfBounds};

/// The value around what a call may write.
const CANARY: u32 = 0xA5A5_A5A5;

/// Positions in a column, at its ends and after it.
fn positions(len: usize, numbers: &mut Numbers) -> Vec<usize> {
    let near = [0, 1, 127, 128, 129, 256, len.saturating_sub(1), len, len + 1, len + 128, usize::MAX - 1, usize::MAX];
    near.into_iter().chain((0..8).map(|_| numbers.below(len + 1))).collect()
}

#[test]
fn all_values() {
    let mut longer = vec![CANARY; 2000];
    let mut shorter = Vec::new();
    for_each_column(3, |column, values, _| {
        assert_eq!(column.unpack(), values);
        column.unpack_into(&mut longer);
        assert_eq!(longer, values);
        longer.resize(2000, CANARY);
        shorter.clear();
        column.unpack_into(&mut shorter);
        assert_eq!(shorter, values);
    });
}

/// A vector that had room once is filled without new memory.
#[test]
fn a_vector_is_used_again() {
    let mut values = vec![1; 500];
    let (start, capacity) = (values.as_ptr(), values.capacity());
    for len in [500, 3, 0, 129, 500] {
        let column: ColumnBuf = (0..len).collect();
        column.unpack_into(&mut values);
        assert_eq!(values, (0..len).collect::<Vec<u32>>());
        column.gather_into(&[0; 400][..400.min(len as usize)], &mut values).unwrap();
        assert_eq!((values.as_ptr(), values.capacity()), (start, capacity));
    }
}

#[test]
fn values_of_a_range_of_positions() {
    for_each_column(4, |column, values, numbers| {
        for from in positions(values.len(), numbers) {
            for room in [0, 1, 31, 128, 129, values.len(), values.len() + 3] {
                let right = &values[from.min(values.len())..];
                let right = &right[..right.len().min(room)];
                let mut found = vec![CANARY; room];
                assert_eq!(column.unpack_range(from, &mut found), right.len());
                assert_eq!(&found[..right.len()], right);
                assert!(found[right.len()..].iter().all(|value| *value == CANARY));
            }
        }
    });
}

#[test]
fn the_value_at_each_position() {
    for_each_column(5, |column, values, numbers| {
        for (position, value) in values.iter().enumerate() {
            assert_eq!(column.get(position), Some(*value));
        }
        for position in positions(values.len(), numbers) {
            assert_eq!(column.get(position), values.get(position).copied());
            let wide = values.get(position).map(|value| (7 << 40) + u64::from(*value));
            assert_eq!(column.get_wide(7 << 40, position), wide);
        }
    });
}

#[test]
fn values_at_positions() {
    for_each_column(6, |column, values, numbers| {
        let some: Vec<usize> = (0..numbers.below(300)).map(|_| numbers.below(values.len().max(1))).collect();
        let mut rising = some.clone();
        rising.sort_unstable();
        let all = (0..values.len()).collect();
        for positions in [some, rising, all] {
            let right: Option<Vec<u32>> = positions.iter().map(|position| values.get(*position).copied()).collect();
            let mut found = vec![CANARY; numbers.below(2 * positions.len() + 1)];
            let before = found.clone();
            match right {
                Some(right) => {
                    let ids: Vec<u32> = positions.iter().map(|position| *position as u32).collect();
                    assert_eq!([column.gather_ids(&ids), column.gather_ids(ids)], [Ok(right.clone()), Ok(right.clone())]);
                    assert_eq!(column.gather(&positions).as_ref(), Ok(&right));
                    assert_eq!(column.gather_into(&positions, &mut found), Ok(()));
                    assert_eq!(found, right);
                }
                None => {
                    assert_eq!(column.gather(&positions), Err(OutOfBounds { index: 0, position: 0 }));
                    assert_eq!(column.gather_into(&positions, &mut found), Err(OutOfBounds { index: 0, position: 0 }));
                    assert_eq!(found, before);
                }
            }
        }
    });
}

/// One position is not in the column, and a later one is not either: the first counts, and the vector does not change.
#[test]
fn positions_that_are_not_there() {
    for_each_column(7, |column, values, numbers| {
        let len = values.len();
        for wrong in [len, len + 1, usize::MAX] {
            let index = if len == 0 { 0 } else { numbers.below(200) };
            let mut positions: Vec<usize> = (0..index).map(|_| numbers.below(len)).collect();
            positions.extend([wrong, usize::MAX]);
            let refused = OutOfBounds { index, position: wrong };
            assert_eq!(column.gather(&positions), Err(refused));
            if let Ok(id) = u32::try_from(wrong) {
                let ids = positions[..index].iter().map(|position| *position as u32).chain([id, u32::MAX]);
                assert_eq!(column.gather_ids(ids), Err(refused));
            }
            for room in [0, index, index + 2, 500] {
                let mut found = vec![CANARY; room];
                assert_eq!(column.gather_into(&positions, &mut found), Err(refused));
                assert_eq!(found, vec![CANARY; room]);
            }
        }
    });
}

#[test]
fn sums_of_a_base_and_values() {
    const MOST: u64 = u64::MAX - u32::MAX as u64;
    for_each_column(8, |column, values, _| {
        for base in [0, 1, u64::from(u32::MAX), 1 << 40, MOST] {
            let right: Vec<u64> = values.iter().map(|value| base + u64::from(*value)).collect();
            assert_eq!(column.unpack_wide(base), right);
            assert_eq!(column.get_wide(base, 0), right.first().copied());
        }
    });
    // By hand: 2^64 - 2^32 and 2^32 - 1 are 2^64 - 1.
    let column: ColumnBuf = [u32::MAX].into_iter().collect();
    assert_eq!(column.unpack_wide(MOST), [u64::MAX]);
    // The panic does not depend on the values, or whether there are any.
    for column in [column, ColumnBuf::default()] {
        for base in [MOST + 1, u64::MAX] {
            let text = std::format!("the base {base} is above 18446744069414584320");
            assert_eq!(panic_of(|| column.get_wide(base, 0)), text);
            assert_eq!(panic_of(|| column.get_wide(base, 9)), text);
            assert_eq!(panic_of(|| column.unpack_wide(base)), text);
        }
    }
}

/// What is left of an iterator, by each of its calls.
fn is_left(iter: &Iter<'_>, left: &[u32], numbers: &mut Numbers) {
    assert_eq!((iter.len(), iter.size_hint()), (left.len(), (left.len(), Some(left.len()))));
    assert!(iter.clone().eq(left.iter().copied()));
    assert_eq!(iter.clone().fold(Vec::new(), |all, value| [all, vec![value]].concat()), left);
    assert_eq!((iter.clone().count(), iter.clone().last()), (left.len(), left.last().copied()));
    let step = 1 + numbers.below(200);
    assert!(iter.clone().step_by(step).eq(left.iter().copied().step_by(step)));
    let passed = numbers.below(left.len() + 2);
    assert!(iter.clone().skip(passed).eq(left.iter().copied().skip(passed)));
}

#[test]
fn iterators() {
    for_each_column(9, |column, values, numbers| {
        let (mut iter, mut model) = (column.iter(), values.iter());
        is_left(&iter, values, numbers);
        while model.len() > 0 {
            match numbers.below(3) {
                0 => assert_eq!(iter.next(), model.next().copied()),
                1 => {
                    let n = numbers.below(5);
                    assert_eq!(iter.nth(n), model.nth(n).copied());
                }
                _ => {
                    let n = numbers.below(300);
                    assert_eq!(iter.nth(n), model.nth(n).copied());
                }
            }
            if numbers.below(8) == 0 {
                is_left(&iter, model.as_slice(), numbers);
            }
        }
        for _ in 0..3 {
            assert_eq!((iter.next(), iter.nth(usize::MAX), iter.len()), (None, None, 0));
        }
        assert_eq!((column.iter().nth(usize::MAX), column.iter().nth(values.len())), (None, None));
    });
}

#[test]
fn iterators_of_each_owner() {
    let bytes = [0x42, 1, 2, 2];
    let owned = ColumnBuf::open(bytes.to_vec()).unwrap();
    let column: &Column = &owned;
    let mut found = Vec::new();
    for value in column {
        found.push(value);
    }
    for value in &owned {
        found.push(value);
    }
    // The iterator lives as long as the bytes.
    let values = Column::open(&bytes).unwrap().into_iter();
    found.extend(values);
    assert_eq!(found, [3, 1].repeat(3));
}

/// A cursor is at a position.
fn is_at(cursor: &Cursor<'_>, position: usize, values: &[u32]) {
    let end = (position / 128 * 128 + 128).min(values.len());
    assert_eq!((cursor.position(), cursor.value()), (position, values.get(position).copied()));
    assert_eq!(cursor.block(), &values[position..end]);
}

#[test]
fn cursors() {
    for_each_column(10, |column, values, numbers| {
        let (mut cursor, mut position) = (column.cursor(), 0);
        for _ in 0..60 {
            is_at(&cursor, position, values);
            match numbers.below(5) {
                4 => {
                    let room = [0, 1, 100, 128, 129, 400][numbers.below(6)];
                    let right = &values[position..values.len().min(position + room)];
                    let mut page = vec![CANARY; room];
                    assert_eq!((cursor.fill(&mut page), &page[..right.len()]), (right.len(), right));
                    assert!(page[right.len()..].iter().all(|value| *value == CANARY));
                    position += right.len();
                }
                0 => {
                    cursor.skip_block();
                    position = (position / 128 * 128 + 128).min(values.len());
                }
                1 => {
                    let to = numbers.below(values.len() + 3);
                    cursor.move_to(to);
                    position = to.min(values.len());
                }
                _ => {
                    cursor.advance();
                    position = (position + 1).min(values.len());
                }
            }
        }
        cursor.move_to(usize::MAX);
        is_at(&cursor, values.len(), values);
        cursor.advance();
        cursor.skip_block();
        is_at(&cursor, values.len(), values);
        cursor.move_to(0);
        is_at(&cursor, 0, values);
    });
}

#[test]
fn each_value_by_a_cursor() {
    for_each_column(11, |column, values, _| {
        let (mut cursor, mut found) = (column.cursor(), Vec::new());
        while let Some(value) = cursor.value() {
            found.push(value);
            cursor.advance();
        }
        assert_eq!(found, values);
    });
}

/// 0 to 999,999 packed, and passed over: only a block is unpacked for each value.
#[test]
fn long_steps() {
    let column = ColumnBuf::pack(Kind::Sorted, &(0..1_000_000).collect::<Vec<u32>>()).unwrap();
    let mut iter = column.iter();
    for value in 0..10 {
        assert_eq!(iter.nth(99_999), Some(100_000 * value + 99_999));
    }
    assert_eq!((iter.next(), iter.len()), (None, 0));
}
