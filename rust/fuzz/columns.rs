//! Columns, and what a vector of values says of them.

use bitpacking::column::{Column, ColumnBuf, Error, Kind};

use crate::MOST;

/// How many values a block has.
const BLOCK: usize = 128;

pub fn read(column: &Column, given: &[u32]) {
    if column.len() > MOST {
        return sample(column, given);
    }
    let values = column.unpack();
    assert_eq!((values.len(), column.is_empty()), (column.len(), values.is_empty()));
    assert_eq!(ColumnBuf::pack(column.kind(), &values).unwrap().as_bytes(), column.as_bytes(), "a column has one encoding");
    assert!(column.iter().eq(values.iter().copied()) && (column.kind() == Kind::Plain || values.is_sorted()));
    assert_eq!(column.blocks(), values.len() / BLOCK);
    for (block, part) in values.chunks_exact(BLOCK).enumerate() {
        let (low, high) = column.bounds(block).unwrap();
        assert!(part.iter().all(|it| (low..=high).contains(it)));
    }
    assert_eq!(column.bounds(column.blocks()), None);
    let positions: Vec<usize> = given.iter().map(|it| *it as usize % (values.len() + 1)).collect();
    let right: Option<Vec<u32>> = positions.iter().map(|it| values.get(*it).copied()).collect();
    assert_eq!(column.gather(&positions).ok(), right);
    let mut cursor = column.cursor();
    for &position in &positions {
        assert_eq!(column.get(position), values.get(position).copied());
        assert_eq!(column.get_wide(1 << 40, position), values.get(position).map(|it| u64::from(*it) + (1 << 40)));
        cursor.move_to(position);
        assert_eq!((cursor.position(), cursor.value()), (position, values.get(position).copied()));
        assert_eq!(cursor.block(), &values[position..(position / BLOCK * BLOCK + BLOCK).min(values.len())]);
        cursor.advance();
        assert_eq!(cursor.value(), values.get(position + 1).copied());
        cursor.skip_block();
        let mut part = [7; 300];
        let count = column.unpack_range(position, &mut part);
        assert_eq!((count, &part[..count]), (part.len().min(values.len() - position), &values[position..position + count]));
    }
    ranges(column, &values, given);
    let more = &given[..given.len().min(3)];
    same(column.append(more), column.kind(), &values, more.iter().map(|it| u64::from(*it)));
}

/// Searches and ranges, from some values and arguments.
fn ranges(column: &Column, values: &[u32], given: &[u32]) {
    let own = values.iter().step_by(values.len() / 16 + 1).copied();
    for (low, high) in own.zip(given.iter().copied()).chain(given.iter().copied().zip(given[1..].iter().copied())) {
        let within = |it: &u32| (low..=high).contains(it);
        assert_eq!(column.count_between(low..=high), values.iter().filter(|it| within(it)).count());
        let positions = values.iter().enumerate().filter(|it| within(it.1)).map(|it| it.0);
        assert!(column.positions_between(low..=high).eq(positions));
        let position = values.partition_point(|it| *it < low);
        let found = values.get(position).map(|it| (position, *it));
        assert_eq!(column.seek(low).ok(), (column.kind() == Kind::Sorted).then_some(found));
    }
}

/// A column with too many values to unpack: each answer by another one.
fn sample(column: &Column, given: &[u32]) {
    for &number in given {
        let position = number as usize % (column.len() + 1);
        let mut part = [0; 300];
        let count = column.unpack_range(position, &mut part);
        assert!(count == part.len().min(column.len() - position));
        assert_eq!(column.get(position), part[..count].first().copied());
        let bounds = column.bounds(position / BLOCK);
        assert!(bounds.is_none_or(|it| count == 0 || (it.0..=it.1).contains(&part[0])));
        if let Ok(found) = column.seek(number) {
            assert!(found.is_none_or(|it| it.1 >= number && column.get(it.0) == Some(it.1)));
        }
    }
}

/// Compares the column of values and more with what packing them says: also their faults.
fn same(found: Result<ColumnBuf, Error>, kind: Kind, values: &[u32], more: impl Iterator<Item = u64>) {
    let all: Vec<u64> = values.iter().map(|it| u64::from(*it)).chain(more).collect();
    let right: Result<Vec<u32>, _> = all.iter().map(|it| u32::try_from(*it)).collect();
    match right {
        Ok(all) => assert_eq!(found, ColumnBuf::pack(kind, &all)),
        Err(_) => assert!(matches!(found, Err(Error::Overflow(_)))),
    }
}

pub fn combine(one: &Column, other: &Column, given: &[u32]) {
    if one.len().max(other.len()) > MOST {
        return;
    }
    let values = one.unpack();
    for base in [0, given[0], *given.last().unwrap()] {
        same(one.join(other, base), one.kind(), &values, other.iter().map(|it| u64::from(it) + u64::from(base)));
    }
}
