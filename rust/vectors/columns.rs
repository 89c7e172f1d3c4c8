//! Columns: what their bytes say, and which bytes are refused.

use bitpacking::columns::{Column, ColumnError, ColumnKind, encode, encode_to, encoded_len};

use crate::report::Report;
use crate::rows::Row;

/// How many values are around those that a column writes.
const MORE: usize = 3;

pub fn kind_of(row: &Row) -> ColumnKind {
    if row.text("kind") == "sorted" { ColumnKind::Sorted } else { ColumnKind::Plain }
}

pub fn opened(row: &Row, report: &mut Report) {
    let (kind, values, bytes) = (kind_of(row), row.numbers("values"), row.bytes("bytes"));
    let column = match Column::open(&bytes) {
        Ok(column) => column,
        Err(fault) => return report.check(&row.name, "open", Some(fault), None),
    };
    let found = (column.kind(), column.len(), column.is_empty(), column.blocks());
    report.check(&row.name, "kind, len and blocks", found, (kind, values.len(), values.is_empty(), values.len() / 128));
    let again = Column::from_parts(&bytes, column.parts());
    report.check(&row.name, "len of from_parts", again.len(), values.len());
    copied(&column, &values, row, report);
    copied_from(&column, &values, row, report);
    gotten(&column, &values, row, report);
    bounded(&column, &values, row, report);
    sought(&column, &values, row, report);
    between(&column, &values, row, report);
    written(kind, &values, &bytes, row, report);
}

fn copied(column: &Column<'_>, values: &[u32], row: &Row, report: &mut Report) {
    let (mut appended, mut right) = (vec![u32::MAX; MORE], vec![u32::MAX; MORE]);
    right.extend(values);
    report.check(&row.name, "append_to", column.append_to(&mut appended), Ok(()));
    report.check(&row.name, "values appended", appended == right, true);
    let mut copied = vec![u32::MAX; values.len() + MORE];
    report.check(&row.name, "copy_to", column.copy_to(&mut copied), values.len());
    right.rotate_left(MORE);
    report.check(&row.name, "values copied", copied == right, true);
}

/// The values from some positions on, to slices of some lengths, and what is after them.
fn copied_from(column: &Column<'_>, values: &[u32], row: &Row, report: &mut Report) {
    let step = values.len() / 32 + 1;
    let positions =
        (0..values.len()).step_by(step).chain([values.len().saturating_sub(1), values.len(), values.len() + 1, usize::MAX]);
    let lengths = [0, 1, 2, 31, 127, 128, 129, 300, values.len(), values.len() + MORE];
    let asked = positions.flat_map(|from| lengths.map(|len| (from, len)));
    let is_right = |(from, len): &(usize, usize)| {
        let mut copied = vec![u32::MAX; *len];
        let left = &values[values.len().min(*from)..];
        let count = left.len().min(*len);
        column.copy_range(*from, &mut copied) == count
            && copied[..count] == left[..count]
            && copied[count..].iter().all(|it| *it == u32::MAX)
    };
    let wrong: Vec<(usize, usize)> = asked.filter(|it| !is_right(it)).take(5).collect();
    report.check(&row.name, "positions and lengths whose copy_range is wrong", wrong, vec![]);
}

/// The value at each position, alone and with others, and none past the end.
fn gotten(column: &Column<'_>, values: &[u32], row: &Row, report: &mut Report) {
    let positions: Vec<usize> = (0..values.len() + 3).chain([usize::MAX]).collect();
    let wrong: Vec<usize> = positions.iter().copied().filter(|it| column.get(*it) != values.get(*it).copied()).take(5).collect();
    report.check(&row.name, "positions whose get is wrong", wrong, vec![]);
    let mut mixed: Vec<usize> = (0..values.len()).rev().chain((0..values.len()).map(|it| it * 77 % values.len())).collect();
    let right: Vec<u32> = mixed.iter().map(|it| values[*it]).chain([7; MORE]).collect();
    let mut found = vec![7; mixed.len() + MORE];
    report.check(&row.name, "gather", column.gather(&mixed, &mut found), Ok(()));
    report.check(&row.name, "values gathered", found == right, true);
    mixed.extend([values.len(), 0]);
    let refused = column.gather(&mixed, &mut found);
    report.check(&row.name, "gather past the end", refused, Err(mixed.len() - 2));
    report.check(&row.name, "values after a refusal", found == right, true);
}

fn bounded(column: &Column<'_>, values: &[u32], row: &Row, report: &mut Report) {
    let is_right = |block: &usize| {
        let (own, (least, greatest)) = (&values[128 * block..128 * block + 128], column.bounds(*block));
        let is_last =
            column.kind() == ColumnKind::Plain || greatest == own[127] && (*block == 0 || values[128 * block - 1] <= least);
        own.iter().all(|it| least <= *it && *it <= greatest) && is_last
    };
    let wrong: Vec<usize> = (0..values.len() / 128).filter(|it| !is_right(it)).collect();
    report.check(&row.name, "blocks whose bounds are wrong", wrong, vec![]);
}

/// Targets and ends of ranges: values, and the numbers beside them.
fn asked(values: &[u32], most: usize) -> Vec<u32> {
    let step = values.len() / most + 1;
    let near = |value: u32| [value.saturating_sub(1), value, value.saturating_add(1)];
    values.iter().step_by(step).chain(values.last()).flat_map(|it| near(*it)).chain([0, u32::MAX]).collect()
}

fn sought(column: &Column<'_>, values: &[u32], row: &Row, report: &mut Report) {
    let right = |target: u32| {
        let position = values.partition_point(|it| *it < target);
        match column.kind() {
            ColumnKind::Plain => Err(ColumnError::WrongKind(ColumnKind::Plain, ColumnKind::Sorted)),
            ColumnKind::Sorted => Ok(values.get(position).map(|it| (position, *it))),
        }
    };
    let wrong: Vec<u32> = asked(values, 300).into_iter().filter(|it| column.seek(*it) != right(*it)).take(5).collect();
    report.check(&row.name, "numbers whose seek is wrong", wrong, vec![]);
}

/// How many values are within some ranges, and where: all at once, and in parts of a few positions.
fn between(column: &Column<'_>, values: &[u32], row: &Row, report: &mut Report) {
    let ends = asked(values, 6);
    let ranges = ends.iter().flat_map(|low| ends.iter().map(move |high| (*low, *high)));
    let is_right = |(low, high): &(u32, u32)| {
        let right: Vec<usize> = (0..values.len()).filter(|it| (*low..=*high).contains(&values[*it])).collect();
        column.count_between(*low, *high) == right.len()
            && [1, 7, 200, values.len() + 1].iter().all(|part| in_parts(column, *low, *high, *part) == Some(right.clone()))
    };
    let wrong: Vec<(u32, u32)> = ranges.filter(|it| !is_right(it)).take(5).collect();
    report.check(&row.name, "ranges that are wrong", wrong, vec![]);
}

/// The positions of a range, so many at a time; or nothing if a call changes what is after those that it returns.
fn in_parts(column: &Column<'_>, low: u32, high: u32, part: usize) -> Option<Vec<usize>> {
    let (mut all, mut from) = (vec![], 0);
    loop {
        let mut found = vec![usize::MAX; part];
        let count = column.positions_between(low, high, from, &mut found);
        if found[count..].iter().any(|it| *it != usize::MAX) {
            return None;
        }
        all.extend(&found[..count]);
        if count < part {
            return Some(all);
        }
        from = found[count - 1] + 1;
    }
}

/// By each call that writes: into a vector, into a slice with room, and into one that lacks a byte.
fn written(kind: ColumnKind, values: &[u32], bytes: &[u8], row: &Row, report: &mut Report) {
    report.check(&row.name, "encoded_len", encoded_len(kind, values), Ok(bytes.len()));
    let (mut appended, mut right) = (vec![0xA5; MORE], vec![0xA5; MORE]);
    right.extend(bytes);
    report.check(&row.name, "encode", encode(kind, values, &mut appended), Ok(()));
    report.check(&row.name, "bytes appended", appended == right, true);
    let mut slice = vec![0xA5; bytes.len() + MORE];
    report.check(&row.name, "encode_to", encode_to(kind, values, &mut slice), Ok(bytes.len()));
    right.rotate_left(MORE);
    report.check(&row.name, "bytes written", slice == right, true);
    let mut short = vec![0xA5; bytes.len() - 1];
    report.check(&row.name, "encode_to without room", encode_to(kind, values, &mut short), Err(ColumnError::Short));
    report.check(&row.name, "bytes without room", short.iter().all(|it| *it == 0xA5), true);
    if let Some(last) = values.last().filter(|it| **it > 0 && kind == ColumnKind::Sorted) {
        let fallen = [values, &[*last - 1]].concat();
        let refused = Err(ColumnError::NotSorted(values.len()));
        report.check(&row.name, "encode a fall", encode(kind, &fallen, &mut appended), refused);
    }
    report.check(&row.name, "bytes after a refusal", appended.len(), bytes.len() + MORE);
}

/// A fault is spelled as Rust shows it.
pub fn refused(row: &Row, report: &mut Report) {
    let fault: Option<ColumnError> = Column::open(&row.bytes("bytes")).err();
    let found = fault.map_or((0, "-".to_string()), |it| (it.number().into(), format!("{it:?}")));
    report.check(&row.name, "fault", found, (row.number("number"), row.text("fault").to_string()));
}
