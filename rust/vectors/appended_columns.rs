//! Columns with values or another column after them: each row of the table, cut in two, has its bytes again.

use bitpacking::columns::{Column, ColumnError, ColumnKind, append, append_to, encode, join, join_to};

use crate::columns::kind_of;
use crate::report::Report;
use crate::rows::Row;

/// How many bytes or values are around those that are written, and which.
const MORE: usize = 3;
const OTHER: u8 = 0xA5;

/// The encoding of values that are a column.
fn encoded(kind: ColumnKind, values: &[u32]) -> Vec<u8> {
    let mut bytes = vec![];
    encode(kind, values, &mut bytes).unwrap();
    bytes
}

pub fn appended(row: &Row, report: &mut Report) {
    let (kind, values, bytes) = (kind_of(row), row.numbers("values"), row.bytes("bytes"));
    let len = values.len();
    let mut cuts: Vec<usize> = [0, 1, 5, 31, 127, 128, 129, 200, 255, 256, 300, len / 2, len.saturating_sub(1), len].into();
    cuts.retain(|it| *it <= len);
    cuts.sort();
    cuts.dedup();
    for cut in cuts {
        let (front, rest) = values.split_at(cut);
        let front = encoded(kind, front);
        let column = Column::open(&front).unwrap();
        after(&column, rest, &bytes, cut, row, report);
        fallen(&column, rest, cut, row, report);
        for other_kind in [ColumnKind::Plain, kind] {
            joined(&column, rest, other_kind, &bytes, cut, row, report);
        }
    }
}

/// By each call that appends: to a vector, to a slice with room, and to one that lacks a byte.
fn after(column: &Column<'_>, rest: &[u32], bytes: &[u8], cut: usize, row: &Row, report: &mut Report) {
    let mut vector = vec![OTHER; MORE];
    let found = append(column, rest, &mut vector);
    report.check(&row.name, &format!("append after {cut}"), found, Ok(()));
    report.check(&row.name, &format!("bytes appended after {cut}"), vector == [&[OTHER; MORE], bytes].concat(), true);
    let mut slice = vec![OTHER; bytes.len() + MORE];
    let found = append_to(column, rest, &mut slice);
    report.check(&row.name, &format!("append_to after {cut}"), found, Ok(bytes.len()));
    report.check(&row.name, &format!("bytes written after {cut}"), slice == [bytes, &[OTHER; MORE]].concat(), true);
    let mut short = vec![OTHER; bytes.len() - 1];
    let found = append_to(column, rest, &mut short);
    report.check(&row.name, &format!("append_to without room after {cut}"), found, Err(ColumnError::Short));
    report.check(&row.name, &format!("bytes without room after {cut}"), short.iter().all(|it| *it == OTHER), true);
}

/// A value below the one before it, after all others.
fn fallen(column: &Column<'_>, rest: &[u32], cut: usize, row: &Row, report: &mut Report) {
    let last = rest.last().copied().or_else(|| column.get(cut.wrapping_sub(1)));
    let Some(last) = last.filter(|it| *it > 0 && column.kind() == ColumnKind::Sorted) else {
        return;
    };
    let refused = ColumnError::NotSorted(cut + rest.len());
    let fallen = [rest, &[last - 1]].concat();
    let (mut vector, mut slice) = (vec![OTHER; MORE], vec![OTHER; MORE]);
    report.check(&row.name, &format!("append a fall after {cut}"), append(column, &fallen, &mut vector), Err(refused));
    report.check(&row.name, &format!("append_to of a fall after {cut}"), append_to(column, &fallen, &mut slice), Err(refused));
    report.check(&row.name, &format!("bytes after a fall at {cut}"), (vector, slice), (vec![OTHER; MORE], vec![OTHER; MORE]));
}

/// The rest, less its least value, as another column. The base is this value.
fn joined(column: &Column<'_>, rest: &[u32], kind: ColumnKind, bytes: &[u8], cut: usize, row: &Row, report: &mut Report) {
    let base = rest.iter().copied().min().unwrap_or(7);
    let less: Vec<u32> = rest.iter().map(|it| it - base).collect();
    let other = encoded(kind, &less);
    let other = Column::open(&other).unwrap();
    let mut vector = vec![OTHER; MORE];
    report.check(&row.name, &format!("join after {cut}"), join(column, base, &other, &mut Vec::new(), &mut vector), Ok(()));
    report.check(&row.name, &format!("bytes joined after {cut}"), vector == [&[OTHER; MORE], bytes].concat(), true);
    let mut slice = vec![OTHER; bytes.len() + MORE];
    let mut room = vec![0; rest.len() + MORE];
    let found = join_to(column, base, &other, &mut room, &mut slice);
    report.check(&row.name, &format!("join_to after {cut}"), found, Ok(bytes.len()));
    report.check(&row.name, &format!("bytes of join_to after {cut}"), slice == [bytes, &[OTHER; MORE]].concat(), true);
    let mut short = vec![OTHER; bytes.len() - 1];
    let found = join_to(column, base, &other, &mut room[..rest.len()], &mut short);
    report.check(&row.name, &format!("join_to without room after {cut}"), found, Err(ColumnError::Short));
    report.check(&row.name, &format!("bytes of join_to without room after {cut}"), short.iter().all(|it| *it == OTHER), true);
}

/// Columns whose values are no column with a base, or are beside the last base that they may have: worked by hand.
pub fn joined_by_hand(report: &mut Report) {
    use ColumnKind::{Plain, Sorted};
    let most = u32::MAX;
    let rows: [(ColumnKind, &[u32], u32, ColumnKind, &[u32], Result<&[u8], ColumnError>); 9] = [
        (Plain, &[5], most, Plain, &[0, 1, 2], Err(ColumnError::Overflow(1))),
        (Plain, &[most], 1, Plain, &[most - 1, 0, most], Err(ColumnError::Overflow(2))),
        (Plain, &[most], 1, Plain, &[], Ok(&[0x41, 0xFF, 0xFF, 0xFF, 0xFF, 0x0F])),
        (Plain, &[], 1, Plain, &[most - 1], Ok(&[0x41, 0xFF, 0xFF, 0xFF, 0xFF, 0x0F])),
        (Plain, &[3], most, Sorted, &[1], Err(ColumnError::Overflow(0))),
        (Plain, &[3], 1, Sorted, &[0], Ok(&[0x42, 0x01, 0x02, 0x02])),
        // The base is added first, and the order tested then.
        (Sorted, &[9], 1, Plain, &[5, most], Err(ColumnError::Overflow(1))),
        (Sorted, &[9], 1, Plain, &[9, 5, 7], Err(ColumnError::NotSorted(2))),
        (Sorted, &[5, 5], 4, Plain, &[5], Ok(&[0x63, 0x05, 0x03, 0x20])),
    ];
    for (at, (kind, values, base, other_kind, others, right)) in rows.into_iter().enumerate() {
        let (front, other) = (encoded(kind, values), encoded(other_kind, others));
        let (column, other) = (Column::open(&front).unwrap(), Column::open(&other).unwrap());
        let name = format!("joined by hand:{at}");
        let mut vector = vec![OTHER; MORE];
        report.check(&name, "join", join(&column, base, &other, &mut Vec::new(), &mut vector), right.map(|_| ()));
        report.check(&name, "bytes joined", vector, [&[OTHER; MORE], right.unwrap_or(&[])].concat());
        let (mut slice, mut room) = (vec![OTHER; 20], vec![0; others.len()]);
        report.check(&name, "join_to", join_to(&column, base, &other, &mut room, &mut slice), right.map(|it| it.len()));
        let written = right.unwrap_or(&[]);
        report.check(&name, "bytes of join_to", slice, [written, &vec![OTHER; 20 - written.len()]].concat());
    }
}
