//! Sets of 64-bit ids: what their bytes say, and which bytes are refused.

use bitpacking::wide::{WideError, WideSet, encode, encode_to, encoded_len};

use crate::report::Report;
use crate::rows::Row;

/// How many values are around those that a set writes.
const MORE: usize = 3;

/// How many ids of a set are asked for at most, with the numbers beside each.
const MOST_ASKED: usize = 1024;

pub fn opened(row: &Row, report: &mut Report) {
    let (ids, bytes) = (row.ids::<u64>("ids"), row.bytes("bytes"));
    written(&ids, &bytes, row, report);
    let set = match WideSet::open(&bytes) {
        Ok(set) => set,
        Err(fault) => return report.check(&row.name, "open", Some(fault), None),
    };
    report.check(&row.name, "len", (set.len(), set.is_empty()), (ids.len(), ids.is_empty()));
    let (mut copied, mut right) = (vec![7; ids.len() + MORE], ids.clone());
    right.extend([7; MORE]);
    report.check(&row.name, "copy_to", set.copy_to(&mut copied), ids.len());
    report.check(&row.name, "ids copied", copied == right, true);
    asked(&set, &ids, row, report);
    copied_from(&set, &ids, row, report);
}

/// By each call that writes: into a vector, into a slice with room, and into one that lacks a byte.
fn written(ids: &[u64], bytes: &[u8], row: &Row, report: &mut Report) {
    let space = &mut vec![9; ids.len() + MORE];
    report.check(&row.name, "encoded_len", encoded_len(ids, space), Ok(bytes.len()));
    let (mut appended, mut right) = (vec![0xA5; MORE], vec![0xA5; MORE]);
    right.extend(bytes);
    report.check(&row.name, "encode", encode(ids, space, &mut appended), Ok(()));
    report.check(&row.name, "bytes appended", appended == right, true);
    let mut slice = vec![0xA5; bytes.len() + MORE];
    report.check(&row.name, "encode_to", encode_to(ids, space, &mut slice), Ok(bytes.len()));
    right.rotate_left(MORE);
    report.check(&row.name, "bytes written", slice == right, true);
    report.check(&row.name, "work space after its ids", &space[ids.len()..] == [9; MORE], true);
    let mut short = vec![0xA5; bytes.len() - 1];
    report.check(&row.name, "encode_to without room", encode_to(ids, space, &mut short), Err(WideError::Short));
    report.check(&row.name, "bytes without room", short.iter().all(|it| *it == 0xA5), true);
    for place in [0, ids.len() / 2, ids.len().saturating_sub(1)].into_iter().filter(|it| *it < ids.len()) {
        let twice = [&ids[..=place], &ids[place..]].concat();
        let refused = encode(&twice, &mut vec![0; twice.len()], &mut appended);
        report.check(&row.name, "encode an id twice", refused, Err(WideError::NotSorted(place + 1)));
    }
    report.check(&row.name, "bytes after a refusal", appended.len(), bytes.len() + MORE);
}

/// Some ids, the numbers beside them, those with one other bit, and the least and greatest number; and the id at each of these positions.
fn asked(set: &WideSet<'_>, ids: &[u64], row: &Row, report: &mut Report) {
    let step = ids.len() / MOST_ASKED + 1;
    let near = |id: u64| [id.wrapping_sub(1), id, id.wrapping_add(1), id ^ 1 << 8, id ^ 1 << 31, id ^ 1 << 32, id ^ 1 << 63];
    let numbers: Vec<u64> = ids.iter().step_by(step).chain(ids.last()).flat_map(|it| near(*it)).chain([0, u64::MAX]).collect();
    let right = |id: u64| (ids.binary_search(&id).is_ok(), ids.partition_point(|it| *it < id));
    let wrong: Vec<&u64> = numbers.iter().filter(|it| (set.contains(**it), set.rank(**it)) != right(**it)).take(5).collect();
    report.check(&row.name, "numbers whose contains or rank is wrong", wrong, vec![]);
    let found = |id: u64| ids.get(right(id).1).map(|it| (right(id).1, *it));
    let wrong: Vec<&u64> = numbers.iter().filter(|it| set.seek(**it) != found(**it)).take(5).collect();
    report.check(&row.name, "numbers whose seek is wrong", wrong, vec![]);
    let positions = (0..ids.len()).step_by(step).chain([ids.len().saturating_sub(1), ids.len(), ids.len() + 1, usize::MAX]);
    let wrong: Vec<usize> = positions.filter(|it| set.select(*it) != ids.get(*it).copied()).take(5).collect();
    report.check(&row.name, "positions whose select is wrong", wrong, vec![]);
}

/// The ids from some positions on, to slices of some lengths, and what is after them.
fn copied_from(set: &WideSet<'_>, ids: &[u64], row: &Row, report: &mut Report) {
    let step = ids.len() / 16 + 1;
    let positions = (0..ids.len()).step_by(step).chain([ids.len().saturating_sub(1), ids.len(), ids.len() + 1, usize::MAX]);
    let lengths = [0, 1, 2, 255, 1023, 1024, 1025, ids.len(), ids.len() + MORE];
    let is_right = |(from, len): &(usize, usize)| {
        let mut copied = vec![7; *len];
        let left = &ids[ids.len().min(*from)..];
        let count = left.len().min(*len);
        set.copy_range(*from, &mut copied) == count
            && copied[..count] == left[..count]
            && copied[count..].iter().all(|it| *it == 7)
    };
    let asked = positions.flat_map(|from| lengths.map(|len| (from, len)));
    let wrong: Vec<(usize, usize)> = asked.filter(|it| !is_right(it)).take(5).collect();
    report.check(&row.name, "positions and lengths whose copy_range is wrong", wrong, vec![]);
}

/// A fault is spelled as Rust shows it, and a column's fault as the column shows it.
pub fn refused(row: &Row, report: &mut Report) {
    let fault = WideSet::open(&row.bytes("bytes")).err();
    let found = fault.map_or((0, "-".to_string()), |it| (it.number().into(), shown(it)));
    report.check(&row.name, "fault", found, (row.number("number"), row.text("fault").to_string()));
}

fn shown(fault: WideError) -> String {
    match fault {
        WideError::Column(fault) => format!("{fault:?}"),
        other => format!("{other:?}"),
    }
}
