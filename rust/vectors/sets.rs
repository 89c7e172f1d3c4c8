//! Id sets: what their bytes say, and which bytes are refused.

use bitpacking::sets::{IdSet, SetBuilder, append, encode, encode_to, encoded_len};
use bitpacking::slices::SetError;

use crate::report::Report;
use crate::rows::Row;

/// How many values are around those that a set writes.
const MORE: usize = 3;

/// How many positions of a set are asked for at most.
const MOST_ASKED: usize = 4096;

pub fn opened(row: &Row, report: &mut Report) {
    let (ids, bytes) = (row.ids("ids"), row.bytes("bytes"));
    let set = match IdSet::open(&bytes) {
        Ok(set) => set,
        Err(fault) => return report.check(&row.name, "open", Some(fault), None),
    };
    report.check(&row.name, "len", (set.len(), set.is_empty()), (ids.len(), ids.is_empty()));
    let (mut appended, mut right) = (vec![u32::MAX; MORE], vec![u32::MAX; MORE]);
    right.extend(&ids);
    report.check(&row.name, "append_to", set.append_to(&mut appended), Ok(()));
    report.check(&row.name, "ids appended", &appended == &right, true);
    let mut copied = vec![u32::MAX; ids.len() + MORE];
    report.check(&row.name, "copy_to", set.copy_to(&mut copied), ids.len());
    right.rotate_left(MORE);
    report.check(&row.name, "ids copied", copied == right, true);
    contained(&set, &ids, row, report);
    selected(&set, &ids, row, report);
    copied_from(&set, &ids, row, report);
    written(&ids, &bytes, row, report);
    pushed(&ids, &bytes, row, report);
    appended_at_cuts(&ids, &bytes, row, report);
}

/// By each call that writes: into a vector, into a slice with room, and into one that lacks a byte.
fn written(ids: &[u32], bytes: &[u8], row: &Row, report: &mut Report) {
    report.check(&row.name, "encoded_len", encoded_len(ids), Ok(bytes.len()));
    let (mut appended, mut right) = (vec![0xA5; MORE], vec![0xA5; MORE]);
    right.extend(bytes);
    report.check(&row.name, "encode", encode(ids, &mut appended), Ok(()));
    report.check(&row.name, "bytes appended", appended == right, true);
    let mut slice = vec![0xA5; bytes.len() + MORE];
    report.check(&row.name, "encode_to", encode_to(ids, &mut slice), Ok(bytes.len()));
    right.rotate_left(MORE);
    report.check(&row.name, "bytes written", slice == right, true);
    let mut short = vec![0xA5; bytes.len() - 1];
    report.check(&row.name, "encode_to without room", encode_to(ids, &mut short), Err(SetError::Short));
    report.check(&row.name, "bytes without room", short.iter().all(|it| *it == 0xA5), true);
    if let Some(last) = ids.last() {
        let twice = [ids, &[*last]].concat();
        report.check(&row.name, "encode the last id twice", encode(&twice, &mut appended), Err(SetError::NotSorted(ids.len())));
    }
    report.check(&row.name, "bytes after a refusal", appended.len(), bytes.len() + MORE);
}

/// Pushed one at a time, and in two runs. Ids that are refused leave the builder as it was.
fn pushed(ids: &[u32], bytes: &[u8], row: &Row, report: &mut Report) {
    let (mut single, mut runs) = (SetBuilder::new(), SetBuilder::new());
    let (first, second) = ids.split_at(ids.len() / 2);
    report.check(&row.name, "push", ids.iter().find_map(|it| single.push(*it).err()), None);
    report.check(&row.name, "push_all", (runs.push_all(first), runs.push_all(second)), (Ok(()), Ok(())));
    let right = [&[0xA5; MORE], bytes].concat();
    for mut builder in [single, runs] {
        if let Some(last) = ids.last() {
            let refused = Err(SetError::NotSorted(ids.len()));
            report.check(&row.name, "push the last id again", builder.push(*last), refused);
            report.check(&row.name, "push_all from the last id on", builder.push_all(&[*last, u32::MAX]), refused);
        }
        if let Some(next) = ids.last().map_or(Some(0), |it| it.checked_add(1)) {
            let refused = Err(SetError::NotSorted(ids.len() + 1));
            report.check(&row.name, "push_all of an id twice", builder.push_all(&[next, next]), refused);
        }
        let found = (builder.len(), builder.is_empty(), builder.last(), builder.ids() == ids);
        report.check(&row.name, "what a builder has", found, (ids.len(), ids.is_empty(), ids.last().copied(), true));
        let mut out = vec![0xA5; MORE];
        report.check(&row.name, "encode of a builder", builder.encode(&mut out), Ok(()));
        report.check(&row.name, "bytes of a builder", out == right, true);
    }
}

/// Ids that follow the set of those before some cuts: at the ends, in the middle, and at the edges of the first chunk and the last one.
fn appended_at_cuts(ids: &[u32], bytes: &[u8], row: &Row, report: &mut Report) {
    let keys = ids.first().zip(ids.last()).map(|(first, last)| (first >> 16, last >> 16)).unwrap_or((0, 0));
    let edges = (ids.partition_point(|it| it >> 16 <= keys.0), ids.partition_point(|it| it >> 16 < keys.1));
    let cuts = [0, 1, ids.len() / 2, edges.0, edges.1, edges.1 + 1, ids.len().saturating_sub(1), ids.len()];
    let right = [&[0xA5; MORE], bytes].concat();
    let refused = |set: &IdSet<'_>, more: &[u32], out: &mut Vec<u8>, position: usize| {
        let len = out.len();
        append(set, more, &mut Vec::new(), out) == Err(SetError::NotSorted(position)) && out.len() == len
    };
    let is_right = |cut: &usize| {
        let ((before, after), mut first, mut out) = (ids.split_at(*cut), vec![], vec![0xA5; MORE]);
        let set = encode(before, &mut first).and_then(|_| IdSet::open(&first)).unwrap();
        let twice = after.last().map(|last| [after, &[*last]].concat());
        append(&set, after, &mut Vec::new(), &mut out) == Ok(())
            && out == right
            && before.last().is_none_or(|last| refused(&set, &[*last], &mut out, before.len()))
            && twice.is_none_or(|more| refused(&set, &more, &mut out, ids.len()))
    };
    let wrong: Vec<usize> = cuts.into_iter().filter(|it| *it <= ids.len() && !is_right(it)).collect();
    report.check(&row.name, "cuts whose append is wrong", wrong, vec![]);
    appended_far_apart(ids, bytes, row, report);
}

/// As many ids follow, each in a chunk of its own, so that a set in chunks may become an array.
fn appended_far_apart(ids: &[u32], bytes: &[u8], row: &Row, report: &mut Report) {
    let last = ids.last().copied().unwrap_or(0) as u64;
    let far = (1..=ids.len() as u64).map(|it| last + (it << 16));
    let more: Vec<u32> = far.map_while(|it| u32::try_from(it).ok()).collect();
    let (mut appended, mut right) = (vec![0xA5; MORE], vec![0xA5; MORE]);
    let found = append(&IdSet::open(bytes).unwrap(), &more, &mut Vec::new(), &mut appended);
    report.check(&row.name, "append of ids far apart", (found, encode(&[ids, &more].concat(), &mut right)), (Ok(()), Ok(())));
    report.check(&row.name, "bytes with ids far apart", appended == right, true);
}

/// Each id, the numbers beside it, those with one other bit in each half, and the least and greatest number.
fn contained(set: &IdSet<'_>, ids: &[u32], row: &Row, report: &mut Report) {
    let near = |id: u32| [id.wrapping_sub(1), id, id.wrapping_add(1), id ^ 1 << 7, id ^ 1 << 8, id ^ 1 << 16, id ^ 1 << 31];
    let asked = ids.iter().flat_map(|it| near(*it)).chain([0, u32::MAX]);
    let found = |id: u32| (set.contains(id), set.rank(id));
    let right = |id: u32| (ids.binary_search(&id).is_ok(), ids.partition_point(|it| *it < id));
    let wrong: Vec<u32> = asked.filter(|it| found(*it) != right(*it)).take(5).collect();
    report.check(&row.name, "numbers whose contains or rank is wrong", wrong, vec![]);
}

/// The id at each position, or at some of many, and at two past the end; and the first id from each number near these on.
fn selected(set: &IdSet<'_>, ids: &[u32], row: &Row, report: &mut Report) {
    let step = ids.len() / MOST_ASKED + 1;
    let positions = (0..ids.len()).step_by(step).chain([ids.len().saturating_sub(1), ids.len(), ids.len() + 1, usize::MAX]);
    let wrong: Vec<usize> = positions.filter(|it| set.select(*it) != ids.get(*it).copied()).take(5).collect();
    report.check(&row.name, "positions whose select is wrong", wrong, vec![]);
    let right = |target: u32| {
        let position = ids.partition_point(|it| *it < target);
        ids.get(position).map(|it| (position, *it))
    };
    let near = |id: u32| [id.saturating_sub(1), id, id.saturating_add(1)];
    let targets = ids.iter().step_by(step).chain(ids.last()).flat_map(|it| near(*it)).chain([0, u32::MAX]);
    let wrong: Vec<u32> = targets.filter(|it| set.seek(*it) != right(*it)).take(5).collect();
    report.check(&row.name, "numbers whose seek is wrong", wrong, vec![]);
}

/// The ids from some positions on, to slices of some lengths, and what is after them.
fn copied_from(set: &IdSet<'_>, ids: &[u32], row: &Row, report: &mut Report) {
    let step = ids.len() / 64 + 1;
    let positions = (0..ids.len()).step_by(step).chain([ids.len().saturating_sub(1), ids.len(), ids.len() + 1, usize::MAX]);
    let lengths = [0, 1, 2, 31, 255, 256, 257, 1000, ids.len(), ids.len() + MORE];
    let asked = positions.flat_map(|from| lengths.map(|len| (from, len)));
    let is_right = |(from, len): &(usize, usize)| {
        let mut copied = vec![u32::MAX; *len];
        let left = &ids[ids.len().min(*from)..];
        let count = left.len().min(*len);
        set.copy_range(*from, &mut copied) == count
            && copied[..count] == left[..count]
            && copied[count..].iter().all(|it| *it == u32::MAX)
    };
    let wrong: Vec<(usize, usize)> = asked.filter(|it| !is_right(it)).take(5).collect();
    report.check(&row.name, "ids of the iterator", set.iter().eq(ids.iter().copied()), true);
    report.check(&row.name, "how many are left", set.iter().size_hint(), (ids.len(), Some(ids.len())));
    report.check(&row.name, "positions and lengths whose copy_range is wrong", wrong, vec![]);
}

/// A fault is spelled as Rust shows it.
pub fn refused(row: &Row, report: &mut Report) {
    let fault: Option<SetError> = IdSet::open(&row.bytes("bytes")).err();
    let found = fault.map_or((0, "-".to_string()), |it| (it.number().into(), format!("{it:?}")));
    report.check(&row.name, "fault", found, (row.number("number"), row.text("fault").to_string()));
}
