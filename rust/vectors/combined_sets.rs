//! Operations on two id sets, and on more.

use std::collections::BTreeSet;

use bitpacking::queries::{
    add, combine_all_count, combine_all_set_to, combine_all_to, combine_count, combine_room, combine_to, remove, retain,
};
use bitpacking::sets::{IdSet, encode};
use bitpacking::slices::{Operation, SetError};

use crate::report::Report;
use crate::rows::Row;

pub fn combined(row: &Row, report: &mut Report) {
    let (ids, others, both) = (row.ids("ids"), row.ids("others"), row.ids("both"));
    let less = |ids: &[u32]| ids.iter().copied().filter(|it| both.binary_search(it).is_err()).collect::<BTreeSet<u32>>();
    let (alone, other) = (less(&ids), less(&others));
    let (one, shared) = (&alone | &other, both.iter().copied().collect());
    for (own, others, first_alone) in [(&ids, &others, &alone), (&others, &ids, &other)] {
        let (a, b) = (encoded(own), encoded(others));
        let (a, b) = (IdSet::open(&a).expect("a set"), IdSet::open(&b).expect("a set"));
        for (name, operation, answer) in [
            ("and", Operation::And, &shared),
            ("or", Operation::Or, &(&one | &shared)),
            ("and not", Operation::AndNot, first_alone),
            ("xor", Operation::Xor, &one),
        ] {
            let answer = answer.iter().copied().collect::<Vec<u32>>();
            written(name, operation, (&a, &b), &answer, row, report);
            all_written(name, operation, (&a, &b), &answer, row, report);
        }
        let answers = [shared.clone(), first_alone.clone(), &one | &shared].map(|it| it.into_iter().collect::<Vec<u32>>());
        in_place(own, &b, &answers, row, report);
    }
}

fn encoded(ids: &[u32]) -> Vec<u8> {
    let mut bytes = vec![];
    encode(ids, &mut bytes).expect("ids that increase");
    bytes
}

/// Into a slice with room, into one that lacks the last id, and into a set.
fn written(name: &str, operation: Operation, (a, b): (&IdSet<'_>, &IdSet<'_>), answer: &[u32], row: &Row, report: &mut Report) {
    report.check(&row.name, &format!("{name}, counted"), combine_count(operation, a, b), answer.len());
    let mut found = vec![u32::MAX; answer.len() + 1];
    report.check(&row.name, name, combine_to(operation, a, b, &mut found), Ok(answer.len()));
    report.check(&row.name, &format!("{name}, ids"), found[..answer.len()] == *answer, true);
    if let Some(less) = answer.len().checked_sub(1) {
        let refused = combine_to(operation, a, b, &mut found[..less]);
        report.check(&row.name, &format!("{name} without room"), refused, Err(SetError::Short));
    }
    set_written(name, operation, &[*a, *b], &encoded(answer), row, report);
}

/// As a set: into bytes without room for the last, and into bytes with room.
fn set_written(name: &str, operation: Operation, sets: &[IdSet<'_>], expected: &[u8], row: &Row, report: &mut Report) {
    let mut room = vec![7; combine_room(sets)];
    let mut bytes = vec![0xA5; expected.len()];
    let refused = combine_all_set_to(operation, sets, &mut room, &mut bytes[1..]);
    report.check(&row.name, &format!("{name}, as a set without room"), refused, Err(SetError::Short));
    let written = combine_all_set_to(operation, sets, &mut room, &mut bytes);
    report.check(&row.name, &format!("{name}, as a set"), written, Ok(expected.len()));
    report.check(&row.name, &format!("{name}, bytes"), bytes == expected, true);
}

/// The ids of a vector with a set: in their order, and in the opposite order too.
fn in_place(ids: &[u32], set: &IdSet<'_>, [shared, alone, all]: &[Vec<u32>; 3], row: &Row, report: &mut Report) {
    let reversed = |ids: &[u32]| ids.iter().rev().copied().collect::<Vec<u32>>();
    for (name, call, answer) in [("retained", retain as fn(&mut Vec<u32>, &IdSet<'_>), shared), ("removed", remove, alone)] {
        let (mut own, mut back) = (ids.to_vec(), reversed(ids));
        call(&mut own, set);
        call(&mut back, set);
        report.check(&row.name, name, own == *answer, true);
        report.check(&row.name, &format!("{name} of ids that fall"), back == reversed(answer), true);
    }
    let mut own = ids.to_vec();
    report.check(&row.name, "added", add(&mut own, set), Ok(()));
    report.check(&row.name, "added, ids", own == *all, true);
    if ids.len() > 1 {
        let mut back = reversed(ids);
        report.check(&row.name, "added to ids that fall", add(&mut back, set), Err(SetError::NotSorted(1)));
        report.check(&row.name, "added to ids that fall, ids", back == reversed(ids), true);
    }
}

/// The first set, and the second an odd number of times, have the answer of both: with room for it alone, and for the ids of both.
fn all_written(
    name: &str,
    operation: Operation,
    (a, b): (&IdSet<'_>, &IdSet<'_>),
    answer: &[u32],
    row: &Row,
    report: &mut Report,
) {
    for times in [1, 3, 63, 65] {
        let mut sets = vec![*b; times + 1];
        sets[0] = *a;
        let name = format!("{name}, the other {times} times");
        report.check(&row.name, &format!("{name}, counted"), combine_all_count(operation, &sets), answer.len() as u64);
        let mut found = vec![u32::MAX; answer.len()];
        for more in [0, a.len() + b.len()] {
            found.resize(answer.len() + more, u32::MAX);
            report.check(
                &row.name,
                &format!("{name}, room for {more} more"),
                combine_all_to(operation, &sets, &mut found),
                Ok(answer.len()),
            );
            report.check(&row.name, &format!("{name}, room for {more} more, ids"), found[..answer.len()] == *answer, true);
        }
        if let Some(less) = answer.len().checked_sub(1) {
            let refused = combine_all_to(operation, &sets, &mut found[..less]);
            report.check(&row.name, &format!("{name} without room"), refused, Err(SetError::Short));
        }
        set_written(&name, operation, &sets, &encoded(answer), row, report);
    }
    let alone = [*a];
    let mut found = vec![u32::MAX; a.len()];
    report.check(&row.name, "one set", combine_all_to(operation, &alone, &mut found), Ok(a.len()));
    report.check(&row.name, "one set, ids", found.iter().copied().eq(a.iter()), true);
    set_written("one set", operation, &alone, &encoded(&a.iter().collect::<Vec<u32>>()), row, report);
    let none: [IdSet<'_>; 0] = [];
    set_written("no set", operation, &none, &encoded(&[]), row, report);
    report.check(&row.name, "no set", combine_all_to(operation, &none, &mut []), Ok(0));
    report.check(&row.name, "no set, counted", combine_all_count(operation, &none), 0);
}

/// Sixteen sets of 2^28 ids each have all ids together: one more than a `usize` of 32 bits counts.
pub fn counted_by_hand(report: &mut Report) {
    report.begin("all ids");
    let bytes = (0..16).map(|part| whole(4096 * part)).collect::<Vec<_>>();
    let sets = bytes.iter().map(|it| IdSet::open(it).expect("a set")).collect::<Vec<_>>();
    report.check("all ids", "the last position", sets[15].seek(u32::MAX), Some(((1 << 28) - 1, u32::MAX)));
    report.check("all ids", "or, counted", combine_all_count(Operation::Or, &sets), 1 << 32);
    report.check("all ids", "xor, counted", combine_all_count(Operation::Xor, &sets), 1 << 32);
    report.check("all ids", "or of two, counted", combine_count(Operation::Or, &sets[0], &sets[15]), 1 << 29);
    let mut ids = [0; 100];
    report.check("all ids", "or without room", combine_all_to(Operation::Or, &sets, &mut ids), Err(SetError::Short));
    for (name, sets, count) in [("two", &[sets[0], sets[15]][..], 1 << 29), ("all", &sets, 1 << 32)] {
        let mut room = vec![0; combine_room(sets)];
        let refused = combine_all_set_to(Operation::Or, sets, &mut room, &mut []);
        report.check("all ids", &format!("or of {name}, as a set"), refused, Err(SetError::TooLong(count)));
    }
}

/// The set of all ids of 4096 keys: each body is a run.
fn whole(first: u16) -> Vec<u8> {
    let mut bytes = vec![0x05, 0x80, 0x80, 0x80, 0x80, 0x01, 0x80, 0x20, 0x42];
    bytes.extend((first..=first + 4095).flat_map(u16::to_le_bytes));
    bytes.extend((1..=4096u16).flat_map(|it| (4 * it).to_le_bytes()));
    bytes.extend((1..=4096u32).flat_map(|it| (65_536 * it).to_le_bytes()));
    bytes.extend([0x01, 0xFF, 0, 0].repeat(4096));
    bytes
}
