//! Queries: trees of operations on id sets.

use std::collections::BTreeSet;

use bitpacking::queries::{Query, QueryError, Step};
use bitpacking::sets::{IdSet, encode};
use bitpacking::slices::Operation;

use crate::report::Report;
use crate::rows::Row;

/// How many trees each row is tried with.
const TREES: u64 = 12;

pub fn queried(row: &Row, report: &mut Report) {
    let sets: Vec<BTreeSet<u32>> =
        [row.ids("ids"), row.ids("others"), row.ids("both"), vec![], vec![0, 65_535, 65_536, u32::MAX]]
            .into_iter()
            .map(|ids| ids.into_iter().collect())
            .collect();
    let texts: Vec<Vec<u8>> = sets.iter().map(encoded).collect();
    let opened: Vec<IdSet<'_>> = texts.iter().map(|text| IdSet::open(text).expect("a set")).collect();
    let mut chance = Chance(0x9E37_79B9_7F4A_7C15);
    for tree in 0..TREES {
        let (steps, answer) = grown(&sets, 1 + tree as usize, &mut chance);
        let answer: Vec<u32> = answer.into_iter().collect();
        for room in [1, 7, 256, 1000, 100_000] {
            if answer.len() / room < 20_000 {
                walked(&opened, &steps, &answer, room, row, report);
            }
        }
        sought(&opened, &steps, &answer, &mut chance, row, report);
    }
    refused(&opened, row, report);
}

fn encoded(ids: &BTreeSet<u32>) -> Vec<u8> {
    let mut bytes = vec![];
    encode(&ids.iter().copied().collect::<Vec<u32>>(), &mut bytes).expect("ids that increase");
    bytes
}

/// Numbers that seem to be chosen at random.
struct Chance(u64);

impl Chance {
    fn below(&mut self, bound: usize) -> usize {
        self.0 ^= self.0 << 13;
        self.0 ^= self.0 >> 7;
        self.0 ^= self.0 << 17;
        ((self.0 >> 11) % bound as u64) as usize
    }
}

/// The steps of a tree of this many operands, and its answer.
fn grown(sets: &[BTreeSet<u32>], operands: usize, chance: &mut Chance) -> (Vec<Step>, BTreeSet<u32>) {
    let (mut steps, mut waiting, mut to_come) = (vec![], Vec::<BTreeSet<u32>>::new(), operands);
    while to_come > 0 || waiting.len() > 1 {
        if to_come > 0 && (waiting.len() < 2 || chance.below(2) == 0) {
            let set = chance.below(sets.len());
            steps.push(Step::Set(set));
            waiting.push(sets[set].clone());
            to_come -= 1;
            continue;
        }
        let (b, a) = (waiting.pop().expect("an operand"), waiting.pop().expect("an operand"));
        let (operation, both) = match chance.below(4) {
            0 => (Operation::And, &a & &b),
            1 => (Operation::Or, &a | &b),
            2 => (Operation::AndNot, &a - &b),
            _ => (Operation::Xor, &a ^ &b),
        };
        steps.push(Step::Combine(operation));
        waiting.push(both);
    }
    (steps, waiting.pop().expect("one operand"))
}

/// All ids, in parts of this many.
fn walked(sets: &[IdSet<'_>], steps: &[Step], answer: &[u32], room: usize, row: &Row, report: &mut Report) {
    let mut query = Query::new(sets, steps, Vec::new()).expect("a query");
    let (mut found, mut part) = (vec![], vec![7; room]);
    loop {
        let count = query.next_ids(&mut part);
        found.extend_from_slice(&part[..count]);
        if count < room {
            break;
        }
    }
    report.check(&row.name, &format!("a query in parts of {room}"), found == answer, true);
    report.check(&row.name, "a query after its end", query.next_ids(&mut part), 0);
    report.check(&row.name, "a query with no room", query.next_ids(&mut []), 0);
}

/// Parts, with some ids passed over between them.
fn sought(sets: &[IdSet<'_>], steps: &[Step], answer: &[u32], chance: &mut Chance, row: &Row, report: &mut Report) {
    let mut query = Query::new(sets, steps, Vec::new()).expect("a query");
    let mut left = answer;
    for _ in 0..40 {
        let mut part = vec![7; [1, 7, 256, 3000][chance.below(4)]];
        let count = query.next_ids(&mut part);
        let wanted = left.len().min(part.len());
        report.check(&row.name, "a part of a query", part[..count] == left[..wanted], true);
        left = &left[wanted..];
        let target = match chance.below(4) {
            0 => 0,
            1 => left.get(chance.below(70_000)).map_or(u32::MAX, |id| *id),
            2 => left.get(chance.below(300)).map_or(u32::MAX, |id| id.saturating_add(1)),
            _ => left.first().map_or(u32::MAX, |id| *id).saturating_add(chance.below(1 << 17) as u32),
        };
        query.seek(target);
        left = &left[left.partition_point(|id| *id < target)..];
    }
}

/// Steps that are no query.
fn refused(sets: &[IdSet<'_>], row: &Row, report: &mut Report) {
    let (set, and) = (Step::Set(0), Step::Combine(Operation::And));
    let deep = [vec![set; 65], vec![and; 64]].concat();
    for (name, steps, error) in [
        ("no step", vec![], QueryError::Empty),
        ("an operation alone", vec![and], QueryError::MissingOperand(0)),
        ("one operand", vec![set, and], QueryError::MissingOperand(1)),
        ("a second operation", vec![set, set, and, and], QueryError::MissingOperand(3)),
        ("an operand more", vec![set, set, set, and], QueryError::LeftOver(2)),
        ("no such set", vec![set, Step::Set(5), and], QueryError::NoSet(1)),
        ("65 operands", deep.clone(), QueryError::TooDeep(64)),
    ] {
        report.check(&row.name, name, Query::new(sets, &steps, Vec::new()).err(), Some(error));
    }
    report.check(&row.name, "64 operands", Query::new(sets, &deep[1..128], Vec::new()).is_ok(), true);
}
