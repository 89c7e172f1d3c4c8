//! Sets of all forms as plain sets, and tables of `vectors/`.

use alloc::collections::BTreeSet;
use alloc::string::{String, ToString};
use alloc::vec::Vec;
use alloc::{format, vec};
use std::fs;

use crate::set::IdSetBuf;

pub(super) type Model = BTreeSet<u32>;

/// Seemingly random numbers, by xorshift.
pub(super) struct Numbers(pub u64);

impl Numbers {
    pub fn next(&mut self) -> u32 {
        self.0 ^= self.0 << 13;
        self.0 ^= self.0 >> 7;
        self.0 ^= self.0 << 17;
        (self.0 >> 16) as u32
    }

    pub fn below(&mut self, limit: u32) -> u32 {
        self.next() % limit
    }

    pub fn next_wide(&mut self) -> u64 {
        u64::from(self.next()) << 32 | u64::from(self.next())
    }
}

/// How many forms [`some_ids`] has.
pub(super) const FORMS: u32 = 11;

/// Ids of a form, sometimes with one of the ends.
pub(super) fn some_ids(numbers: &mut Numbers, form: u32) -> Model {
    let mut ids = Model::new();
    let base = [0, 65_530, 1 << 20, u32::MAX - 200_000][numbers.below(4) as usize];
    match form {
        0 => return ids,
        1 => ids.extend([numbers.next()]),
        // Few: far from each other, and close together.
        2 => ids.extend((0..1 + numbers.below(126)).map(|_| numbers.next())),
        3 => ids.extend((0..1 + numbers.below(126)).map(|_| base + numbers.below(200))),
        // An array.
        4 => ids.extend((0..400).map(|_| numbers.next())),
        // Chunks of numbers, of blocks, of both, and of runs; full ones.
        5 => ids.extend((0..500).map(|_| base + numbers.below(131_072))),
        6 => ids.extend((0..4000).map(|_| base + numbers.below(9000))),
        7 => ids.extend((0..3000).map(|k| base + numbers.below(if k % 2 == 0 { 500 } else { 190_000 }))),
        8 => {
            for _ in 0..20 {
                let (from, len) = (base + numbers.below(190_000), 1 + numbers.below(700));
                ids.extend((0..len).map(|k| from + k));
            }
        }
        // About 64 boundaries, and about 8 ids for each.
        9 => {
            for run in 0..30 + numbers.below(5) {
                ids.extend((0..14 + numbers.below(5)).map(|k| base + 300 * run + k));
            }
        }
        _ => ids.extend((0..66_000).map(|k| base / 65_536 * 65_536 + k)),
    }
    if numbers.below(3) == 0 {
        ids.insert(0);
    }
    if numbers.below(3) == 0 {
        ids.insert(u32::MAX);
    }
    ids
}

pub(super) fn listed(model: &Model) -> Vec<u32> {
    model.iter().copied().collect()
}

pub(super) fn packed(model: &Model) -> IdSetBuf {
    IdSetBuf::pack(&listed(model)).unwrap()
}

/// A vector of an earlier call: its ids, or none and the memory of many.
pub(super) fn used(numbers: &mut Numbers) -> Vec<u32> {
    let mut ids = vec![0xA5A5_A5A5; numbers.below(9000) as usize];
    if numbers.below(2) == 0 {
        ids.clear();
    }
    ids
}

/// The rows of a table of `vectors/`, without the names of its columns.
pub(super) fn rows(table: &str) -> Vec<Vec<String>> {
    let text = fs::read_to_string(format!("{}/vectors/{table}.tsv", env!("CARGO_MANIFEST_DIR"))).unwrap();
    text.lines().skip(1).map(|line| line.split('\t').map(ToString::to_string).collect()).collect()
}

/// The bytes of a field, two digits each. `{00*16}` is a byte 16 times.
pub(super) fn bytes_of(field: &str) -> Vec<u8> {
    let digits = |part: &str| -> Vec<u8> {
        let digit = |at: usize| u8::from_str_radix(&part[at..at + 2], 16).unwrap();
        (0..part.len()).step_by(2).map(digit).collect()
    };
    let parts = field.split(['{', '}']).filter(|part| *part != "-");
    let bytes = parts.map(|part| match part.split_once('*') {
        None => digits(part),
        Some((byte, times)) => digits(byte).repeat(times.parse().unwrap()),
    });
    bytes.collect::<Vec<_>>().concat()
}

/// The ids of a field, which are below 2^32.
pub(super) fn ids_of(field: &str) -> Vec<u32> {
    wide_ids_of(field).into_iter().map(|id| id.try_into().unwrap()).collect()
}

/// The ids of a field: `5-9` is five of them, and `0-8/2` these with steps of 2.
pub(super) fn wide_ids_of(field: &str) -> Vec<u64> {
    let mut ids = Vec::new();
    for run in field.split(',').filter(|run| *run != "-") {
        let (ends, step) = run.split_once('/').unwrap_or((run, "1"));
        let (first, last) = ends.split_once('-').unwrap_or((ends, ends));
        let (first, last): (u64, u64) = (first.parse().unwrap(), last.parse().unwrap());
        ids.extend((first..=last).step_by(step.parse().unwrap()));
    }
    ids
}
