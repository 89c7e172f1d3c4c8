//! Columns as vectors of their values: what the calls return of a column is found in its vector.

use std::string::{String, ToString};
use std::vec::Vec;
use std::{format, fs};

use crate::column::{Column, ColumnBuf, Kind};

/// Numbers that only look random: the same ones in each run.
pub struct Numbers(u64);

impl Numbers {
    pub fn new(seed: u64) -> Self {
        Numbers(seed.wrapping_mul(0x9E37_79B9_7F4A_7C15) | 1)
    }

    pub fn next(&mut self) -> u32 {
        self.0 ^= self.0 << 13;
        self.0 ^= self.0 >> 7;
        self.0 ^= self.0 << 17;
        (self.0.wrapping_mul(0x2545_F491_4F6C_DD1D) >> 32) as u32
    }

    /// A number below another, which is above 0.
    pub fn below(&mut self, bound: usize) -> usize {
        self.next() as usize % bound
    }
}

/// Lengths around each multiple of 32 and of 128.
fn lengths(numbers: &mut Numbers) -> Vec<usize> {
    let near = [31, 32, 33, 63, 65, 95, 97, 127, 128, 129, 159, 161, 255, 256, 257, 383, 384, 385, 511, 513, 895, 896, 897, 1000];
    (0..6).chain(near).chain((0..6).map(|_| numbers.below(1000))).collect()
}

/// The most that a value, or a difference, of each block has: a width for each block, and 0 for blocks of one value.
fn masks(len: usize, numbers: &mut Numbers) -> Vec<u32> {
    (0..len / 128 + 1).map(|_| u32::MAX.checked_shr(numbers.below(33) as u32).unwrap_or(0)).collect()
}

/// Values in any order: above a base, up to the mask of their block.
fn plain(len: usize, numbers: &mut Numbers) -> Vec<u32> {
    let masks = masks(len, numbers);
    let base = numbers.next() >> numbers.below(32);
    (0..len).map(|k| base.saturating_add(numbers.next() & masks[k / 128])).collect()
}

/// Values in order, up to `u32::MAX`, which the last ones may have in common.
fn sorted(len: usize, numbers: &mut Numbers) -> Vec<u32> {
    let most = numbers.below(32);
    let mut value = numbers.next() >> numbers.below(32);
    let masks: Vec<u32> = masks(len, numbers).into_iter().map(|mask| mask >> most).collect();
    let step = |k: usize, numbers: &mut Numbers| numbers.next() & masks[k / 128];
    (0..len)
        .map(|k| {
            value = value.saturating_add(step(k, numbers));
            value
        })
        .collect()
}

/// Calls a test with columns of both kinds and the vectors of their values.
pub fn for_each_column(seed: u64, mut test: impl FnMut(&Column, &[u32], &mut Numbers)) {
    let mut numbers = Numbers::new(seed);
    for round in 0..3 {
        for len in lengths(&mut numbers) {
            for kind in [Kind::Plain, Kind::Sorted] {
                let values = match kind {
                    Kind::Plain => plain(len, &mut numbers),
                    Kind::Sorted => sorted(len, &mut numbers),
                };
                let column = ColumnBuf::pack(kind, &values).unwrap();
                assert_eq!((column.kind(), column.len(), column.is_empty()), (kind, len, len == 0), "round {round}");
                test(&column, &values, &mut numbers);
            }
        }
    }
}

/// Values of a column, values beside them, and the least and greatest of all.
pub fn near(values: &[u32], numbers: &mut Numbers) -> Vec<u32> {
    let mut found: Vec<u32> = [0, 1, u32::MAX - 1, u32::MAX].into();
    for _ in 0..values.len().min(8) {
        let value = values[numbers.below(values.len())];
        found.extend([value.saturating_sub(1), value, value.saturating_add(1), numbers.next()]);
    }
    found
}

/// A row of a table of columns: the first two fields, and the bytes.
pub struct Row {
    pub fields: [String; 2],
    pub bytes: Vec<u8>,
}

/// The rows of a table of `vectors/` whose third field has bytes. In it `-` is none, and `{00*15}` is 15 times the byte 0.
pub fn rows(table: &str) -> Vec<Row> {
    let text = fs::read_to_string(format!("{}/vectors/{table}.tsv", env!("CARGO_MANIFEST_DIR"))).unwrap();
    text.lines().skip(1).map(row).collect()
}

fn row(line: &str) -> Row {
    let fields: Vec<&str> = line.split('\t').collect();
    let [first, second, bytes] = fields[..] else { panic!("the row has {} fields", fields.len()) };
    Row { fields: [first.into(), second.into()], bytes: bytes_of(bytes) }
}

fn bytes_of(text: &str) -> Vec<u8> {
    let octets = |text: &str| -> Vec<u8> {
        (0..text.len() / 2).map(|k| u8::from_str_radix(&text[2 * k..2 * k + 2], 16).unwrap()).collect()
    };
    let repeated = |byte: &str, times: &str| octets(byte).repeat(times.parse().unwrap());
    let parts = text.split(['{', '}']).filter(|part| *part != "-");
    parts.flat_map(|part| part.split_once('*').map_or_else(|| octets(part), |(byte, times)| repeated(byte, times))).collect()
}

/// The values of a field, or none for `-`.
pub fn values_of(field: &str) -> Vec<u32> {
    if field == "-" { Vec::new() } else { field.split(',').map(|value| value.parse().unwrap()).collect() }
}

/// The text of the panic of a call.
pub fn panic_of<R>(call: impl FnOnce() -> R) -> String {
    let payload = std::panic::catch_unwind(std::panic::AssertUnwindSafe(call)).err().expect("no panic");
    payload.downcast_ref::<String>().cloned().unwrap_or_else(|| payload.downcast_ref::<&str>().unwrap().to_string())
}
