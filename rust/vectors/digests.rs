//! Long lists, whose values follow a rule and whose texts are known by their SHA-256.

use bitpacking::bitpacking::BitPacker;
use bitpacking::lists::list2::{self, PackedList};
use bitpacking::lists::{ListError, ListKind, list};

use crate::report::Report;
use crate::rows::{Row, with_packer};

pub fn long(row: &Row, report: &mut Report) {
    let values = values(row.list_kind(), row.number("count"), row.number("bits"));
    let bytes =
        with_packer!(row.number("lanes"), packer, written(&packer, row, &values)).unwrap_or_else(|fault| panic!("{fault:?}"));
    report.check(&row.name, "length", bytes.len(), row.number("length"));
    report.check(&row.name, "digest", sha256(&bytes), row.text("sha256").to_string());
    let read = with_packer!(row.number("lanes"), packer, read(packer, row, &bytes));
    report.check(&row.name, "values", read, Ok(values));
}

fn written<P: BitPacker>(packer: &P, row: &Row, values: &[u32]) -> Result<Vec<u8>, ListError> {
    let (mut bytes, kind) = (Vec::new(), row.list_kind());
    match row.number("version") {
        1 => list::encode(packer, kind, values, &mut bytes)?,
        _ => list2::encode(packer, kind, values, &mut bytes)?,
    }
    Ok(bytes)
}

fn read<P: BitPacker>(packer: P, row: &Row, bytes: &[u8]) -> Result<Vec<u32>, ListError> {
    let mut values = Vec::new();
    match row.number("version") {
        1 => list::decode(&packer, bytes, &mut values).map(|_| ())?,
        _ => PackedList::open(packer, bytes)?.append_to(&mut values)?,
    }
    Ok(values)
}

/// The codes by the rule of docs/VECTORS.md; of a kind that is sorted they are added up, of a strict one plus one each.
fn values(kind: ListKind, count: usize, bits: usize) -> Vec<u32> {
    let (mut x, mut last) = (1u32, if kind == ListKind::StrictlySorted { u32::MAX } else { 0 });
    let next = || {
        x = x.wrapping_mul(1664525).wrapping_add(1013904223);
        let code = x.checked_shr(32 - bits as u32).unwrap_or(0);
        last = match kind {
            ListKind::Plain => code,
            ListKind::Sorted => last.wrapping_add(code),
            ListKind::StrictlySorted => last.wrapping_add(code).wrapping_add(1),
        };
        last
    };
    std::iter::repeat_with(next).take(count).collect()
}

/// The digits of the SHA-256 of bytes (FIPS 180-4).
fn sha256(bytes: &[u8]) -> String {
    let mut padded = bytes.to_vec();
    padded.push(0x80);
    while padded.len() % 64 != 56 {
        padded.push(0);
    }
    padded.extend((8 * bytes.len() as u64).to_be_bytes());
    let (keys, mut hash) = (fractions::<64>(f64::cbrt), fractions::<8>(f64::sqrt));
    for block in padded.chunks(64) {
        let mixed = mixed(block, &keys, hash);
        hash.iter_mut().zip(mixed).for_each(|(it, more)| *it = it.wrapping_add(more));
    }
    hash.iter().map(|it| format!("{it:08x}")).collect()
}

/// The first 32 bits of the fractions of roots of the first primes.
fn fractions<const N: usize>(root: impl Fn(f64) -> f64) -> [u32; N] {
    let primes = (2..).filter(|it| (2..*it).all(|by| it % by != 0));
    let mut bits = primes.map(|it| (root(f64::from(it)).fract() * 4294967296.0) as u32);
    std::array::from_fn(|_| bits.next().unwrap_or(0))
}

fn mixed(block: &[u8], keys: &[u32; 64], hash: [u32; 8]) -> [u32; 8] {
    let mut words: Vec<u32> = block.chunks(4).map(|it| it.iter().fold(0, |word, byte| word << 8 | u32::from(*byte))).collect();
    for at in 16..64 {
        let (a, b) = (words[at - 15], words[at - 2]);
        let a = a.rotate_right(7) ^ a.rotate_right(18) ^ a >> 3;
        let b = b.rotate_right(17) ^ b.rotate_right(19) ^ b >> 10;
        words.push(words[at - 16].wrapping_add(a).wrapping_add(words[at - 7]).wrapping_add(b));
    }
    words.iter().zip(keys).fold(hash, |[a, b, c, d, e, f, g, h], (word, key)| {
        let turned = e.rotate_right(6) ^ e.rotate_right(11) ^ e.rotate_right(25);
        let one = h.wrapping_add(turned).wrapping_add(e & f ^ !e & g).wrapping_add(*key).wrapping_add(*word);
        let other = (a.rotate_right(2) ^ a.rotate_right(13) ^ a.rotate_right(22)).wrapping_add(a & b ^ a & c ^ b & c);
        [one.wrapping_add(other), a, b, c, d.wrapping_add(one), e, f, g]
    })
}
