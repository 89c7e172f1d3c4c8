//! Writes blocks.tsv with the Rust crate `bitpacking` 0.9.3; docs/VECTORS.md says how to run it.

use bitpacking::{BitPacker, BitPacker1x, BitPacker4x, BitPacker8x};

#[derive(Clone, Copy)]
enum Kind {
    Plain,
    Sorted(u32),
    Strict(Option<u32>),
}

/// The first codes of every block at a width: the highest bits of x(1), x(2), ..
fn codes(count: usize, width: u8) -> Vec<u32> {
    let mut x = 1u32;
    let mut next = || {
        x = x.wrapping_mul(1664525).wrapping_add(1013904223);
        x.checked_shr(32 - u32::from(width)).unwrap_or(0)
    };
    (0..count).map(|_| next()).collect()
}

/// The values that have these codes.
fn values(kind: Kind, codes: &[u32]) -> Vec<u32> {
    let mut before = match kind {
        Kind::Plain => return codes.to_vec(),
        Kind::Sorted(initial) => initial,
        Kind::Strict(initial) => initial.unwrap_or(u32::MAX),
    };
    let step = u32::from(matches!(kind, Kind::Strict(_)));
    let mut sum = |code: &u32| {
        before = before.wrapping_add(*code).wrapping_add(step);
        before
    };
    codes.iter().map(&mut sum).collect()
}

/// One line: the values, and their bytes at the least width.
fn line<P: BitPacker>(name: &str, packer: &P, kind: Kind, width: u8) {
    let block = values(kind, &codes(P::BLOCK_LEN, width));
    let mut bytes = vec![0; 4 * P::BLOCK_LEN];
    let (word, initial, least, size) = match kind {
        Kind::Plain => {
            let least = packer.num_bits(&block);
            (
                "plain",
                "-".into(),
                least,
                packer.compress(&block, &mut bytes, least),
            )
        }
        Kind::Sorted(initial) => {
            let least = packer.num_bits_sorted(initial, &block);
            let size = packer.compress_sorted(initial, &block, &mut bytes, least);
            ("sorted", initial.to_string(), least, size)
        }
        Kind::Strict(initial) => {
            let least = packer.num_bits_strictly_sorted(initial, &block);
            let size = packer.compress_strictly_sorted(initial, &block, &mut bytes, least);
            (
                "strict",
                initial.map_or("none".into(), |it| it.to_string()),
                least,
                size,
            )
        }
    };
    let block: Vec<String> = block.iter().map(u32::to_string).collect();
    let mut digits: String = bytes[..size]
        .iter()
        .map(|byte| format!("{byte:02x}"))
        .collect();
    if digits.is_empty() {
        digits = "-".into();
    }
    println!(
        "{name}\t{word}\t{initial}\t{least}\t{}\t{digits}",
        block.join(",")
    );
}

fn blocks<P: BitPacker>(name: &str, packer: &P) {
    for width in 0..=32 {
        for kind in [
            Kind::Plain,
            Kind::Sorted(1),
            Kind::Strict(Some(1)),
            Kind::Strict(None),
        ] {
            line(name, packer, kind, width);
        }
    }
}

fn main() {
    println!("packer\tkind\tinitial\twidth\tvalues\tbytes");
    blocks("1x", &BitPacker1x::new());
    blocks("4x", &BitPacker4x::new());
    blocks("8x", &BitPacker8x::new());
}
