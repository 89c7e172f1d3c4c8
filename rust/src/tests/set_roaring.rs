//! Bitmaps in Roaring's portable format, as sets: worked and refused bytes, and many runs, which take more bytes as a set.

use alloc::vec;
use alloc::vec::Vec;

use super::set_models::{bytes_of, ids_of, rows};
use crate::set::{Error, IdSetBuf};

#[test]
fn bitmaps() {
    let rows = rows("bitmaps");
    assert_eq!(rows.len(), 165);
    for row in rows {
        let (ids, bytes) = (ids_of(&row[0]), bytes_of(&row[1]));
        let set = IdSetBuf::from_roaring(&bytes).unwrap();
        assert_eq!(set.as_bytes(), IdSetBuf::pack(&ids).unwrap().as_bytes(), "{}", row[1]);
        assert_eq!(IdSetBuf::from_roaring(&set.to_roaring().unwrap()).unwrap(), set);
        let longer: Vec<u8> = bytes.iter().copied().chain([0]).collect();
        assert!(IdSetBuf::from_roaring(&longer).is_err() && IdSetBuf::from_roaring(&bytes[..bytes.len() - 1]).is_err());
    }
}

/// The bytes of docs/ROARING.md, and containers around the borders of their forms, worked from the rules there.
#[test]
fn lengths() {
    let pairs = |count: u32| (0..count).flat_map(|k| [3 * k, 3 * k + 1]).collect::<Vec<u32>>();
    let triples = |count: u32| (0..count).flat_map(|k| [4 * k, 4 * k + 1, 4 * k + 2]).collect::<Vec<u32>>();
    for (ids, len) in [
        (vec![], 8),
        (vec![5], 18),
        (vec![3, 7, 65536], 30),
        ((0..10).collect(), 15),
        ((0..10).chain([131_077]).collect(), 21),
        ((65528..65536).collect(), 15),
        (vec![1, 2, 5, 6, 7], 19),
        ((0..4).flat_map(|key| [4, 5, 6, 7].map(|low| key << 16 | low)).collect(), 61),
        // A count and two runs take as many bytes as five ids. Beside them are the flags.
        ((0..200).flat_map(|key| [4, 5, 7, 8, 9].map(|low| key << 16 | low)).collect(), 4 + 25 + 200 * (8 + 10)),
        // Two numbers for each run take as many bytes as an array with a count: an array without it is shorter.
        (pairs(100), 16 + 400),
        (triples(100), 9 + 2 + 400),
        // 4,096 numbers are an array, and 4,097 are bits.
        ((0..4096).map(|k| 2 * k).collect(), 16 + 8192),
        ((0..4097).map(|k| 2 * k).collect(), 16 + 8192),
        // 2,047 runs take 8,190 bytes, and 2,048 as many as more than bits.
        (triples(2047), 9 + 8190),
        (triples(2048), 16 + 8192),
        ((0..65536).collect(), 15),
        ((0..1 << 20).collect(), 4 + 2 + 16 * 14),
        ((0..65536).map(|key| key << 16).collect(), 8 + 65536 * 10),
    ] {
        let set = IdSetBuf::pack(&ids).unwrap();
        assert_eq!((set.roaring_len(), set.to_roaring().unwrap().len()), (len, len), "{} ids", ids.len());
    }
}

/// Bytes of docs/ROARING.md.
#[test]
fn written() {
    let hex = |text: &str| bytes_of(&text.replace(' ', ""));
    let fours = (0..4).flat_map(|key| [4, 5, 6, 7].map(|low| key << 16 | low)).collect::<Vec<u32>>();
    for (ids, bytes) in [
        (vec![], hex("3A300000 00000000")),
        (vec![5], hex("3A300000 01000000 0000 0000 10000000 0500")),
        (vec![3, 7, 65536], hex("3A300000 02000000 0000 0100 0100 0000 18000000 1C000000 0300 0700 0000")),
        ((0..10).chain([131_077]).collect(), hex("3B30 0100 01 0000 0900 0200 0000 0100 0000 0900 0500")),
        (vec![1, 2, 5, 6, 7], hex("3B30 0000 01 0000 0400 0200 0100 0100 0500 0200")),
        (fours, hex("3B30 0300 0F 0000 0300 0100 0300 0200 0300 0300 0300 25000000 2B000000 31000000 37000000 {010004000300*4}")),
        ((0..32768).map(|k| 2 * k).collect(), hex("3A300000 01000000 0000 FF7F 10000000 {55*8192}")),
    ] {
        assert_eq!(IdSetBuf::pack(&ids).unwrap().to_roaring().unwrap(), bytes, "{} ids", ids.len());
    }
}

#[test]
fn refused_bitmaps() {
    let rows = rows("refused_bitmaps");
    assert_eq!(rows.len(), 614);
    for row in rows {
        let number = IdSetBuf::from_roaring(&bytes_of(&row[2])).err().map(|it| it.number());
        assert_eq!(number, row[0].parse().ok(), "{row:?}");
    }
}

/// Containers of 33 runs: each takes 134 bytes as runs, and 8,449 as blocks.
#[test]
fn runs_that_become_blocks() {
    let containers = 3000;
    let mut bytes = vec![0x3B, 0x30];
    bytes.extend((containers as u16 - 1).to_le_bytes());
    bytes.extend(vec![255; containers / 8]);
    let run = |index: u16| [index * 1985, 1983];
    let count = 33 * 1984u32;
    bytes.extend((0..containers as u16).flat_map(|key| [key, (count - 1) as u16]).flat_map(u16::to_le_bytes));
    let first = bytes.len() + 4 * containers;
    bytes.extend((0..containers).flat_map(|index| (first as u32 + 134 * index as u32).to_le_bytes()));
    for _ in 0..containers {
        bytes.extend([33].into_iter().chain((0..33).flat_map(run)).flat_map(u16::to_le_bytes));
    }
    let set = IdSetBuf::from_roaring(&bytes).unwrap();
    assert_eq!((set.len(), set.min(), set.max()), (3000 * 33 * 1984, Some(0), Some((2999 << 16) + 32 * 1985 + 1983)));
    assert!(set.as_bytes().len() > 2 * bytes.len() && !set.contains(1984) && set.contains(1985));
}

#[test]
fn too_many_ids() {
    assert_eq!(IdSetBuf::from_roaring(&too_many()).err(), Some(Error::TooLong(4097 << 16)));
}

/// Full containers of 4,097 keys.
fn too_many() -> Vec<u8> {
    let mut bytes = vec![0x3B, 0x30, 0, 16];
    bytes.extend([255; 512]);
    bytes.push(1);
    bytes.extend((0..4097u16).flat_map(|key| [key, u16::MAX]).flat_map(u16::to_le_bytes));
    let first = bytes.len() as u32 + 4 * 4097;
    bytes.extend((0..4097).flat_map(|index| (first + 6 * index).to_le_bytes()));
    bytes.extend((0..4097).flat_map(|_| [1u16, 0, u16::MAX]).flat_map(u16::to_le_bytes));
    bytes
}
