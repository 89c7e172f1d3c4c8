//! Packing: columns worked by hand, each call that packs, and the builder.

use std::vec;
use std::vec::Vec;

use super::column_model::{Numbers, for_each_column};
use crate::column::{Column, ColumnBuf, ColumnBuilder, Error, Kind, pack_into, pack_to, packed_len};

/// The byte around what a call may write.
const CANARY: u8 = 0xA5;

/// Columns worked by hand, as `docs/FORMAT.md` works some.
fn worked() -> Vec<(Kind, Vec<u32>, Vec<u8>)> {
    let ff = |count: usize| vec![0xFF; count];
    let fours: Vec<u32> = (0..128).map(|k| 1000 + k % 4).collect();
    let quarters = [[0x00; 4], [0x55; 4], [0xAA; 4], [0xFF; 4]].concat().repeat(2);
    vec![
        (Kind::Plain, vec![], vec![0x40]),
        (Kind::Sorted, vec![], vec![0x60]),
        (Kind::Plain, vec![5], vec![0x41, 5]),
        (Kind::Plain, vec![u32::MAX], vec![0x41, 0xFF, 0xFF, 0xFF, 0xFF, 0x0F]),
        (Kind::Plain, vec![3, 1], vec![0x42, 1, 2, 2]),
        (Kind::Sorted, vec![5, 5, 9], vec![0x63, 5, 3, 0x20]),
        (Kind::Plain, vec![7; 34], vec![0x5F, 0x22, 7, 0, 0]),
        (Kind::Plain, vec![7; 128], vec![0x5F, 0x80, 1, 0x11, 0, 7]),
        (Kind::Plain, vec![7; 129], vec![0x5F, 0x81, 1, 0x11, 0, 7, 7]),
        (Kind::Sorted, vec![7; 128], vec![0x7F, 0x80, 1, 7, 0x11, 0, 7]),
        (Kind::Sorted, (0..=30).collect(), vec![0x7F, 0x1F, 0, 1, 0xFF, 0xFF, 0xFF, 0x3F]),
        (Kind::Sorted, (0..=33).collect(), vec![0x7F, 0x22, 0, 1, 0xFF, 0xFF, 0xFF, 0xFF, 1, 1]),
        (Kind::Plain, fours[..32].into(), [&[0x5F, 0x20, 0xE8, 7, 2][..], &[0xE4; 8]].concat()),
        (Kind::Plain, fours, [&[0x5F, 0x80, 1, 0x21, 2, 0xE8, 3][..], &quarters].concat()),
        (Kind::Sorted, (0..=128).collect(), [&[0x7F, 0x81, 1, 0, 0x11, 1, 0x7F, 0xFE][..], &ff(15), &[1, 1]].concat()),
        (
            Kind::Sorted,
            [&[1_000_000; 128][..], &[1_000_001, 1_000_002]].concat(),
            vec![0x7F, 0x82, 1, 0xC0, 0x84, 0x3D, 0x31, 0, 0x40, 0x42, 0x0F, 1, 3],
        ),
        (
            Kind::Plain,
            [&[u32::MAX; 127][..], &[u32::MAX - 1]].concat(),
            [&[0x5F, 0x80, 1, 0x41, 1, 0xFE, 0xFF, 0xFF, 0xFF][..], &ff(15), &[0x7F]].concat(),
        ),
        (Kind::Plain, [&[0; 128][..], &[5, 6]].concat(), vec![0x5F, 0x82, 1, 0x11, 0, 0, 5, 1, 2]),
    ]
}

/// Each call that packs writes these bytes, and nothing beside them.
fn packs(kind: Kind, values: &[u32], bytes: &[u8]) {
    assert_eq!(ColumnBuf::pack(kind, values).unwrap().as_bytes(), bytes);
    assert_eq!(packed_len(kind, values), Ok(bytes.len()));
    let mut vector = vec![CANARY; 3];
    assert_eq!(pack_into(kind, values, &mut vector), Ok(bytes.len()));
    assert_eq!(vector, [&[CANARY; 3], bytes].concat());
    let mut slice = vec![CANARY; bytes.len() + 3];
    assert_eq!(pack_to(kind, values, &mut slice), Ok(bytes.len()));
    assert_eq!(slice, [bytes, &[CANARY; 3]].concat());
    assert_eq!(pack_to(kind, values, &mut slice[..bytes.len()]), Ok(bytes.len()));
    let mut short = vec![CANARY; bytes.len() - 1];
    assert_eq!(pack_to(kind, values, &mut short), Err(Error::Short));
    assert_eq!(short, vec![CANARY; bytes.len() - 1]);
}

#[test]
fn bytes_worked_by_hand() {
    for (kind, values, bytes) in worked() {
        packs(kind, &values, &bytes);
        assert_eq!(Column::open(&bytes).unwrap().unpack(), values);
    }
}

#[test]
fn each_call_packs_the_same_bytes() {
    for_each_column(1, |column, values, _| {
        packs(column.kind(), values, column.as_bytes());
        assert!(column.as_bytes().len() <= 17 * values.len() / 4 + 16);
        if column.kind() == Kind::Plain {
            assert_eq!(&values.iter().copied().collect::<ColumnBuf>(), column);
        }
    });
}

/// A value below the one before it, at each of some positions, and a second one after it.
#[test]
fn values_out_of_order() {
    for position in [1, 2, 31, 32, 127, 128, 129, 255, 256, 299] {
        let mut values: Vec<u32> = (100..400).collect();
        values[position] = 0;
        values[299] = 1;
        let refused = Error::NotSorted(position);
        let mut bytes = vec![CANARY; 2000];
        assert_eq!(ColumnBuf::pack(Kind::Sorted, &values), Err(refused));
        assert_eq!(packed_len(Kind::Sorted, &values), Err(refused));
        assert_eq!(pack_to(Kind::Sorted, &values, &mut bytes), Err(refused));
        assert_eq!(pack_into(Kind::Sorted, &values, &mut bytes), Err(refused));
        assert_eq!(ColumnBuilder::new(Kind::Sorted).push_all(&values), Err(refused));
        assert_eq!(bytes, vec![CANARY; 2000]);
        assert_eq!(ColumnBuf::pack(Kind::Plain, &values).unwrap().unpack(), values);
    }
}

/// A builder that values are pushed to one by one, in slices, and from iterators.
fn built(kind: Kind, values: &[u32], numbers: &mut Numbers) -> ColumnBuilder {
    let mut builder = ColumnBuilder::new(kind);
    let mut left = values;
    while !left.is_empty() {
        let (part, rest) = left.split_at(1 + numbers.below(left.len()));
        match numbers.below(4) {
            0 => part.iter().for_each(|value| builder.push(*value).unwrap()),
            1 => builder.push_all(part).unwrap(),
            2 => builder.extend(part).unwrap(),
            _ => builder.extend(part.iter().copied()).unwrap(),
        }
        left = rest;
        assert_eq!((builder.len(), builder.last()), (values.len() - left.len(), part.last().copied()));
    }
    assert_eq!((builder.kind(), builder.is_empty(), builder.len()), (kind, values.is_empty(), values.len()));
    builder
}

#[test]
fn builders() {
    for_each_column(2, |column, values, numbers| {
        let mut builder = built(column.kind(), values, numbers);
        assert_eq!(&builder.pack(), column);
        assert_eq!(&builder.clone().pack(), column);
        // More can be pushed after it, and another column after these.
        let more = builder.last().unwrap_or(3);
        builder.push(more).unwrap();
        assert_eq!(builder.pack().unpack(), [values, &[more]].concat());
        builder.clear();
        assert_eq!((builder.len(), builder.is_empty(), builder.last(), builder.kind()), (0, true, None, column.kind()));
        builder.push_all(&[0, 2]).unwrap();
        assert_eq!(builder.pack().unpack(), [0, 2]);
    });
}

#[test]
fn builders_refuse_and_do_not_change() {
    let mut builder = ColumnBuilder::new(Kind::Sorted);
    builder.extend([4, 4, 9]).unwrap();
    for _ in 0..2 {
        assert_eq!(builder.push(8), Err(Error::NotSorted(3)));
        assert_eq!(builder.push_all(&[8]), Err(Error::NotSorted(3)));
        assert_eq!(builder.push_all(&[9, 12, 11, 0]), Err(Error::NotSorted(5)));
        assert_eq!(builder.extend([0, 9]), Err(Error::NotSorted(3)));
        assert_eq!((builder.len(), builder.last()), (3, Some(9)));
    }
    builder.push_all(&[]).unwrap();
    builder.extend([0; 0]).unwrap();
    builder.push(9).unwrap();
    assert_eq!(builder.pack().unpack(), [4, 4, 9, 9]);
    // An iterator is read up to the first value that is refused.
    let mut left = [9, 12, 11, 20].into_iter();
    assert_eq!(builder.extend(&mut left), Err(Error::NotSorted(6)));
    assert_eq!((builder.pack().unpack(), left.next()), ([4, 4, 9, 9, 9, 12].into(), Some(20)));
    let mut plain = ColumnBuilder::new(Kind::Plain);
    plain.extend([9, 4, 12]).unwrap();
    assert_eq!(plain.pack().unpack(), [9, 4, 12]);
}

/// 268,435,456 values are a column, and one more is not. None of them is read: the zeros of the vector need no memory.
#[test]
fn too_many_values() {
    const MOST: usize = 1 << 28;
    let values = vec![0; MOST + 1];
    let too_long = Error::TooLong(MOST + 1);
    for kind in [Kind::Plain, Kind::Sorted] {
        assert_eq!(packed_len(kind, &values), Err(too_long));
        assert_eq!(ColumnBuf::pack(kind, &values), Err(too_long));
        assert_eq!(pack_to(kind, &values, &mut []), Err(too_long));
        assert_eq!(pack_into(kind, &values, &mut Vec::new()), Err(too_long));
        let mut builder = ColumnBuilder::new(kind);
        assert_eq!(builder.push_all(&values), Err(too_long));
        builder.push(5).unwrap();
        // Too many values come before values out of order.
        assert_eq!(builder.push_all(&values[1..]), Err(too_long));
        assert_eq!(builder.pack().append(&values[1..]), Err(too_long));
        assert_eq!((builder.len(), builder.last()), (1, Some(5)));
    }
}
