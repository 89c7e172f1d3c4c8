//! What opened sets have, against plain sets; worked bytes; refused bytes.

use alloc::vec;
use alloc::vec::Vec;

use super::set_models::{FORMS, Model, Numbers, bytes_of, ids_of, listed, packed, rows, some_ids, used};
use crate::set::{Description, Error, IdSet, IdSetBuf, OpenError, open_many, pack_into, pack_to, packed_len};

const CANARY: u32 = 0xA5A5_A5A5;

/// Ids of a set, those beside them, and some others.
fn targets(numbers: &mut Numbers, ids: &[u32]) -> Vec<u32> {
    let mut targets = vec![0, 1, u32::MAX - 1, u32::MAX];
    for _ in 0..60 {
        targets.push(numbers.next());
        if !ids.is_empty() {
            let id = ids[numbers.below(ids.len() as u32) as usize];
            targets.extend([id, id.wrapping_add(1), id.wrapping_sub(1), id ^ 65_536]);
        }
    }
    targets
}

fn reads(set: &IdSet, model: &Model, numbers: &mut Numbers) {
    let ids = listed(model);
    assert_eq!((set.len(), set.is_empty()), (ids.len(), ids.is_empty()));
    assert_eq!((set.min(), set.max()), (ids.first().copied(), ids.last().copied()));
    assert_eq!(set.unpack(), ids);
    for target in targets(numbers, &ids) {
        let rank = ids.partition_point(|id| *id < target);
        assert_eq!((set.contains(target), set.rank(target)), (model.contains(&target), rank));
        assert_eq!(set.seek(target), ids.get(rank).map(|id| (rank, *id)));
    }
    for _ in 0..60 {
        let position = numbers.below(ids.len() as u32 + 3) as usize;
        assert_eq!(set.select(position), ids.get(position).copied());
        let mut page = vec![CANARY; [0, 1, 40, 700][numbers.below(4) as usize]];
        let wanted: Vec<u32> = ids.iter().skip(position).take(page.len()).copied().collect();
        assert_eq!(set.unpack_range(position, &mut page), wanted.len());
        assert_eq!(page[..wanted.len()], wanted);
        assert!(page[wanted.len()..].iter().all(|id| *id == CANARY));
    }
    assert_eq!((set.select(usize::MAX), set.unpack_range(usize::MAX, &mut [CANARY])), (None, 0));
    let mut vector = used(numbers);
    let before = (vector.as_ptr(), vector.capacity());
    set.unpack_into(&mut vector);
    assert!(vector == ids && (before.1 < ids.len() || (vector.as_ptr(), vector.capacity()) == before));
}

#[test]
fn sets_of_each_form() {
    let mut numbers = Numbers(1);
    for form in (0..FORMS).cycle().take(40) {
        let model = some_ids(&mut numbers, form);
        let set = packed(&model);
        reads(&set, &model, &mut numbers);
        reads(&IdSet::open(set.as_bytes()).unwrap(), &model, &mut numbers);
    }
}

/// Ids of one chunk, in slices of these lengths in turn.
pub(super) fn in_slices(numbers: &mut Numbers, slices: u32, lengths: &[usize]) -> Model {
    let mut ids = Model::new();
    for (index, length) in (0..slices).zip(lengths.iter().cycle()) {
        let (first, before) = (65_536 + 256 * (256 * index / slices), ids.len());
        while ids.len() < before + length {
            ids.insert(first + numbers.below(256));
        }
    }
    ids
}

/// Slices of bytes, of bits and full ones that are as long or as short as they can be, and as many.
#[test]
fn slices_of_each_length() {
    let mut numbers = Numbers(3);
    for slices in [1, 15, 16, 17, 31, 32, 33, 255, 256] {
        for lengths in [&[32][..], &[31], &[31, 32, 33], &[1, 256, 2], &[255, 32, 256]] {
            let ids = in_slices(&mut numbers, slices, lengths);
            let (set, ids) = (packed(&ids), listed(&ids));
            for target in (65_530..131_080).step_by(3) {
                let rank = ids.partition_point(|id| *id < target);
                let found = ids.get(rank).map(|id| (rank, *id));
                assert_eq!((set.rank(target), set.seek(target)), (rank, found));
                assert_eq!(set.contains(target), found.is_some_and(|found| found.1 == target));
            }
            for position in (0..ids.len() + 2).step_by(3) {
                assert_eq!(set.select(position), ids.get(position).copied());
            }
        }
    }
}

/// Sets worked by hand, as docs/FORMAT.md works some.
#[test]
fn worked_bytes() {
    let rows: [(Vec<u32>, &str); 19] = [
        (vec![], "80"),
        (vec![5], "8105"),
        (vec![u32::MAX], "81FFFFFFFF0F"),
        (vec![7, 9, 10, 300], "84070901008404"),
        (vec![0, u32::MAX], "820020FEFFFFFF"),
        ((0..=32).collect(), "A10000"),
        ((0..=33).collect(), "A2000000"),
        ((0..=68).step_by(2).collect(), "A30001FFFFFFFF0103"),
        ((0..=127).collect(), "0580010111000006 80 01FF 0000 8000"),
        ((0..=254).step_by(2).collect(), "0580010111000023800000 7F {55*32}"),
        ((0..=255).collect(), "0580020121000006 0001 01FF 0000 0001"),
        ((0..=65_535).collect(), "058080040131000004 000001 01FF 0000"),
        ((100..=9999).collect(), "05AC4D0121000006 AC26 01FF 6400 1027"),
        ((60_000..=65_535).collect(), "05A02B0121000004 A015 01FF 60EA"),
        ((65_504..=65_631).collect(), "05800102110000 0100040A2080 01FF E0FF 01FF 0000 6000"),
        ((65_530..=65_657).collect(), "05800102110000 0100090F0680 00FF05FAFBFCFDFEFF 01FF 0000 7A00"),
        ((0..=999).chain(2000..=2999).chain(3001..=65_535).collect(), "0597F803012100000C 17FC 01FF 0000 E803 D007 B80B B90B"),
        (
            (0..300_000).collect(),
            "05E0A7120531 00000100020003000400 04080C1016 000001000002000003000004E09304 01FF0000 01FF0000 01FF0000 01FF0000 01FF0000E093",
        ),
        (
            (0..=60).step_by(2).chain((256..=448).step_by(2)).collect(),
            "05800101110000 4480 0100011E60 00020406080A0C0E10121416181A1C1E20222426282A2C2E30323436383A3C {55*24}01{00*7}",
        ),
    ];
    for (ids, field) in rows {
        let set = IdSetBuf::pack(&ids).unwrap();
        let field = field.replace(' ', "");
        assert_eq!(set.as_bytes(), bytes_of(&field), "{field}");
        assert_eq!(IdSet::open(set.as_bytes()).unwrap().unpack(), ids);
    }
}

/// Three chunks, with a body of each form. Two boundaries and the bytes before them take 6 bytes. Blocks have a byte, 8 high bytes, 8 counts and 8
/// slices of 32 bytes, which are 273, and 20 numbers take 40. Before the bodies are byte 0, two bytes for 2020, one for 3 and one for the sizes,
/// and of each chunk two bytes of its key, of its end and of its sum. Few ids without a gap have two bytes, and one for each 32 gaps.
#[test]
fn a_body_of_each_form() {
    let ids = (0..1000).chain((65_536..67_536).step_by(2)).chain((131_072..136_212).step_by(257));
    let it = ids.collect::<IdSetBuf>().describe();
    assert_eq!(it, Description { ids: 2020, bytes: 5 + 18 + 319, chunks: 3, numbers: 1, blocks: 1, runs: 1 });
    let few: Vec<u32> = (0..127).collect();
    let far: Vec<u32> = (0..128).map(|k| k << 16).collect();
    for (ids, bytes) in [(vec![], 1), (few, 2 + 4), (far, 3 + 4 * 128)] {
        let it = IdSetBuf::pack(&ids).unwrap().describe();
        assert_eq!(it, Description { ids: ids.len(), bytes, chunks: 0, numbers: 0, blocks: 0, runs: 0 });
    }
}

/// The sets there whose bytes count: numbers in one chunk, an array, and many chunks.
#[test]
fn worked_bytes_that_count() {
    let numbers = (0..128).flat_map(|k| [3, 2 * k]);
    let array = (0..128_u32).flat_map(|k| (32_768 * k).to_le_bytes());
    let keys = (0..32).flat_map(|k| [k, 0]);
    let ends = (1..=32_u16).flat_map(|k| (8 * k).to_le_bytes());
    let sums = (1..=32).map(|k| 4 * k);
    let bodies = [0, 0, 0, 0x40, 0, 0x80, 0, 0xC0].repeat(32);
    let rows: [(u32, usize, u32, Vec<u8>); 3] = [
        (3, 512, 65_027, [5, 0x80, 1, 1, 0x12, 0, 0, 0, 1, 0x80].into_iter().chain(numbers).collect()),
        (0, 32_768, 4_161_536, [6, 0x80, 1].into_iter().chain(array).collect()),
        (0, 16_384, 2_080_768, [5, 0x80, 1, 0x20, 0x12].into_iter().chain(keys).chain(ends).chain(sums).chain(bodies).collect()),
    ];
    for (first, step, last, bytes) in rows {
        let ids: Vec<u32> = (first..=last).step_by(step).collect();
        assert_eq!(IdSetBuf::pack(&ids).unwrap().as_bytes(), bytes);
        assert_eq!(IdSet::open(&bytes).unwrap().unpack(), ids);
    }
}

#[test]
fn each_set_of_the_vectors() {
    let rows = rows("id_sets");
    assert_eq!(rows.len(), 563);
    for row in rows {
        let (ids, bytes) = (ids_of(&row[0]), bytes_of(&row[1]));
        assert_eq!(packed_len(&ids), Ok(bytes.len()));
        assert_eq!(IdSetBuf::pack(&ids).unwrap().as_bytes(), bytes);
        assert_eq!(IdSet::open(&bytes).unwrap().unpack(), ids);
        let mut slice = vec![0xA5; bytes.len() + 2];
        assert_eq!(pack_to(&ids, &mut slice), Ok(bytes.len()));
        assert_eq!((&slice[..bytes.len()], &slice[bytes.len()..]), (&bytes[..], &[0xA5; 2][..]));
        let mut short = vec![0xA5; bytes.len() - 1];
        assert_eq!(pack_to(&ids, &mut short), Err(Error::Short));
        assert!(short.iter().all(|byte| *byte == 0xA5));
        let mut vector = vec![7, 8];
        assert_eq!(pack_into(&ids, &mut vector), Ok(bytes.len()));
        assert_eq!((&vector[..2], &vector[2..]), (&[7, 8][..], &bytes[..]));
    }
}

#[test]
fn refused_bytes() {
    let rows = rows("refused_id_sets");
    assert_eq!(rows.len(), 3031);
    for row in rows {
        let bytes = bytes_of(&row[2]);
        let numbers = [
            IdSet::open(&bytes).err(),
            IdSetBuf::open(bytes.clone()).err(),
            IdSetBuf::try_from(bytes.clone()).err(),
            IdSetBuf::try_from(&bytes[..]).err(),
        ];
        let number: u8 = row[0].parse().unwrap();
        assert!(numbers.iter().all(|error| error.map(|error| error.number()) == Some(number)), "{row:?}");
    }
}

/// Faults that docs/FORMAT.md works.
#[test]
fn worked_faults() {
    for (field, error) in [
        ("-", Error::Short),
        ("05", Error::Short),
        ("7F", Error::BadVersion(127)),
        ("8185", Error::Short),
        ("818500", Error::BadNumber),
        ("820021", Error::BadWidth(0, 33)),
        ("82000200", Error::LooseWidth(0, 2)),
        ("82050121", Error::Padding),
        ("82FFFFFFFF0F0000", Error::NotSorted(1)),
        ("82050001", Error::Trailing),
        ("057F", Error::BadNumber),
        ("058180808001", Error::TooLong(268_435_457)),
        ("05800100", Error::BadNumber),
        ("0580010110", Error::BadSizes(16)),
        ("0580010181", Error::BadSizes(129)),
        ("0580010112000000 0080", Error::BadOffset(0)),
        ("0580010112000023 0080", Error::BadSizes(18)),
        ("058001011100 0023 7F", Error::BadSum(0)),
        ("058080040131000004000001 01FF 0100", Error::BadBody(0)),
        ("058002012100000300010000FF", Error::LooseBody(0)),
    ] {
        assert_eq!(IdSet::open(&bytes_of(&field.replace(' ', ""))).err(), Some(error), "{field}");
    }
}

/// The second of the encodings with a fault is not read.
#[test]
fn many_opened() {
    let rows = rows("id_sets");
    let encodings: Vec<Vec<u8>> = rows.iter().map(|row| bytes_of(&row[1])).collect();
    let sets = open_many(encodings.iter().map(|bytes| &bytes[..])).unwrap();
    assert!(sets.iter().map(|set| set.unpack()).eq(rows.iter().map(|row| ids_of(&row[0]))));
    for index in [0, 7, encodings.len() - 1] {
        let mut wrong = encodings.clone();
        wrong[index] = vec![0x81, 5, 0];
        wrong[index + 1..].fill(vec![]);
        assert_eq!(open_many(wrong), Err(OpenError { index, error: Error::Trailing }));
    }
    assert_eq!(open_many::<&[u8]>([]), Ok(vec![]));
}

/// A set of 2^28 ids, in 4,096 full chunks from a key on: the longest one.
pub(super) fn longest(first_key: u16) -> Vec<u8> {
    let mut bytes = vec![5, 0x80, 0x80, 0x80, 0x80, 0x01, 0x80, 0x20, 0x42];
    let chunks = 4096;
    bytes.extend((0..chunks).flat_map(|chunk| (first_key + chunk as u16).to_le_bytes()));
    bytes.extend((1..=chunks).flat_map(|chunk: u32| (4 * chunk as u16).to_le_bytes()));
    bytes.extend((1..=chunks).flat_map(|chunk: u32| (65_536 * chunk).to_le_bytes()));
    bytes.extend([1, 0xFF, 0, 0].repeat(chunks as usize));
    bytes
}

#[test]
fn the_longest_set() {
    let set = IdSetBuf::open(longest(4096)).unwrap();
    assert_eq!((set.len(), set.min(), set.max()), (1 << 28, Some(1 << 28), Some((1 << 29) - 1)));
    assert_eq!((set.rank(1 << 28), set.rank(u32::MAX), set.select((1 << 28) - 1)), (0, 1 << 28, Some((1 << 29) - 1)));
    assert_eq!(set.append(&[1 << 29]).err(), Some(Error::TooLong((1 << 28) + 1)));
    assert_eq!(set.iter().nth_back(5), Some((1 << 29) - 6));
}

/// Sets that stand one after the other, before any bytes, have their lengths; one that is cut has none.
#[test]
fn lengths_at_the_front() {
    let mut numbers = Numbers(11);
    let encodings: Vec<_> = (0..FORMS).map(|form| packed(&some_ids(&mut numbers, form)).into_bytes()).collect();
    let mut stream: Vec<u8> = encodings.concat();
    stream.extend((0..9).map(|_| numbers.below(256) as u8));
    let mut at = &stream[..];
    for bytes in &encodings {
        assert_eq!(IdSetBuf::front_len(at), Some(bytes.len()));
        assert_eq!(IdSetBuf::front_len(&at[..numbers.below(bytes.len() as u32) as usize]), None);
        at = &at[bytes.len()..];
    }
    assert_eq!(at.len(), 9);
    assert!(IdSetBuf::front_len(at).is_none_or(|len| len <= 9));
}
