//! Packing, building and appending.

use alloc::vec;
use alloc::vec::Vec;

use super::set_models::{FORMS, Model, Numbers, listed, packed, some_ids};
use crate::set::{Error, IdSetBuf, SetBuilder, pack_into, pack_to, packed_len};

/// Ids that do not increase, with the position of the first fall.
const FALLS: [(&[u32], usize); 4] = [(&[1, 1], 1), (&[0, 5, 4, 3], 2), (&[7, u32::MAX, 0], 2), (&[2, 3, 3, 1], 2)];

#[test]
fn ids_out_of_order() {
    for (ids, position) in FALLS {
        let error = Error::NotSorted(position);
        let (mut vector, mut slice) = (vec![7, 8], [0xA5; 20]);
        assert_eq!(IdSetBuf::pack(ids).err(), Some(error));
        assert_eq!(packed_len(ids), Err(error));
        assert_eq!((pack_into(ids, &mut vector), vector), (Err(error), vec![7, 8]));
        assert_eq!((pack_to(ids, &mut slice), slice), (Err(error), [0xA5; 20]));
        let mut builder = SetBuilder::new();
        assert_eq!(builder.extend(ids), Err(error));
        assert_eq!(builder.pack().unpack(), ids[..position]);
        assert_eq!(IdSetBuf::default().append(ids).err(), Some(error));
        assert_eq!(IdSetBuf::pack(&ids[..1]).unwrap().append(&ids[1..]).err(), Some(error));
    }
}

#[test]
fn built_and_collected() {
    let mut numbers = Numbers(2);
    let mut builder = SetBuilder::default();
    for form in 0..FORMS {
        let model = some_ids(&mut numbers, form);
        let ids = listed(&model);
        builder.clear();
        assert!(builder.is_empty() && builder.last().is_none());
        let half = ids.len() / 2;
        ids[..half].iter().for_each(|id| builder.push(*id).unwrap());
        assert_eq!(builder.pack().unpack(), ids[..half]);
        builder.extend(ids[half..].iter().copied()).unwrap();
        assert_eq!((builder.len(), builder.last()), (ids.len(), ids.last().copied()));
        let set = packed(&model);
        assert_eq!((builder.pack(), builder.clone().pack()), (set.clone(), set.clone()));
        if let Some(last) = builder.last() {
            let refused = [last, last.wrapping_sub(1).min(last)].map(|id| builder.push(id));
            assert_eq!((refused, builder.len()), ([Err(Error::NotSorted(ids.len())); 2], ids.len()));
        }
        // In the opposite order, twice, and as from a set without an order.
        assert_eq!(ids.iter().rev().chain(&ids).copied().collect::<IdSetBuf>(), set);
        assert_eq!([model.iter().copied().collect::<IdSetBuf>(), ids.iter().rev().collect()], [set.clone(), set.clone()]);
        // The second half before the first, whose last id comes once more, and by reference.
        let mut grown = IdSetBuf::default();
        grown.extend(ids[half..].iter().rev().copied());
        grown.extend(&ids[..half.max(1).min(ids.len())]);
        assert_eq!(grown, set);
    }
    assert_eq!(Vec::<u32>::new().into_iter().collect::<IdSetBuf>(), IdSetBuf::default());
    assert_eq!([IdSetBuf::from([]), IdSetBuf::from([9, 4, 9])].map(|set| set.unpack()), [vec![], vec![4, 9]]);
}

/// At every kind of cut: within a chunk, between chunks, and at a change of the form.
#[test]
fn appended() {
    let mut numbers = Numbers(3);
    for form in (1..FORMS).chain(1..FORMS) {
        let ids = listed(&some_ids(&mut numbers, form));
        let whole = IdSetBuf::pack(&ids).unwrap();
        let cuts = [0, 1, ids.len() / 2, ids.len() - 1, ids.len(), numbers.below(ids.len() as u32) as usize];
        for cut in cuts {
            assert_eq!(IdSetBuf::pack(&ids[..cut]).unwrap().append(&ids[cut..]).unwrap(), whole);
        }
    }
    let set = IdSetBuf::pack(&[3, 9]).unwrap();
    for (more, position) in [(&[9][..], 2), (&[0], 2), (&[10, 12, 12], 4)] {
        assert_eq!(set.append(more).err(), Some(Error::NotSorted(position)));
    }
    assert_eq!(set.append(&[]).unwrap(), set);
    assert_eq!(packed(&Model::from([u32::MAX])).append(&[0]).err(), Some(Error::NotSorted(1)));
}
