//! Wide sets combined, against plain sets.

use alloc::vec;
use alloc::vec::Vec;
use std::panic::catch_unwind;

use super::set_models::Numbers;
use super::set_reading::longest;
use super::wide_sets::{CANARY, Model, SHAPES, listed, shape};
use crate::set::wide::{Error, WideSet, WideSetBuf};

/// A pair of sets of all shapes. The other one may also have every third id of the first, or be these alone, or most of its ids.
fn pair(numbers: &mut Numbers, round: u32) -> (Model, Model) {
    let (one, two) = (shape(numbers, round % SHAPES), shape(numbers, round / SHAPES % SHAPES));
    let third = one.iter().copied().step_by(3);
    let other = match numbers.below(4) {
        0 => two,
        1 => two.into_iter().chain(third).collect(),
        2 => third.collect(),
        _ => one.iter().copied().filter(|_| numbers.below(9) > 0).collect(),
    };
    (one, other)
}

/// The answers in the order AND, OR, AND NOT, XOR.
fn answers(one: &Model, other: &Model) -> [Vec<u64>; 4] {
    [one & other, one | other, one - other, one ^ other].map(|model| listed(&model))
}

/// The ids of all operations into vectors of other values, and into one without memory; and how many these are.
fn ids(numbers: &mut Numbers, a: &WideSet, b: &WideSet, right: &[Vec<u64>; 4]) {
    let calls = [WideSet::intersect_into, WideSet::unite_into, WideSet::subtract_into, WideSet::symmetric_difference_into];
    for (call, right) in calls.iter().zip(right) {
        for len in [0, numbers.below(9000) as usize] {
            let mut ids = vec![CANARY; len];
            let before = (ids.as_ptr(), ids.capacity());
            call(a, b, &mut ids);
            assert!(ids == *right && (ids.as_ptr() == before.0 || ids.capacity() > before.1));
        }
    }
    let lens = [a.intersect_len(b), a.unite_len(b), a.subtract_len(b), a.symmetric_difference_len(b)];
    assert_eq!(lens, right.each_ref().map(Vec::len));
}

#[test]
fn two_sets() {
    let mut numbers = Numbers(8);
    // Pairs by their forms, words or spread out, and those that share ids.
    let (mut forms, mut shared) = ([0; 4], 0);
    for round in 0..SHAPES * SHAPES {
        let (one, other) = pair(&mut numbers, round);
        let right = answers(&one, &other);
        let [a, b] = [&one, &other].map(|model| WideSetBuf::pack(&listed(model)).unwrap());
        forms[usize::from(2 * (a.as_bytes()[0] & 1) + (b.as_bytes()[0] & 1))] += 1;
        shared += u32::from(!right[0].is_empty());
        // The bytes are the ids packed.
        let sets = [&a & &b, &a | &b, &a - &b, &a ^ &b];
        assert!(sets.iter().zip(&right).all(|(set, ids)| set.as_bytes() == WideSetBuf::pack(ids).unwrap().as_bytes()));
        ids(&mut numbers, &a, &b, &right);
        assert_eq!((a.is_subset(&b), a.is_superset(&b)), (one.is_subset(&other), one.is_superset(&other)));
        assert_eq!((b.is_subset(&a), a.is_disjoint(&b)), (other.is_subset(&one), one.is_disjoint(&other)));
        assert!(sets[0].is_subset(&a) && sets[1].is_superset(&b) && sets[2].is_disjoint(&b));
        let share = if right[1].is_empty() { 1.0 } else { right[0].len() as f64 / right[1].len() as f64 };
        assert_eq!([a.jaccard(&b), b.jaccard(&a), a.jaccard(&a)], [share, share, 1.0]);
    }
    assert!(forms.iter().all(|count| *count > 15) && shared > 80, "{forms:?}, {shared}");
}

/// Sets that own and that borrow their bytes, by each call and by operators.
#[test]
fn calls_and_operators() {
    let mut numbers = Numbers(9);
    for round in (0..SHAPES * SHAPES).step_by(9) {
        let (one, other) = pair(&mut numbers, round);
        let [a, b] = [&one, &other].map(|model| WideSetBuf::pack(&listed(model)).unwrap());
        let borrowed = WideSet::open(b.as_bytes()).unwrap();
        let sets = answers(&one, &other).map(|ids| WideSetBuf::pack(&ids).unwrap());
        let calls = [WideSet::intersect, WideSet::unite, WideSet::subtract, WideSet::symmetric_difference];
        assert_eq!(calls.map(|call| call(&a, &borrowed)), sets);
        let tried = [WideSet::try_intersect, WideSet::try_unite, WideSet::try_subtract, WideSet::try_symmetric_difference];
        assert_eq!(tried.map(|call| call(&a, &b).unwrap()), sets);
        assert_eq!(tried.map(|call| call(&borrowed, &borrowed).unwrap().len()), [b.len(), b.len(), 0, 0]);
        assert_eq!([&*a & &borrowed, a.clone() | &*b, &*a - borrowed.clone(), a.clone() ^ b.clone()], sets);
        let mut changed = [a.clone(), a.clone(), a.clone(), a];
        changed[0] &= &b;
        changed[1] |= &*b;
        changed[2] -= borrowed;
        changed[3] ^= &b;
        assert_eq!(changed, sets);
    }
}

/// The wide set of all 2^28 ids of the longest set, with a high word. FORMAT.md, "Wide sets": two bytes for the size of the body, and four for the count.
fn long(high: u32) -> Vec<u8> {
    let body = longest(0);
    let mut bytes = vec![8, 0x80, 0x80, 0x80, 0x80, 0x01, 1, 0x42];
    bytes.extend(high.to_le_bytes());
    bytes.extend((body.len() as u16).to_le_bytes());
    bytes.extend((1_u32 << 28).to_le_bytes());
    bytes.extend(body);
    bytes
}

/// An answer with too many ids is refused before there is room for them.
#[test]
fn more_ids_than_a_set_has() {
    let (one, other) = (WideSetBuf::open(long(0)).unwrap(), WideSetBuf::open(long(7)).unwrap());
    assert_eq!((one.unite_len(&other), one.intersect_len(&other), one.subtract_len(&other)), (1 << 29, 0, 1 << 28));
    for call in [WideSet::unite, WideSet::symmetric_difference] {
        let panic = catch_unwind(|| call(&one, &other)).err().unwrap();
        assert!(panic.downcast_ref::<std::string::String>().unwrap().contains("536870912 ids are more than 268435456"));
    }
    for call in [WideSet::try_unite, WideSet::try_symmetric_difference] {
        assert_eq!(call(&one, &other).err(), Some(Error::TooLong(1 << 29)));
    }
    // As many as there may be are counted: there are none.
    assert_eq!(one.try_symmetric_difference(&one), Ok(WideSetBuf::default()));
    assert!(one.is_subset(&one) && one.is_disjoint(&other));
}
