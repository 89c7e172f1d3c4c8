//! Sets combined, against plain sets.

use alloc::vec;
use alloc::vec::Vec;
use std::panic::catch_unwind;

use super::rounds;
use super::set_models::{FORMS, Model, Numbers, listed, packed, some_ids, used};
use super::set_reading::longest;
use crate::set::{
    Error, IdSet, IdSetBuf, intersect_all, intersect_all_into, intersect_all_len, subtract_all, subtract_all_into,
    subtract_all_len, symmetric_difference_all, symmetric_difference_all_into, symmetric_difference_all_len, unite_all,
    unite_all_into, unite_all_len,
};

/// A pair of sets of all forms, some of them alike.
fn pair(numbers: &mut Numbers, round: u32) -> (Model, Model) {
    let (form, other) = (round % FORMS, round / FORMS % FORMS);
    let one = some_ids(numbers, form);
    let mut two = some_ids(numbers, other);
    if numbers.below(2) == 0 {
        two.extend(one.iter().copied().filter(|_| numbers.below(3) > 0));
    }
    (one, two)
}

fn borrowed_of(set: &IdSet) -> IdSetBuf<&[u8]> {
    IdSet::open(set.as_bytes()).unwrap()
}

/// The answers in the order AND, OR, AND NOT, XOR.
fn answers(one: &Model, other: &Model) -> [Vec<u32>; 4] {
    [one & other, one | other, one - other, one ^ other].map(|model| listed(&model))
}

#[test]
fn two_sets() {
    let mut numbers = Numbers(4);
    for round in rounds(FORMS * FORMS) {
        let (one, other) = pair(&mut numbers, round);
        let right = answers(&one, &other);
        let (a, b) = (packed(&one), packed(&other));
        let borrowed = IdSet::open(b.as_bytes()).unwrap();
        let sets = [a.intersect(&b), a.unite(&b), a.subtract(&b), a.symmetric_difference(&b)];
        assert_eq!(sets.each_ref().map(|set| set.unpack()), right);
        // The bytes are the ids packed.
        assert!(sets.iter().zip(&right).all(|(set, ids)| set.as_bytes() == IdSetBuf::pack(ids).unwrap().as_bytes()));
        assert_eq!([&a & &b, &a | &b, &a - &b, &a ^ &b], sets);
        let tried = [IdSet::try_intersect, IdSet::try_unite, IdSet::try_subtract, IdSet::try_symmetric_difference];
        assert_eq!(tried.map(|call| call(&a, &b).unwrap()), sets);
        assert_eq!([&a & &borrowed, &*a | &borrowed, &a - &*borrowed, &*a ^ &*borrowed], sets);
        let mut changed = [a.clone(), a.clone(), a.clone(), a.clone()];
        changed[0] &= &borrowed;
        changed[1] |= &*b;
        changed[2] -= &b;
        changed[3] ^= &borrowed;
        assert_eq!(changed, sets);
        // Consumed: the first, the second, or both, of bytes that they own or borrow.
        let (x, y) = (|| a.clone(), || b.clone());
        assert_eq!([x() & &b, x() | &*b, x() - y(), x() ^ y()], sets);
        assert_eq!([&a & y(), &*a | y(), borrowed_of(&a) - &b, borrowed_of(&a) ^ borrowed_of(&b)], sets);
        let mut changed = [x(), x(), x(), x()];
        changed[0] &= y();
        changed[1] |= borrowed_of(&b);
        changed[2] -= y();
        changed[3] ^= y();
        assert_eq!(changed, sets);
        let third = IdSetBuf::from([3, 70_000]);
        let all = listed(&(&(&one | &other) | &Model::from([3, 70_000])));
        assert_eq!([(&a | &b | &third).unpack(), (x() | y() | third).unpack()], [all.clone(), all]);
        let within = [one.is_superset(&other), other.is_superset(&one), true];
        assert_eq!([a.is_superset(&b), b.is_superset(&a), (&a | &b).is_superset(&b)], within);
        let share = if right[1].is_empty() { 1.0 } else { right[0].len() as f64 / right[1].len() as f64 };
        assert_eq!([a.jaccard(&b), b.jaccard(&borrowed_of(&a)), a.jaccard(&a)], [share, share, 1.0]);
        assert_eq!([a.partial_cmp(&borrowed), (*b).partial_cmp(&a)], [one.partial_cmp(&other), other.partial_cmp(&one)]);
        let lens = [a.intersect_len(&b), a.unite_len(&b), a.subtract_len(&b), a.symmetric_difference_len(&b)];
        assert_eq!(lens, right.each_ref().map(Vec::len));
        let into = [IdSet::intersect_into, IdSet::unite_into, IdSet::subtract_into, IdSet::symmetric_difference_into];
        for (into, right) in into.iter().zip(&right) {
            let mut ids = used(&mut numbers);
            let before = (ids.as_ptr(), ids.capacity());
            into(&a, &b, &mut ids);
            assert!(ids == *right && (ids.as_ptr() == before.0 || ids.capacity() > before.1));
        }
        assert_eq!((a.is_subset(&b), a.is_disjoint(&b)), (one.is_subset(&other), one.is_disjoint(&other)));
        assert!(sets[0].is_subset(&a) && a.is_subset(&sets[1]) && sets[2].is_disjoint(&b));
    }
}

#[test]
fn many_sets() {
    let mut numbers = Numbers(5);
    let mut ids = Vec::new();
    for count in (0..=6).chain([20, 70]).cycle().take(rounds(40).count()) {
        let forms = if count > 6 { 8 } else { FORMS };
        let models: Vec<Model> = (0..count)
            .map(|_| {
                let form = numbers.below(forms);
                some_ids(&mut numbers, form)
            })
            .collect();
        let sets: Vec<IdSetBuf> = models.iter().map(packed).collect();
        let sets: Vec<&IdSet> = sets.iter().map(|set| &**set).collect();
        let first = models.first().cloned().unwrap_or_default();
        let rest = models.get(1..).unwrap_or_default();
        let shared: Vec<u32> = first.iter().copied().filter(|id| rest.iter().all(|model| model.contains(id))).collect();
        let any = listed(&models.iter().flatten().copied().collect());
        let alone: Vec<u32> = first.iter().copied().filter(|id| rest.iter().all(|model| !model.contains(id))).collect();
        let odd = listed(&models.iter().fold(Model::new(), |model, other| &model ^ other));
        let to_sets = [IdSetBuf::intersect_all, IdSetBuf::unite_all, IdSetBuf::subtract_all, IdSetBuf::symmetric_difference_all];
        for (to_set, right) in to_sets.iter().zip([&shared, &any, &alone, &odd]) {
            assert_eq!(to_set(&sets).unwrap().as_bytes(), IdSetBuf::pack(right).unwrap().as_bytes());
        }
        let right = [shared, any, alone, odd];
        assert_eq!([intersect_all, unite_all, subtract_all, symmetric_difference_all].map(|call| call(&sets)), right);
        let counts = [intersect_all_len, unite_all_len, subtract_all_len, symmetric_difference_all_len];
        assert_eq!(counts.map(|call| call(&sets)), right.each_ref().map(Vec::len));
        let calls = [intersect_all_into, unite_all_into, subtract_all_into, symmetric_difference_all_into];
        for (into, right) in calls.iter().zip(right) {
            // The vector of the call before.
            into(&sets, &mut ids);
            assert_eq!(ids, right);
        }
    }
}

/// More sets than have a next key held.
#[test]
fn far_more_sets() {
    let mut numbers = Numbers(7);
    let models: Vec<Model> = (0..20_000).map(|_| (0..3).map(|_| numbers.below(1 << 22)).collect()).collect();
    let sets: Vec<IdSetBuf> = models.iter().map(packed).collect();
    let sets: Vec<&IdSet> = sets.iter().map(|set| &**set).collect();
    let any: Model = models.iter().flatten().copied().collect();
    let mut odd = Model::new();
    for id in models.iter().flatten() {
        if !odd.remove(id) {
            odd.insert(*id);
        }
    }
    let alone: Model = models[0].iter().copied().filter(|id| models[1..].iter().all(|model| !model.contains(id))).collect();
    assert_eq!(unite_all(&sets), listed(&any));
    assert_eq!(IdSetBuf::unite_all(&sets).unwrap(), packed(&any));
    assert_eq!(IdSetBuf::symmetric_difference_all(&sets).unwrap(), packed(&odd));
    assert_eq!(IdSetBuf::subtract_all(&sets).unwrap(), packed(&alone));
}

/// Sets of one range, whose union would have room for far too many ids: the call counts first. Their sum is above 4,194,304.
#[test]
fn a_union_of_sets_that_are_alike() {
    let set: IdSetBuf = (0..600_000).collect();
    let sets = vec![&*set; 8];
    let ids = unite_all(&sets);
    assert!(ids.capacity() < 1_300_000 && ids.into_iter().eq(0..600_000));
}

/// A returned vector has little more room than ids.
#[test]
fn short_answers_of_long_sets() {
    let (even, odd): (IdSetBuf, IdSetBuf) = ((0..50_000).step_by(2).collect(), (1..50_000).step_by(2).collect());
    assert!(intersect_all(&[&even, &odd]).capacity() <= 32 && subtract_all(&[&even, &even, &odd]).capacity() <= 32);
}

#[test]
fn more_ids_than_a_set_has() {
    let (one, other) = (IdSetBuf::open(longest(0)).unwrap(), IdSetBuf::open(longest(4096)).unwrap());
    assert_eq!((one.unite_len(&other), one.intersect_len(&other)), (1 << 29, 0));
    for call in [IdSet::unite, IdSet::symmetric_difference] {
        let panic = catch_unwind(|| call(&one, &other)).err().unwrap();
        assert!(panic.downcast_ref::<std::string::String>().unwrap().contains("536870912 ids are more than 268435456"));
    }
    for call in [IdSet::try_unite, IdSet::try_symmetric_difference] {
        assert_eq!(call(&one, &other).err(), Some(Error::TooLong(1 << 29)));
    }
    for call in [IdSetBuf::unite_all, IdSetBuf::symmetric_difference_all] {
        assert_eq!(call(&[&one, &other, &IdSetBuf::default()]).err(), Some(Error::TooLong(1 << 29)));
    }
    assert_eq!(one.try_intersect(&other), Ok(IdSetBuf::default()));
    assert_eq!(one.try_subtract(&one), Ok(IdSetBuf::default()));
    assert_eq!(one.subtract(&one), IdSetBuf::default());
}

#[test]
fn vectors_in_place() {
    let mut numbers = Numbers(6);
    for round in rounds(FORMS * FORMS) {
        let (one, other) = pair(&mut numbers, round);
        let (ids, set) = (listed(&one), packed(&other));
        let [shared, any, alone, _] = answers(&one, &other);
        let calls = [IdSet::retain_in, IdSet::remove_from, IdSet::add_to];
        for (call, right) in calls.iter().zip([shared, alone, any]) {
            let mut found = ids.clone();
            assert_eq!((call(&set, &mut found), found), (Ok(()), right));
        }
    }
    let set = IdSetBuf::pack(&[1, 4]).unwrap();
    for (ids, position) in [(&[1, 1][..], 1), (&[0, 9, 4], 2), (&[5, 6, 7, 7], 3)] {
        for call in [IdSet::retain_in, IdSet::remove_from, IdSet::add_to] {
            let mut vector = ids.to_vec();
            assert_eq!((call(&set, &mut vector), &vector[..]), (Err(Error::NotSorted(position)), ids));
        }
    }
}
