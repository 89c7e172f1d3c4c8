//! Queries, against plain sets; trees of any depth.

use alloc::vec::Vec;
use std::thread;

use super::set_iter::walks;
use super::set_models::{FORMS, Model, Numbers, listed, packed, some_ids, used};
use super::set_reading::longest;
use crate::set::{IdSetBuf, Query, QueryError, QueryIds};

/// A query of up to `left` sets, by methods and operators, and its ids.
fn some_query<'a>(numbers: &mut Numbers, sets: &'a [IdSetBuf], models: &[Model], left: u32) -> (Query<'a>, Model) {
    if left <= 1 || numbers.below(8) == 0 {
        let at = numbers.below(sets.len() as u32) as usize;
        return (Query::from(&sets[at]), models[at].clone());
    }
    let part = 1 + numbers.below(left - 1);
    let (one, ones) = some_query(numbers, sets, models, part);
    let (other, others) = some_query(numbers, sets, models, left - part);
    match numbers.below(8) {
        0 => (one.and(other), &ones & &others),
        1 => (one.or(&other), &ones | &others),
        2 => (one.and_not(other), &ones - &others),
        3 => (one.xor(other), &ones ^ &others),
        4 => (&one & &other, &ones & &others),
        5 => (one | other, &ones | &others),
        6 => (&one - other, &ones - &others),
        _ => (one ^ &other, &ones ^ &others),
    }
}

#[test]
fn trees_of_sets() {
    let mut numbers = Numbers(7);
    for round in 0..60 {
        let models: Vec<Model> = (0..5)
            .map(|_| {
                let form = numbers.below(FORMS - u32::from(round > 5));
                some_ids(&mut numbers, form)
            })
            .collect();
        let sets: Vec<IdSetBuf> = models.iter().map(packed).collect();
        let left = 1 + numbers.below(12);
        let (query, model) = some_query(&mut numbers, &sets, &models, left);
        let ids = listed(&model);
        assert_eq!((query.unpack().unwrap(), query.count()), (ids.clone(), Ok(ids.len())));
        assert_eq!(query.pack().unwrap().as_bytes(), IdSetBuf::pack(&ids).unwrap().as_bytes());
        let mut vector = used(&mut numbers);
        query.unpack_into(&mut vector).unwrap();
        assert_eq!(vector, ids);
        assert!(query.ids().unwrap().eq(ids.iter().copied()));
        assert_eq!(query.ids().unwrap().map(u64::from).sum::<u64>(), ids.iter().copied().map(u64::from).sum());
        walks(&mut numbers, query.clone().ids().unwrap(), QueryIds::fill, &ids);
        let mut later = query.ids().unwrap();
        let target = numbers.next();
        later.advance_to(target);
        assert!(later.eq(ids.iter().copied().filter(|id| *id >= target)));
    }
}

/// Sets that have or lack each of the numbers below 64 by a bit, so that a word is the model of a query.
fn sets_of_bits(numbers: &mut Numbers) -> (Vec<IdSetBuf>, Vec<u64>) {
    let words: Vec<u64> = (0..5).map(|_| u64::from(numbers.next()) << 32 | u64::from(numbers.next())).collect();
    let set = |word: &u64| (0..64).filter(|bit| word >> bit & 1 == 1).collect();
    (words.iter().map(set).collect(), words)
}

fn word_of(query: &Query<'_>) -> u64 {
    query.ids().unwrap().fold(0, |word, id| word | 1 << id)
}

/// How deep a tree is. A release has deeper ones, since a million levels take half a minute without it.
const LEVELS: usize = if cfg!(debug_assertions) { 100_000 } else { 1_000_000 };

/// Builds, clones, runs and drops trees: nested to the left by all operations, and to the right by those that need no order.
fn deep_trees() {
    let mut numbers = Numbers(8);
    let (sets, words) = sets_of_bits(&mut numbers);
    for (to_the_right, depth) in [(false, LEVELS), (true, LEVELS / 10)] {
        let (mut query, mut word) = (Query::from(&sets[0]), words[0]);
        for level in 1..=depth {
            let (set, other) = (&sets[level % 5], words[level % 5]);
            (query, word) = match numbers.below(if to_the_right { 3 } else { 4 }) {
                0 if to_the_right => (Query::from(set).and(query), other & word),
                1 if to_the_right => (Query::from(set).or(query), other | word),
                _ if to_the_right => (Query::from(set).xor(query), other ^ word),
                0 => (query & set, word & other),
                1 => (query | set, word | other),
                2 => (query ^ set, word ^ other),
                _ => (query - set, word & !other),
            };
        }
        let clone = query.clone();
        drop(query);
        assert_eq!(word_of(&clone), word);
    }
}

#[test]
fn a_small_stack_is_enough() {
    let small = thread::Builder::new().stack_size(64 * 1024);
    small.spawn(deep_trees).unwrap().join().unwrap();
}

/// Trees that become twice as large at each level, of all operations.
#[test]
fn full_trees() {
    let (sets, words) = sets_of_bits(&mut Numbers(9));
    let (mut query, mut word) = (Query::from(&sets[0]), words[0]);
    for level in 0..10 {
        (query, word) = match level % 2 {
            0 => (&query ^ (Query::from(&sets[level % 5]) | &query), word ^ (words[level % 5] | word)),
            _ => ((Query::from(&sets[level % 5]) - &query) | &query, words[level % 5] & !word | word),
        };
    }
    assert_eq!(word_of(&query), word);
}

/// AND NOT nested to the right: 64 operands may wait and 65 may not, in any part of a query.
#[test]
fn too_many_operands() {
    let (sets, words) = sets_of_bits(&mut Numbers(10));
    let nested = |levels: usize| {
        (1..levels).fold((Query::from(&sets[0]), words[0]), |(query, word), level| {
            (Query::from(&sets[level % 5]).and_not(query), words[level % 5] & !word)
        })
    };
    let (query, word) = nested(64);
    assert_eq!(word_of(&query), word);
    for levels in [65, 66, 200, 100_000] {
        assert_eq!(nested(levels).0.ids().err(), Some(QueryError::TooDeep), "{levels}");
    }
    // The query is the first operand; and the second, after a set or after one and an operation.
    let deep = nested(70).0;
    let mut ids = Vec::from([3, 2]);
    let error = QueryError::TooDeep;
    for query in [
        deep.clone().and(&sets[0]),
        Query::from(&sets[0]).and(&deep),
        Query::from(&sets[0]).and_not(&deep),
        (Query::from(&sets[0]) & &sets[1]).and_not(&deep),
    ] {
        assert_eq!((query.unpack(), query.count(), query.pack()), (Err(error), Err(error), Err(error)));
        assert_eq!((query.unpack_into(&mut ids), &ids[..]), (Err(error), &[3, 2][..]));
    }
    assert!(std::string::ToString::to_string(&deep.count().unwrap_err()).contains("more than 64 operands"));
}

#[test]
fn more_ids_than_a_set_has() {
    let (one, other) = (IdSetBuf::open(longest(0)).unwrap(), IdSetBuf::open(longest(4096)).unwrap());
    let error = (Query::from(&one) | &other).pack().unwrap_err();
    assert_eq!(error, QueryError::TooLong(1 << 29));
    assert!(std::string::ToString::to_string(&error).contains("536870912 ids are more than 268435456"));
    assert_eq!((Query::from(&one) - (Query::from(&one) & &other)).pack(), Ok(one));
}
