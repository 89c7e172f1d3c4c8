//! The best documents of a query: worked by hand, and against a scan of all documents.

use std::vec::Vec;

use super::rounds;
use crate::column::{ColumnBuf, Kind};
use crate::ranked::{BoundedTerm, CLASSES, Error, Term, best, best_among};
use crate::ranking;
use crate::set::IdSetBuf;

/// The counts that have a row of their own.
const ROWS: u32 = 5;

/// The part of a count and a class: 300 for each time, up to four times, less the class.
fn part(count: u32, class: u8) -> u32 {
    count.min(ROWS - 1) * (300 - u32::from(class))
}

fn table() -> Vec<u32> {
    (0..ROWS * CLASSES as u32).map(|k| part(k / 256, (k % 256) as u8)).collect()
}

/// A word: its documents, and how often each has it.
struct Word {
    ids: Vec<u32>,
    counts: Vec<u32>,
    documents: IdSetBuf,
    column: ColumnBuf,
}

impl Word {
    fn new(ids: &[u32], counts: &[u32]) -> Self {
        let (documents, column) = (IdSetBuf::pack(ids).unwrap(), ColumnBuf::pack(Kind::Plain, counts).unwrap());
        Word { ids: ids.to_vec(), counts: counts.to_vec(), documents, column }
    }

    fn term<'a>(&'a self, table: &'a [u32]) -> Term<'a> {
        Term::new(&self.documents, &self.column, table).unwrap()
    }
}

fn found(words: &[Word], classes: &[u8], at_least: usize, most: usize) -> Vec<(u32, u64)> {
    let table = table();
    let terms: Vec<_> = words.iter().map(|word| word.term(&table)).collect();
    let found = best(&terms, classes, at_least, most);
    let bounded: Vec<_> = terms.iter().map(|term| BoundedTerm::new(*term, classes)).collect();
    let terms: Vec<_> = bounded.iter().map(BoundedTerm::term).collect();
    assert!(best(&terms, classes, at_least, most) == found);
    found.iter().map(|it| (it.id, it.score)).collect()
}

fn among(documents: &[u32], words: &[Word], classes: &[u8], most: usize) -> Vec<(u32, u64)> {
    let table = table();
    let terms: Vec<_> = words.iter().map(|word| word.term(&table)).collect();
    best_among(documents, &terms, classes, most).unwrap().iter().map(|it| (it.id, it.score)).collect()
}

/// What a scan finds: the documents that have at least `at_least` of the words.
fn scanned(documents: impl IntoIterator<Item = u32>, words: &[Word], classes: &[u8], at_least: usize) -> Vec<(u32, u64)> {
    let mut all = Vec::new();
    for id in documents {
        let (mut score, mut have) = (0, 0);
        for word in words {
            if let Ok(at) = word.ids.binary_search(&id) {
                score += u64::from(part(word.counts[at], classes.get(id as usize).copied().unwrap_or(0)));
                have += 1;
            }
        }
        if have >= at_least {
            all.push((id, score));
        }
    }
    all.sort_by_key(|&(id, score)| (core::cmp::Reverse(score), id));
    all
}

/// The first word is twice in document 1, once in 4 and in 7; the second once in 4, three times in 9, which has class 100: 3 * 200.
#[test]
fn worked_by_hand() {
    let words = [Word::new(&[1, 4, 7], &[2, 1, 1]), Word::new(&[4, 9], &[1, 3])];
    let classes = [0, 0, 0, 0, 0, 0, 0, 0, 0, 100];
    let all = [(1, 600), (4, 600), (9, 600), (7, 300)];
    for most in [0, 1, 2, 3, 4, 10] {
        assert_eq!(found(&words, &classes, 1, most), all[..most.min(4)]);
        assert_eq!(found(&words, &classes, 0, most), all[..most.min(4)]);
    }
    assert_eq!(found(&words, &classes, 2, 10), [(4, 600)]);
    assert_eq!(found(&words, &classes, 3, 10), []);
    assert_eq!(found(&[], &classes, 1, 10), []);
    // Document 5 has none of the words.
    let given = [(4, 600), (9, 600), (7, 300), (5, 0)];
    for most in [0, 1, 2, 3, 4, 10] {
        assert_eq!(among(&[4, 5, 7, 9], &words, &classes, most), given[..most.min(4)]);
    }
    assert_eq!(among(&[], &words, &classes, 10), []);
    assert_eq!(best_among(&[4, 5, 5, 9, 7], &[], &classes, 10).err(), Some(Error::NotSorted(2)));
}

/// The greatest id, and a block that ends with it.
#[test]
fn last_ids() {
    let ids: Vec<u32> = (u32::MAX - 127..=u32::MAX).collect();
    let words = [Word::new(&ids, &[1; 128]), Word::new(&[7, u32::MAX], &[1, 4])];
    assert_eq!(found(&words, &[], 1, 2), [(u32::MAX, 1500), (7, 300)]);
    assert_eq!(found(&words, &[], 2, 2), [(u32::MAX, 1500)]);
}

/// Random words, dense and rare, of some and of many blocks, with many equal scores; any of them, some, or all.
#[test]
fn same_as_a_scan() {
    let mut state = 1u64;
    let mut random = |below: u64| {
        state = state.wrapping_mul(6364136223846793005).wrapping_add(1442695040888963407);
        (state >> 33) % below
    };
    for round in rounds(40) {
        let documents = [300, 300, 3000, 3000, 3000, 3000, 3000, 20_000][round as usize % 8];
        let classes: Vec<u8> = (0..documents - documents / 8).map(|_| [0, 3, 3, 40, 255][random(5) as usize]).collect();
        let words: Vec<Word> = (0..1 + random(5))
            .map(|_| {
                let (one_of, most) = ([1, 2, 9, 60, 700][random(5) as usize], 1 + random(6));
                let ids: Vec<u32> = (0..documents as u32).filter(|_| random(one_of) == 0).collect();
                let counts: Vec<u32> = ids.iter().map(|_| if random(40) == 0 { 9 } else { 1 + random(most) as u32 }).collect();
                Word::new(&ids, &counts)
            })
            .collect();
        for at_least in [1, 2, words.len()] {
            let all = scanned(0..documents as u32, &words, &classes, at_least);
            for most in [1, 10, 129, all.len().min(3000)] {
                assert!(found(&words, &classes, at_least, most) == all[..most.min(all.len())], "round {round}");
            }
        }
        let one_of = [1, 2, 9, 60, 700][random(5) as usize];
        let given: Vec<u32> = (0..documents as u32 + 100).filter(|_| random(one_of) == 0).collect();
        let all = scanned(given.iter().copied(), &words, &classes, 0);
        for most in [0, 1, 10, 129, all.len()] {
            assert!(among(&given, &words, &classes, most) == all[..most.min(all.len())], "round {round}");
        }
    }
}

/// Each eighth document has the word four times and class 255, and the others once and class 0, which is worth more. The bound of each block is 300.
#[test]
fn bounds_of_documents() {
    let (ids, counts): (Vec<u32>, Vec<u32>) = (0..1024).map(|id| (id, if id % 8 == 0 { 4 } else { 1 })).unzip();
    let classes: Vec<u8> = ids.iter().map(|id| if id % 8 == 0 { 255 } else { 0 }).collect();
    let word = Word::new(&ids, &counts);
    let table = table();
    let parts = ranking::Parts::new(&table).unwrap();
    let terms = [ranking::Term::new(word.documents.code(), word.column.code(), parts).unwrap()];
    let mut bounds = [7; 10];
    ranking::bound_blocks(&terms[0], &classes, &mut bounds);
    assert_eq!(bounds, [300, 300, 300, 300, 300, 300, 300, 300, 0, 0]);
    let mut room = [ranking::Scored { score: 0, id: 0 }; 10];
    for (count, unpacked) in [(0, 8), (1, 8), (4, 5), (8, 1), (10, 1)] {
        let mut walks = [ranking::Walk::new(); 1];
        let bounds = [ranking::BlockBounds { parts: &bounds[..count] }];
        assert_eq!(ranking::best_bounded(&terms, &bounds, &classes, 1, &mut walks, &mut room), 10);
        assert_eq!((walks[0].unpacked(), room[9].id, room[9].score), (unpacked, 11, 300));
    }
}

/// Bounds for other classes are not used.
#[test]
fn bounds_for_other_classes() {
    let ids: Vec<u32> = (0..1024).collect();
    let word = Word::new(&ids, &[1; 1024]);
    let table = table();
    let (first, later): (Vec<u8>, Vec<u8>) = ids.iter().map(|id| if *id < 512 { (0, 200) } else { (200, 0) }).unzip();
    let bounded = BoundedTerm::new(word.term(&table), &first);
    for classes in [&later, &later.clone()] {
        let found: Vec<_> = best(&[bounded.term()], classes, 1, 2).iter().map(|it| (it.id, it.score)).collect();
        assert_eq!(found, [(512, 300), (513, 300)]);
    }
    assert_eq!(best(&[bounded.term()], &first.clone(), 1, 1)[0].id, 0);
}

/// Of 1,024 documents the first 10 have the word 4 times, and the others once: once ten are found, the other seven blocks of counts stay packed,
/// whose bound is 300.
#[test]
fn blocks_that_stay_packed() {
    let (ids, counts): (Vec<u32>, Vec<u32>) = (0..1024).map(|id| (3 * id, if id < 10 { 4 } else { 1 })).unzip();
    let word = Word::new(&ids, &counts);
    let table = table();
    let parts = ranking::Parts::new(&table).unwrap();
    let terms = [ranking::Term::new(word.documents.code(), word.column.code(), parts).unwrap()];
    let mut walks = [ranking::Walk::new(); 1];
    let mut room = [ranking::Scored { score: 0, id: 0 }; 10];
    assert_eq!(ranking::best(&terms, &[], 1, &mut walks, &mut room), 10);
    assert_eq!(walks[0].unpacked(), 1);
    let mut room = [ranking::Scored { score: 0, id: 0 }; 11];
    assert_eq!(ranking::best(&terms, &[], 1, &mut walks, &mut room), 11);
    // The eleventh has 300, which no later document beats: the first block has it.
    assert_eq!((walks[0].unpacked(), room[10].id), (1, 30));
    // A query by AND ranks the documents of its first word alone. A count of the second may be 4, so that no bound is below 300 + 1200.
    let mut walks = [walks[0]; 2];
    assert_eq!(ranking::best(&[terms[0]; 2], &[], 2, &mut walks, &mut room), 11);
    assert_eq!((walks[0].unpacked(), walks[1].unpacked()), (8, 0));
}

#[test]
fn no_words() {
    let (set, column) = (IdSetBuf::pack(&[1, 4]).unwrap(), ColumnBuf::pack(Kind::Plain, &[2]).unwrap());
    assert_eq!(Term::new(&set, &column, &table()).err(), Some(Error::OtherLength));
    let word = Word::new(&[1], &[1]);
    let refused = |table: &[u32]| Term::new(&word.documents, &word.column, table).err() == Some(Error::NoTable);
    assert!(refused(&[]) && refused(&[0; 255]) && refused(&[0; 257]));
    let mut falls = table();
    falls[4 * 256 + 7] = falls[3 * 256 + 7] - 1;
    let mut above = table();
    above[256 + 9] = above[256] + 1;
    assert!(refused(&falls) && refused(&above));
}
