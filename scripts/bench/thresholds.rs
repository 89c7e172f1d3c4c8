//! Times a call for scripts/bench/thresholds.py: `thresholds MILLISECONDS CALL KEYS COUNT ..` repeats it for this time of the processor, over one set
//! of each count of ids, spread over this many keys. `COUNT*N` is N sets, and `COUNT+` has the ids of the first set too. Prints the nanoseconds of a
//! call. With 0 ms it calls once.

use bitpacking::column::{ColumnBuf, ColumnBuilder, Kind};
use bitpacking::ranked::{CLASSES, Term, best, best_among};
use bitpacking::set::{self, IdSet, IdSetBuf};

/// Sets with other ids take turns, so that a processor cannot learn the branches of a call: at most this many cases, and this many ids in all.
const MOST_CASES: usize = 16;
const MOST_IDS: usize = 4_000_000;

unsafe extern "C" {
    fn clock_gettime(clock: i32, time: &mut [i64; 2]) -> i32;
}

/// The processor time of this process, in nanoseconds.
fn now() -> i64 {
    let mut time = [0; 2];
    // SAFETY: Linux has this function. Clock 2 counts the time of the process, and the function writes two numbers of 64 bits.
    unsafe { clock_gettime(2, &mut time) };
    1_000_000_000 * time[0] + time[1]
}

/// A random number.
fn random(dice: &mut u64) -> u64 {
    *dice ^= *dice << 13;
    *dice ^= *dice >> 7;
    *dice ^= *dice << 17;
    *dice
}

/// One random id in each of `count` parts of the same length. Some are the same.
fn spread(keys: u64, count: u64, dice: &mut u64) -> Vec<u32> {
    let all = keys << 16;
    let mut ids: Vec<u32> = (0..count).map(|k| ((k * all + random(dice) % all) / count) as u32).collect();
    ids.dedup();
    ids
}

/// How often each document has a word: mostly once.
fn counts(documents: usize, dice: &mut u64) -> ColumnBuf {
    (0..documents).map(|_| 1 + random(dice).trailing_zeros()).collect()
}

/// What a word adds to a score: the more, the fewer documents have it.
fn table(documents: usize) -> Vec<u32> {
    (0..8 * CLASSES as u32).map(|k| k / 256 * (300 - k % 256) * documents.leading_zeros()).collect()
}

/// Calls once. Not inlined, since callgrind counts the instructions of this function.
#[inline(never)]
fn pass(call: &mut dyn FnMut() -> usize) -> usize {
    call()
}

/// The nanoseconds of a call over each of some cases in turn, for this time.
fn timed(milliseconds: i64, cases: &[Views], mut call: impl FnMut(&Views) -> usize) -> f64 {
    let (mut rounds, mut sum) = (0, 0);
    if milliseconds > 0 {
        sum += cases.iter().map(&mut call).sum::<usize>();
    }
    let start = now();
    while rounds == 0 || now() - start < 1_000_000 * milliseconds {
        sum += cases.iter().map(|it| pass(&mut || call(it))).sum::<usize>();
        rounds += 1;
    }
    let took = now() - start;
    std::hint::black_box(sum);
    took as f64 / (f64::from(rounds) * cases.len() as f64)
}

/// Sets, and what a query has of each beside its documents.
struct Case {
    sets: Vec<IdSetBuf>,
    first: Vec<u32>,
    counts: Vec<ColumnBuf>,
    tables: Vec<Vec<u32>>,
}

/// What calls take.
struct Views<'a> {
    sets: Vec<&'a IdSet>,
    terms: Vec<Term<'a>>,
    first: &'a [u32],
}

impl Case {
    fn views(&self) -> Views<'_> {
        let parts = self.sets.iter().zip(&self.counts).zip(&self.tables);
        let terms = parts.map(|((set, counts), table)| Term::new(set, counts, table).unwrap()).collect();
        Views { sets: self.sets.iter().map(|it| &**it).collect(), terms, first: &self.first }
    }
}

fn number(word: &str) -> u64 {
    word.parse().expect("a number")
}

/// Random sets, as the words say.
fn case(keys: u64, words: &[String], dice: &mut u64) -> Case {
    let mut sets: Vec<IdSetBuf> = Vec::new();
    for word in words {
        let (count, times) = word.trim_end_matches('+').split_once('*').unwrap_or((word.trim_end_matches('+'), "1"));
        for _ in 0..number(times) {
            let set = IdSetBuf::pack(&spread(keys, number(count), dice)).unwrap();
            sets.push(if word.ends_with('+') { set.unite(&sets[0]) } else { set });
        }
    }
    let counts = sets.iter().map(|it| counts(it.len(), dice)).collect();
    Case { first: sets[0].unpack(), counts, tables: sets.iter().map(|it| table(it.len())).collect(), sets }
}

fn main() {
    let words: Vec<String> = std::env::args().skip(1).collect();
    let (milliseconds, keys, dice) = (number(&words[0]) as i64, number(&words[2]), &mut 88172645463325252);
    let mut cases = vec![case(keys, &words[3..], dice)];
    let ids: usize = cases[0].sets.iter().map(|it| it.len()).sum();
    cases.extend((1..(MOST_IDS / ids).min(MOST_CASES)).map(|_| case(keys, &words[3..], dice)));
    let classes: Vec<u8> = (0..keys << 16).map(|_| (random(dice) % 64) as u8).collect();
    let (mut ids, mut builder) = (Vec::new(), ColumnBuilder::new(Kind::Sorted));
    let into = |call: fn(&[&IdSet], &mut Vec<u32>), sets: &[&IdSet], ids: &mut Vec<u32>| {
        call(sets, ids);
        ids.len()
    };
    let call = |it: &Views| match &*words[1] {
        "and" => into(set::intersect_all_into, &it.sets, &mut ids),
        "or" => into(set::unite_all_into, &it.sets, &mut ids),
        "not" => into(set::subtract_all_into, &it.sets, &mut ids),
        "count-and" => set::intersect_all_len(&it.sets),
        "count-or" => set::unite_all_len(&it.sets),
        "count-not" => set::subtract_all_len(&it.sets),
        "retain" | "add" => {
            ids.clear();
            ids.extend_from_slice(it.first);
            let call = if words[1] == "add" { IdSet::add_to } else { IdSet::retain_in };
            call(it.sets[1], &mut ids).unwrap();
            ids.len()
        }
        "push" => {
            builder.clear();
            builder.push_all(it.first).unwrap();
            builder.len()
        }
        "best" => best(&it.terms, &classes, 1, 10).len(),
        "among" => best_among(it.first, &it.terms[1..], &classes, 10).unwrap().len(),
        other => panic!("no call {other}"),
    };
    let views: Vec<Views> = cases.iter().map(Case::views).collect();
    println!("{}", timed(milliseconds, &views, call));
}
