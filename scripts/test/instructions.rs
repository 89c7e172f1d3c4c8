//! Runs a call, for instructions.py to count its instructions: `instructions NAME`. It prints a number of the answer.

use std::env;

use bitpacking::column::ColumnBuf;
use bitpacking::ranked::{CLASSES, Term, best};
use bitpacking::set::{Cursor, IdSetBuf, Query};

/// Valgrind counts what runs in this function.
#[inline(never)]
#[unsafe(no_mangle)]
extern "C" fn counted(call: &mut dyn FnMut() -> u64) -> u64 {
    call()
}

/// About one id in `step`, in no order that a program could know.
fn spread(step: u32) -> IdSetBuf {
    (0..400_000u32).filter(|id| id.wrapping_mul(0x9E37_79B1) >> 8 < (1 << 24) / step).collect()
}

/// The best documents for a word that half of them have, one of 1 in 40, and one of 1 in 900.
fn ranking() -> u64 {
    let table: Vec<u32> = (0..5 * CLASSES as u32).map(|k| k / 256 * (300 - k % 256)).collect();
    let sets = [2, 40, 900].map(spread);
    let counts = sets.each_ref().map(|set| set.iter().map(|id| 1 + id.wrapping_mul(0x85EB_CA6B) % 4).collect::<ColumnBuf>());
    let terms: Vec<Term<'_>> = (0..3).map(|k| Term::new(&sets[k], &counts[k], &table).unwrap()).collect();
    counted(&mut || best(&terms, &[], 1, 10).iter().map(|it| it.score).sum())
}

/// An iterator that skips a few ids at a time.
fn advancing() -> u64 {
    let set = spread(3);
    counted(&mut || {
        let (mut ids, mut sum) = (set.iter(), 0);
        while let Some(id) = ids.next() {
            sum += u64::from(id);
            ids.advance_to(id + 20);
        }
        sum
    })
}

/// The ids that a cursor finds if it skips 1,000 chunks at a time.
fn found(mut cursor: impl Cursor) -> u64 {
    let mut sum = 0;
    while let Some(id) = cursor.value() {
        sum += u64::from(id);
        cursor.seek(id + (1000 << 16));
    }
    sum
}

/// A cursor over a set of 40,000 chunks.
fn seeking() -> u64 {
    let set: IdSetBuf = (0..160_000).map(|k| k << 14).collect();
    counted(&mut || found(set.cursor()))
}

/// A cursor over the ids that this set and another have.
fn querying() -> u64 {
    let (one, other): (IdSetBuf, IdSetBuf) = ((0..160_000).map(|k| k << 14).collect(), (0..80_000).map(|k| k << 15).collect());
    let query = Query::from(&one) & &other;
    counted(&mut || found(query.ids().unwrap()))
}

/// Values of a plain column, one by one.
fn getting() -> u64 {
    let column: ColumnBuf = (0..100_000).map(|k| k * 301 % 9173).collect();
    counted(&mut || (0..100_000).step_by(3).filter_map(|k| column.get(k)).map(u64::from).sum())
}

/// All ids of chunks of blocks.
fn unpacking() -> u64 {
    let set = spread(40);
    let mut ids = vec![0; set.len()];
    counted(&mut || set.unpack_range(0, &mut ids) as u64)
}

fn main() {
    let name = env::args().nth(1).expect("the name of a call");
    let answer = match name.as_str() {
        "ranking" => ranking(),
        "advancing" => advancing(),
        "seeking" => seeking(),
        "querying" => querying(),
        "getting" => getting(),
        "unpacking" => unpacking(),
        _ => panic!("no call has the name {name}"),
    };
    println!("{answer}");
}
