//! Ranked search: the best documents of a query, by a score that adds up what each word is worth.
//!
//! A word has the set of its documents, a column with one count for each, and a table: what it adds to the score of a document, by its count
//! there and by the class of the length of the document. Most counts that cannot be of one of the best stay packed.
//!
//! ```
//! use bitpacking::column::{ColumnBuf, Kind};
//! use bitpacking::ranked::{CLASSES, Term, best};
//! use bitpacking::set::IdSetBuf;
//!
//! // A word adds 300 for each time, up to four times, less the class.
//! let table: Vec<u32> = (0..5 * CLASSES as u32).map(|k| k / 256 * (300 - k % 256)).collect();
//! let (ships, seas) = (IdSetBuf::pack(&[1, 4, 7])?, IdSetBuf::pack(&[4, 9])?);
//! let (ship, sea) = (ColumnBuf::pack(Kind::Plain, &[2, 1, 1])?, ColumnBuf::pack(Kind::Plain, &[1, 3])?);
//! let terms = [Term::new(&ships, &ship, &table)?, Term::new(&seas, &sea, &table)?];
//!
//! // Document 9 has class 100, and so 3 * 200 for the second word. Of equal scores the lower id is first.
//! let classes = [0, 0, 0, 0, 0, 0, 0, 0, 0, 100];
//! let found = best(&terms, &classes, 1, 3);
//! assert_eq!(found.iter().map(|it| (it.id, it.score)).collect::<Vec<_>>(), [(1, 600), (4, 600), (9, 600)]);
//! // Only document 4 has both words.
//! assert_eq!(best(&terms, &classes, 2, 3).len(), 1);
//! # Ok::<(), Box<dyn std::error::Error>>(())
//! ```

use alloc::vec;
use alloc::vec::Vec;
use core::fmt;

pub use crate::ranking::{CLASSES, Scored};

use crate::column::Column;
use crate::ranking;
use crate::set::{IdSet, intersect_all};

/// How many positions a block has.
const BLOCK_LEN: usize = 128;

/// Why a set, a column and a table are not a word, or documents are not ranked.
#[derive(Clone, Copy, Debug, PartialEq, Eq)]
#[non_exhaustive]
pub enum Error {
    /// There are more documents than counts, or fewer.
    OtherLength,
    /// A document is not above the one before it. The number is its position.
    NotSorted(usize),
    /// The table has no whole rows of [`CLASSES`] parts or none at all, a part above the first of its row, or a part above the one of the next count.
    NoTable,
}

impl fmt::Display for Error {
    fn fmt(&self, out: &mut fmt::Formatter<'_>) -> fmt::Result {
        match self {
            Error::OtherLength => out.write_str("there are more documents than counts, or fewer"),
            Error::NotSorted(position) => write!(out, "document {position} is not above the one before it"),
            Error::NoTable => {
                out.write_str("the parts are no table, or do not rise with the count, or are above the first of their row")
            }
        }
    }
}

impl core::error::Error for Error {}

/// A word of a query.
#[derive(Clone, Copy)]
pub struct Term<'a> {
    documents: &'a IdSet,
    code: ranking::Term<'a>,
    bounded: Option<&'a BoundedTerm<'a>>,
}

impl<'a> Term<'a> {
    /// A word of the set of its documents, how often each has it, and its table, which has a row of [`CLASSES`] parts for each count from 0 on.
    /// The last row is also for greater counts.
    ///
    /// # Errors
    ///
    /// `OtherLength` comes first.
    pub fn new(documents: &'a IdSet, counts: &'a Column, table: &'a [u32]) -> Result<Self, Error> {
        if documents.len() != counts.len() {
            return Err(Error::OtherLength);
        }
        let parts = ranking::Parts::new(table).ok_or(Error::NoTable)?;
        let code = ranking::Term::new(documents.code(), counts.code(), parts).map_err(|_| Error::OtherLength)?;
        Ok(Term { documents, code, bounded: None })
    }

    /// The bounds for these classes, or none.
    fn bounds_for(&self, classes: &[u8]) -> ranking::BlockBounds<'a> {
        // Two slices of the same memory have the same bytes.
        let bounded = self.bounded.filter(|it| core::ptr::eq(it.classes, classes));
        ranking::BlockBounds { parts: bounded.map_or(&[], |it| &it.bounds) }
    }
}

/// A word of many queries, with the greatest part of each block of 128 documents that have it.
///
/// It takes 4 bytes for a block, and making it takes as long as a few queries. Then [`best`] reads few blocks of a common word: a query of this word
/// alone is several times as fast, and one by OR is faster too.
///
/// ```
/// use bitpacking::column::{ColumnBuf, Kind};
/// use bitpacking::ranked::{BoundedTerm, CLASSES, Term, best};
/// use bitpacking::set::IdSetBuf;
///
/// let table: Vec<u32> = (0..2 * CLASSES as u32).map(|k| k / 256 * (300 - k % 256)).collect();
/// let (documents, counts) = (IdSetBuf::pack(&[1, 4, 7])?, ColumnBuf::pack(Kind::Plain, &[1, 1, 1])?);
/// let classes = [0, 9, 0, 0, 5, 0, 0, 7];
/// let word = BoundedTerm::new(Term::new(&documents, &counts, &table)?, &classes);
/// let found = best(&[word.term()], &classes, 1, 2);
/// assert_eq!(found.iter().map(|it| (it.id, it.score)).collect::<Vec<_>>(), [(4, 295), (7, 293)]);
/// # Ok::<(), Box<dyn std::error::Error>>(())
/// ```
#[derive(Clone)]
pub struct BoundedTerm<'a> {
    term: Term<'a>,
    classes: &'a [u8],
    bounds: Vec<u32>,
}

impl<'a> BoundedTerm<'a> {
    /// Reads all of a word, and makes the bounds for documents of these classes.
    pub fn new(term: Term<'a>, classes: &'a [u8]) -> Self {
        let mut bounds = vec![0; term.documents.len().div_ceil(BLOCK_LEN)];
        ranking::bound_blocks(&term.code, classes, &mut bounds);
        BoundedTerm { term, classes, bounds }
    }

    /// The word. [`best`] uses the bounds if it is given the slice of classes that they were made for, and not a copy of it.
    pub fn term(&self) -> Term<'_> {
        Term { bounded: Some(self), ..self.term }
    }
}

/// Returns the best of the documents that have at least `at_least` of the words, or one if that is 0, the best of them first and `most` at most.
///
/// A document with a greater score comes first, and of two with the same score the one with the lower id. `classes` has the class of the length
/// of each document; documents after its end have class 0. With `at_least` of 1 it is a query by OR, and with as many as there are words by AND.
///
/// # Panics
///
/// If there are more than 2^31 words.
#[track_caller]
pub fn best(terms: &[Term<'_>], classes: &[u8], at_least: usize, most: usize) -> Vec<Scored> {
    let terms = rarest_first(terms);
    if terms.len() > 1 && at_least == terms.len() {
        // Few documents have all words, and all sets are intersected faster than the counts of one word are read.
        let sets: Vec<&IdSet> = terms.iter().map(|term| term.documents).collect();
        return among(&intersect_all(&sets), &terms, classes, most).expect("documents that increase");
    }
    let documents = terms.iter().map(|term| term.documents.len()).fold(0, usize::saturating_add);
    let mut found = vec![Scored { score: 0, id: 0 }; most.min(documents)];
    let mut walks = vec![ranking::Walk::new(); terms.len()];
    // REQUIRES: at most 2^31 words, and a walk for each. The bounds were made of the words and these classes.
    let len = ranking::best_bounded(&codes(&terms), &bounds(&terms, classes), classes, at_least, &mut walks, &mut found);
    found.truncate(len);
    found
}

/// Returns the best of increasing documents, the best of them first and `most` at most. They may be the answer to any query.
///
/// The order, scores and `classes` are as in [`best`]. A document that has none of the words has score 0.
///
/// # Errors
///
/// `NotSorted`, with the position of the first document that is not above the one before it.
///
/// # Panics
///
/// If there are more than 2^31 words.
///
/// ```
/// use bitpacking::ranked::{Error, best_among};
///
/// // Without words all documents have score 0, and the lowest come first.
/// let found = best_among(&[3, 5, 9], &[], &[], 2)?;
/// assert_eq!(found.iter().map(|it| (it.id, it.score)).collect::<Vec<_>>(), [(3, 0), (5, 0)]);
/// assert_eq!(best_among(&[3, 9, 5], &[], &[], 2).err(), Some(Error::NotSorted(2)));
/// # Ok::<(), Error>(())
/// ```
#[track_caller]
pub fn best_among(documents: &[u32], terms: &[Term<'_>], classes: &[u8], most: usize) -> Result<Vec<Scored>, Error> {
    among(documents, &rarest_first(terms), classes, most)
}

fn among(documents: &[u32], terms: &[Term<'_>], classes: &[u8], most: usize) -> Result<Vec<Scored>, Error> {
    let mut found = vec![Scored { score: 0, id: 0 }; most.min(documents.len())];
    // REQUIRES: at most 2^31 words.
    let len = ranking::best_among(documents, &codes(terms), classes, &mut found).map_err(Error::NotSorted)?;
    found.truncate(len);
    Ok(found)
}

/// The words, the rarest first, if they are not too many.
#[track_caller]
fn rarest_first<'a>(terms: &[Term<'a>]) -> Vec<Term<'a>> {
    assert!(terms.len() <= 1 << 31, "there are more than 2^31 words");
    let mut terms = terms.to_vec();
    terms.sort_by_key(|term| term.documents.len());
    terms
}

/// The bounds of the words for these classes. Allocates nothing if no word has bounds.
fn bounds<'a>(terms: &[Term<'a>], classes: &[u8]) -> Vec<ranking::BlockBounds<'a>> {
    if terms.iter().all(|term| term.bounded.is_none()) {
        return Vec::new();
    }
    terms.iter().map(|term| term.bounds_for(classes)).collect()
}

fn codes<'a>(terms: &[Term<'a>]) -> Vec<ranking::Term<'a>> {
    terms.iter().map(|term| term.code).collect()
}
