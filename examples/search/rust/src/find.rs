//! `find`: opens an index, reads a query, and ranks the documents that answer it.

use std::cmp::Reverse;
use std::fs;
use std::io::Write;
use std::path::Path;

use bitpacking::column::{Column, ColumnBuf, Kind};
use bitpacking::ranked::{CLASSES, Scored, Term, best, best_among};
use bitpacking::set::{IdSet, IdSetBuf, Query};

use crate::{MAGIC, Options, Result, about};

/// The most signs of a query.
const LONGEST_QUERY: usize = 1000;
/// The most words that are ranked without reading all.
const MOST_TERMS: usize = 32;
/// The unit of scores.
const UNIT: f64 = 1e7;
const NO_FIELDS: &str = "a query has no fields: a space in place of the colon finds documents with both words";
const NO_PHRASES: &str = "a query has no phrases: without the quotes it finds documents with all words";

fn damaged<T>(what: &str) -> Result<T> {
    Err(format!("the index is damaged: {what}").into())
}

/// An error after a part of a query.
fn wrong<T>(read: &[u8], what: &str) -> Result<T> {
    Err(format!("the query, after '{}': {what}", String::from_utf8_lossy(read)).into())
}

fn open_column<'a>(bytes: &'a [u8], kind: Kind, name: &str) -> Result<ColumnBuf<&'a [u8]>> {
    match Column::open(bytes) {
        Err(error) => damaged(&format!("a column of {name}: {error}")),
        Ok(column) if column.kind() != kind => damaged(&format!("a column of {name}: wrong kind")),
        Ok(column) => Ok(column),
    }
}

/// The least number of a class.
fn least_of(class: usize) -> f64 {
    if class < 8 { class as f64 } else { (8 + class % 8) as f64 * 2f64.powi(class as i32 / 8 - 1) }
}

/// An index file and where its items begin: the names of documents, the words, a set and a column for each word, and the classes of the lengths
/// of documents.
struct Index<'a> {
    bytes: &'a [u8],
    bounds: Vec<u32>,
    classes: &'a [u8],
    words: usize,
    /// What the length of a document of each class is in BM25: k1 = 1.2, b = 0.75.
    norms: Vec<f64>,
}

impl<'a> Index<'a> {
    /// Tests all of an index but for the sets and columns of words.
    fn open(bytes: &'a [u8]) -> Result<Self> {
        let Some((items, &start)) = bytes.split_last_chunk().filter(|(items, _)| items.starts_with(MAGIC)) else {
            return Err("this is no index: it does not begin with 'search4'".into());
        };
        let start = u32::from_le_bytes(start) as usize;
        let Some(column) = items.get(start..) else { return damaged("it is cut") };
        let bounds = open_column(column, Kind::Sorted, "bounds")?.unpack();
        let [first, .., last, end] = bounds[..] else { return damaged("the bounds are of other items") };
        if first as usize != MAGIC.len() || end as usize != start {
            return damaged("the bounds are of other items");
        }
        let classes = &bytes[last as usize..start];
        let of_words = (bounds.len() - 2).checked_sub(classes.len()).filter(|items| items % 3 == 0);
        let Some(of_words) = of_words else { return damaged("the number of items is wrong") };
        let total: f64 = classes.iter().map(|&class| least_of(class.into())).sum();
        let mean = (total / classes.len() as f64).max(1.0);
        let norms = (0..CLASSES).map(|class| 1.2 * (0.25 + 0.75 * least_of(class) / mean)).collect();
        let index = Index { bytes, bounds, classes, words: of_words / 3, norms };
        for word in 0..index.words {
            let letters = |signs: &[u8]| signs.iter().all(|it| it.is_ascii_lowercase() || it.is_ascii_digit());
            let right = matches!(index.item(classes.len() + word), [signs @ .., 0, _] if letters(signs));
            if !right || word > 0 && index.word(word - 1) >= index.word(word) {
                return damaged(&format!("word {word} has a wrong sign, or is not in order"));
            }
        }
        Ok(index)
    }

    fn item(&self, number: usize) -> &'a [u8] {
        &self.bytes[self.bounds[number] as usize..self.bounds[number + 1] as usize]
    }

    /// A word, without the zero and the class after it.
    fn word(&self, word: usize) -> &'a str {
        let item = self.item(self.classes.len() + word);
        std::str::from_utf8(&item[..item.len() - 2]).unwrap_or_default()
    }

    /// How many words have a property that only the first have.
    fn first(&self, has: impl Fn(&str) -> bool) -> usize {
        let (mut low, mut high) = (0, self.words);
        while low < high {
            let middle = (low + high) / 2;
            (low, high) = if has(self.word(middle)) { (middle + 1, high) } else { (low, middle) };
        }
        low
    }

    /// What a word adds to scores: a row for each class of its counts. The parts rise with the count and fall with the length in rounded numbers
    /// too: each step does.
    fn table(&self, word: usize, documents: usize) -> Vec<u32> {
        let (all, have) = (self.classes.len() as f64, documents as f64);
        let weight = UNIT * 2.2 * (1.0 + (all - have + 0.5) / (have + 0.5)).ln();
        let row = |count: f64| self.norms.iter().map(move |norm| (weight / (1.0 + norm / count)) as u32);
        let greatest = self.item(self.classes.len() + word).last().copied().unwrap_or(0);
        (0..=greatest).flat_map(|class| row(least_of(class.into()))).collect()
    }
}

/// A word that counts for the order of documents: which have it, how often, and what this adds to scores.
struct Word<'a> {
    documents: IdSetBuf<&'a [u8]>,
    counts: ColumnBuf<&'a [u8]>,
    table: Vec<u32>,
}

/// A step of a query in postfix order: a set, or an operation.
#[derive(Clone, Copy, PartialEq)]
enum Step {
    Set(usize),
    And,
    Or,
    AndNot,
}

/// Joins another query to one, if neither is empty.
fn join(one: &mut Vec<Step>, operation: Step, other: Vec<Step>) {
    let operation = if one.is_empty() || other.is_empty() { None } else { Some(operation) };
    one.extend(other.into_iter().chain(operation));
}

/// A query, how far it is read, its sets, and the words that count for the order of documents, if that is wanted.
struct Search<'a> {
    index: &'a Index<'a>,
    query: &'a [u8],
    at: usize,
    sets: Vec<IdSetBuf<&'a [u8]>>,
    words: Vec<Word<'a>>,
    options: &'a Options,
}

impl<'a> Search<'a> {
    /// An error after what was read of the query.
    fn wrong<T>(&self, what: &str) -> Result<T> {
        wrong(&self.query[..self.at], what)
    }

    /// Goes on in the query by this many signs, and the spaces after them.
    fn skip(&mut self, count: usize) {
        self.at += count;
        self.at += self.query[self.at..].iter().take_while(|sign| sign.is_ascii_whitespace()).count();
    }

    fn next(&self) -> Option<u8> {
        self.query.get(self.at).copied()
    }

    /// Reads a query, or what is in brackets: alternatives, each of which has parts with and parts without a minus.
    fn read_query(&mut self, negative: bool, end: Option<u8>) -> Result<Vec<Step>> {
        let mut any = Vec::new();
        while any.is_empty() || self.next() == Some(b'|') {
            self.skip(usize::from(end.is_some() || !any.is_empty())); // a bracket or a line
            let (mut with, mut without) = (Vec::new(), Vec::new());
            while !matches!(self.next(), None | Some(b'|' | b')')) {
                let minus = self.next() == Some(b'-');
                self.skip(usize::from(minus));
                let (parts, operation) = if minus { (&mut without, Step::Or) } else { (&mut with, Step::And) };
                if self.next() == Some(b'(') {
                    join(parts, operation, self.read_query(negative || minus, Some(b')'))?);
                } else {
                    join(parts, operation, self.read_words(negative || minus)?);
                }
            }
            if with.is_empty() {
                return self.wrong("a word is missing, or one without a minus");
            }
            join(&mut with, Step::AndNot, without);
            join(&mut any, Step::Or, with);
        }
        if self.next() != end {
            return self.wrong(if end.is_some() { "a bracket is not closed" } else { "no bracket is open" });
        }
        self.skip(usize::from(end.is_some()));
        Ok(any)
    }

    /// Reads words up to a space, a bar or a bracket, as they are read in documents. The last one may be the first letters of words. Returns the
    /// query for the documents that have all, which is empty if there is no word.
    fn read_words(&mut self, negative: bool) -> Result<Vec<Step>> {
        let rest = &self.query[self.at..];
        let len = rest.iter().take_while(|sign| !b" \t\n\x0C\r|()".contains(sign)).count();
        let (signs, prefix) = match &rest[..len] {
            [signs @ .., last, b'*'] if last.is_ascii_alphanumeric() => (&rest[..=signs.len()], true),
            signs => (signs, false),
        };
        let words: Vec<_> = signs.split(|sign| !sign.is_ascii_alphanumeric()).filter(|word| !word.is_empty()).collect();
        let mut all = Vec::new();
        for (number, word) in (1..).zip(&words) {
            let letters = String::from_utf8_lossy(word).to_lowercase();
            join(&mut all, Step::And, self.find(&letters, prefix && number == words.len(), negative)?);
        }
        self.skip(len);
        Ok(all)
    }

    /// The query for the documents that have a word, or one that begins so.
    fn find(&mut self, letters: &str, prefix: bool, negative: bool) -> Result<Vec<Step>> {
        let first = self.index.first(|it| it < letters);
        let end = self.index.first(|it| it <= letters || prefix && it.starts_with(letters));
        let mut any = Vec::new();
        for word in first..end {
            join(&mut any, Step::Or, self.open(word, negative)?);
        }
        Ok(if any.is_empty() { self.leaf(IdSet::open(&[0x80])?) } else { any }) // the empty set
    }

    /// The query for the documents of a set.
    fn leaf(&mut self, documents: IdSetBuf<&'a [u8]>) -> Vec<Step> {
        self.sets.push(documents);
        vec![Step::Set(self.sets.len() - 1)]
    }

    /// Opens the set of the documents that have a word. Unless it is negative it counts for their order.
    fn open(&mut self, word: usize, negative: bool) -> Result<Vec<Step>> {
        let (index, name) = (self.index, self.index.word(word));
        let item = index.classes.len() + index.words + 2 * word;
        let documents = IdSet::open(index.item(item)).or_else(|error| damaged(&format!("the set of {name}: {error}")))?;
        if documents.max().is_none_or(|last| last as usize >= index.classes.len()) {
            return damaged(&format!("'{name}' is in no document, or in one that is not there"));
        }
        if self.options.explain {
            eprintln!("{name}: {} documents", documents.len());
        }
        if !negative && self.options.best > 0 {
            let counts = open_column(index.item(item + 1), Kind::Plain, name)?;
            let table = index.table(word, documents.len());
            self.words.push(Word { documents: documents.clone(), counts, table });
        }
        Ok(self.leaf(documents))
    }

    /// The documents that answer a query.
    fn answer(&self, steps: &[Step]) -> Result<Vec<u32>> {
        let mut waiting = Vec::new();
        for step in steps {
            let mut next = || waiting.pop().expect("an operand");
            let query = match step {
                Step::Set(set) => Query::from(&self.sets[*set]),
                Step::And => next() & next(),
                Step::Or => next() | next(),
                Step::AndNot => {
                    let without = next();
                    next() - without
                }
            };
            waiting.push(query);
        }
        let documents = waiting[0].unpack().or_else(|_| self.wrong("too many brackets after a minus are nested"))?;
        if self.options.explain {
            eprintln!("a query of {} sets: {} documents", self.sets.len(), documents.len());
        }
        Ok(documents)
    }

    /// Finds the best of some documents by adding up the scores of all.
    fn scan(&self, documents: &[u32], most: usize) -> Vec<Scored> {
        let classes = self.index.classes;
        let mut scores = vec![0; classes.len()];
        for Word { documents, counts, table } in &self.words {
            for (id, count) in documents.iter().zip(counts.iter()) {
                let row = (count as usize).min(table.len() / CLASSES - 1);
                scores[id as usize] += u64::from(table[CLASSES * row + usize::from(classes[id as usize])]);
            }
        }
        let mut found: Vec<_> = documents.iter().map(|&id| Scored { score: scores[id as usize], id }).collect();
        found.sort_by_key(|it| Reverse(it.score));
        found.truncate(most);
        found
    }

    /// Finds the best documents that answer a query.
    fn rank(&self, steps: &[Step], most: usize) -> Result<Vec<Scored>> {
        let terms = self.words.iter().map(|word| Term::new(&word.documents, &word.counts, &word.table));
        let Ok(terms) = terms.collect::<std::result::Result<Vec<_>, _>>() else {
            return damaged("a word has more or fewer counts than documents");
        };
        let (classes, few) = (self.index.classes, terms.len() <= MOST_TERMS);
        let joined_by = |operation| steps.iter().all(|step| matches!(step, Step::Set(_)) || *step == operation);
        Ok(match () {
            () if joined_by(Step::And) => best(&terms, classes, self.sets.len(), most),
            () if few && joined_by(Step::Or) => best(&terms, classes, 1, most),
            () if few => best_among(&self.answer(steps)?, &terms, classes, most)?,
            () => self.scan(&self.answer(steps)?, most),
        })
    }
}

/// The number of the documents that answer, or the best of them, as text.
fn answer(bytes: &[u8], query: &[u8], options: &Options) -> Result<(Vec<u8>, bool)> {
    if query.len() > LONGEST_QUERY {
        return Err("the query is too long".into());
    }
    if let Some(at) = query.iter().position(|sign| b"\":".contains(sign)) {
        return wrong(&query[..at], if query[at] == b':' { NO_FIELDS } else { NO_PHRASES });
    }
    let index = &Index::open(bytes)?;
    let mut search = Search { index, query, at: 0, sets: Vec::new(), words: Vec::new(), options };
    let steps = search.read_query(false, None)?;
    if options.best == 0 {
        let found = search.answer(&steps)?.len();
        return Ok((format!("{found} of {} documents\n", index.classes.len()).into(), found > 0));
    }
    let (found, mut text) = (search.rank(&steps, options.best)?, Vec::new());
    for Scored { score, id } in &found {
        write!(text, "{:7.3}  ", *score as f64 / UNIT)?;
        // A terminal could take these bytes for commands.
        text.extend(index.item(*id as usize).iter().map(|byte| if byte.is_ascii_control() { b'?' } else { *byte }));
        text.push(b'\n');
        if options.explain {
            eprintln!("document {id}: {score}");
        }
    }
    Ok((text, !found.is_empty()))
}

/// Answers a query from an index file. Returns what to print, and whether there is a document.
pub fn find(file: &Path, query: &[u8], options: &Options) -> Result<(Vec<u8>, bool)> {
    let read = fs::read(file).map_err(Into::into);
    read.and_then(|bytes| answer(&bytes, query, options)).map_err(|error| about(file, error).into())
}
