//! A small search engine over id sets and columns. `../README.md` describes its queries and its file.
//!
//! This file has the command line, `index.rs` has `index`, and `find.rs` has `find`.

mod find;
mod index;

use std::error::Error;
use std::ffi::OsString;
use std::fmt::Display;
use std::io::{self, Write};
use std::path::Path;
use std::process::ExitCode;

const HELP: &str = "\
A small search engine over id sets and columns.

    search index [--paragraphs] FOLDER FILE
        writes an index of the text files below FOLDER to FILE; a document is a file, or a paragraph
    search find [--best N] [--count] [--explain] FILE QUERY
        prints the 10 best documents that answer QUERY, or the N best up to 999; or how many answer (--count);
        and which sets it reads, and the scores in full (--explain)

A query has words next to each other (documents with all of them), a | b (with one of them), -c (without it),
pre* (all words that begin so), and brackets: 'packed (list | block) -chain*'. All signs but letters and digits end a word;
\" and : are errors, as a query has no phrases and no fields.

The status is 0 if a document was found, 1 if none was, and 2 if something is wrong.
";

/// An index file begins with this. It has a zero, which no text has.
const MAGIC: &[u8; 8] = b"search4\0";

/// What the command line asks for.
struct Options {
    paragraphs: bool,
    explain: bool,
    /// How many documents are wanted, or 0 for their number.
    best: usize,
}

/// An error is a message for the user.
type Result<T> = std::result::Result<T, Box<dyn Error>>;

/// A message about a file.
fn about(file: &Path, what: impl Display) -> String {
    format!("{}: {what}", file.display())
}

/// Does what the command line asks. Returns what to print, and whether a document was found.
fn run() -> Result<(Vec<u8>, bool)> {
    let arguments: Vec<OsString> = std::env::args_os().skip(1).collect();
    if arguments.first().is_some_and(|it| it == "--help") {
        return Ok((HELP.into(), true));
    }
    let wrong = "arguments: search --help says what is wanted";
    let [command, options @ .., first, last] = &arguments[..] else { return Err(wrong.into()) };
    let (mut given, mut options) = (options.iter(), Options { paragraphs: false, explain: false, best: 10 });
    while let Some(option) = given.next() {
        match option.to_str() {
            Some("--paragraphs") => options.paragraphs = true,
            Some("--count") => options.best = 0,
            Some("--explain") => options.explain = true,
            Some("--best") => {
                options.best = given.next().and_then(|it| it.to_str()?.parse().ok()).filter(|&it| it < 1000).ok_or(wrong)?
            }
            _ => return Err(wrong.into()),
        }
    }
    match command.to_str() {
        Some("index") => index::index(Path::new(first), Path::new(last), options.paragraphs),
        Some("find") => find::find(Path::new(first), last.as_encoded_bytes(), &options),
        _ => Err(wrong.into()),
    }
}

fn main() -> ExitCode {
    let done = run().and_then(|(text, found)| match io::stdout().write_all(&text) {
        Ok(()) => Ok(u8::from(!found)),
        Err(error) => Err(format!("standard output: {error}").into()),
    });
    ExitCode::from(done.unwrap_or_else(|message| {
        eprintln!("search: {message}");
        2
    }))
}
