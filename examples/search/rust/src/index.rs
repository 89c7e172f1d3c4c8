//! `index`: reads the text files below a folder, and writes an index of their words.

use std::collections::HashMap;
use std::fs::{self, File, FileType};
use std::io::{self, IsTerminal, Write};
use std::os::unix::ffi::OsStrExt;
use std::path::{Path, PathBuf};

use bitpacking::column::{self, Kind};
use bitpacking::set;

use crate::{MAGIC, Result, about};

/// The longest run of letters and digits that is a word.
const LONGEST_WORD: usize = 64;
/// The most bytes that are kept of the first line of a document.
const LONGEST_LINE: usize = 100;

/// The class of a number keeps its four highest binary digits.
fn class_of(number: u32) -> u8 {
    let shift = (u32::BITS - number.leading_zeros()).saturating_sub(4);
    (8 * shift + (number >> shift)) as u8
}

/// The bytes of the file and where its items begin, the classes of the lengths of documents, and for each word in which it is and how often.
#[derive(Default)]
struct Builder {
    bytes: Vec<u8>,
    bounds: Vec<u32>,
    classes: Vec<u8>,
    words: HashMap<Vec<u8>, (Vec<u32>, Vec<u32>)>,
}

impl Builder {
    /// Writes the last bytes of an item.
    fn end_item(&mut self, bytes: &[u8]) -> Result<()> {
        self.bytes.extend(bytes);
        self.bounds.push(u32::try_from(self.bytes.len()).map_err(|_| "there is more text than an index can have")?);
        Ok(())
    }

    /// Adds a document, which begins in a line of a file, if it has a word.
    fn add_document(&mut self, path: &Path, line: usize, text: &[u8]) -> Result<()> {
        let (document, mut length) = (self.classes.len() as u32, 0);
        for word in text.split(|byte| !byte.is_ascii_alphanumeric()) {
            if word.is_empty() || word.len() > LONGEST_WORD {
                continue;
            }
            let (documents, counts) = self.words.entry(word.to_ascii_lowercase()).or_default();
            if documents.last() != Some(&document) {
                documents.push(document);
                counts.push(0);
            }
            *counts.last_mut().unwrap() += 1;
            length += 1;
        }
        if length == 0 {
            return Ok(());
        }
        self.classes.push(class_of(length));
        let first = text.split(|byte| b"\r\n".contains(byte)).next().unwrap_or_default();
        let ends = |at: &usize| text.get(*at).is_none_or(|byte| byte & 0xC0 != 0x80); // no character of UTF-8 is cut
        let kept = (0..=first.len().min(LONGEST_LINE)).rev().find(ends).unwrap_or(0);
        self.end_item(&[path.as_os_str().as_bytes(), format!(":{line}  ").as_bytes(), &first[..kept]].concat())
    }

    /// Adds the documents of a text: of each paragraph one, or one of the whole.
    fn add_text(&mut self, path: &Path, text: &[u8], paragraphs: bool) -> Result<()> {
        let (mut begun, mut at) = (None, 0);
        for (number, line) in (1..).zip(text.split_inclusive(|&byte| byte == b'\n')) {
            let spaces = line.iter().take_while(|byte| byte.is_ascii_whitespace()).count();
            if spaces < line.len() {
                begun = begun.or(Some((number, at + spaces)));
            } else if let (true, Some((number, start))) = (paragraphs, begun) {
                self.add_document(path, number, &text[start..at])?;
                begun = None;
            }
            at += line.len();
        }
        begun.map_or(Ok(()), |(number, start)| self.add_document(path, number, &text[start..]))
    }

    /// Adds all files below a folder but for links, and shows on a terminal how many they are.
    fn add_folder(&mut self, folder: &Path, paragraphs: bool) -> Result<()> {
        let (mut left, mut files, terminal) = (vec![folder.to_path_buf()], 0, io::stderr().is_terminal());
        while let Some(path) = left.pop() {
            let status = if path == folder { fs::metadata(&path) } else { fs::symlink_metadata(&path) };
            files += usize::from(status.as_ref().is_ok_and(|it| it.is_file()));
            match status.and_then(|it| read(&path, it.file_type(), &mut left)) {
                Ok(text) if text.contains(&0) => {}
                Ok(text) => self.add_text(&path, &text, paragraphs)?,
                Err(error) if path == folder => return Err(about(folder, error).into()),
                Err(error) => eprintln!("search: {}", about(&path, format!("left out: {error}"))),
            }
            if terminal && (left.is_empty() || files % 64 == 0) {
                eprint!("\r{files} files{}", if left.is_empty() { "\n" } else { "" });
            }
        }
        Ok(())
    }

    /// Adds the words in their order, each with the greatest class of its counts; of each the set and these classes; the classes of lengths; and
    /// where all these items begin. Returns how many words there are.
    fn add_words(&mut self) -> Result<usize> {
        let mut words: Vec<_> = std::mem::take(&mut self.words).into_iter().collect();
        words.sort_unstable_by(|(one, _), (other, _)| one.cmp(other));
        for (word, (_, counts)) in &words {
            let greatest = counts.iter().max().map_or(0, |&count| class_of(count));
            self.end_item(&[word, &[0, greatest][..]].concat())?;
        }
        for (_, (documents, counts)) in &words {
            set::pack_into(documents, &mut self.bytes)?;
            self.end_item(&[])?;
            let classes: Vec<_> = counts.iter().map(|&count| class_of(count).into()).collect();
            column::pack_into(Kind::Plain, &classes, &mut self.bytes)?;
            self.end_item(&[])?;
        }
        self.end_item(&self.classes.clone())?;
        let start = self.bytes.len() as u32;
        column::pack_into(Kind::Sorted, &self.bounds, &mut self.bytes)?;
        self.end_item(&start.to_le_bytes())?;
        Ok(words.len())
    }
}

/// The text of a file, or none. The paths in a folder are appended to those that are left, the first of them last.
fn read(path: &Path, kind: FileType, left: &mut Vec<PathBuf>) -> io::Result<Vec<u8>> {
    if kind.is_file() {
        return fs::read(path);
    }
    if kind.is_dir() {
        let mut paths = fs::read_dir(path)?.map(|entry| Ok(entry?.path())).collect::<io::Result<Vec<_>>>()?;
        paths.sort_unstable_by(|a, b| b.cmp(a));
        left.extend(paths);
    }
    Ok(Vec::new())
}

/// Refuses to replace what is no regular file, and removes the files that runs left beside it if they were killed. Returns its folder.
fn prepare(file: &Path) -> Result<&Path> {
    if fs::symlink_metadata(file).is_ok_and(|status| !status.is_file()) {
        return Err(about(file, "it is no regular file, and is not replaced").into());
    }
    let folder = file.parent().filter(|folder| *folder != Path::new("")).unwrap_or(Path::new("."));
    for entry in fs::read_dir(folder).into_iter().flatten().flatten() {
        let name = entry.file_name();
        let rest = file.file_name().and_then(|file| name.as_bytes().strip_prefix(file.as_bytes()));
        let process = rest.and_then(|rest| rest.strip_prefix(b".")?.strip_suffix(b".tmp"));
        let number = process.and_then(|process| str::from_utf8(process).ok()?.parse::<u32>().ok());
        if number.is_some_and(|number| !Path::new(&format!("/proc/{number}")).exists()) {
            fs::remove_file(entry.path())?;
        }
    }
    Ok(folder)
}

/// Writes an index of the text files below a folder. Returns what to print.
pub fn index(folder: &Path, file: &Path, paragraphs: bool) -> Result<(Vec<u8>, bool)> {
    let parent = prepare(file)?;
    let mut builder = Builder::default();
    builder.end_item(MAGIC)?;
    builder.add_folder(folder, paragraphs)?;
    let words = builder.add_words()?;
    let mut name = file.as_os_str().to_os_string();
    name.push(format!(".{}.tmp", std::process::id()));
    let written = File::create(&name).and_then(|mut out| {
        out.write_all(&builder.bytes)?;
        out.sync_all()?;
        fs::rename(&name, file)?;
        File::open(parent).map_or(Ok(()), |parent| parent.sync_all()) // stores the name
    });
    if let Err(error) = written {
        let _ = fs::remove_file(&name);
        return Err(about(file, error).into());
    }
    let (documents, size) = (builder.classes.len(), builder.bytes.len());
    Ok((format!("{documents} documents and {words} words in {size} bytes\n").into(), true))
}
