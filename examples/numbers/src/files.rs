//! Reads files, and writes them so that no file is there in part.

use std::borrow::Cow;
use std::ffi::OsStr;
use std::fmt::Display;
use std::fs::{self, File, Permissions};
use std::io::{self, ErrorKind, IsTerminal, Read, Write};
use std::os::fd::AsFd;
use std::path::{Path, PathBuf};

use crate::Result;
use crate::progress::Progress;

/// How many bytes are read or written at once.
pub const PIECE: usize = 1 << 16;

/// What messages call a file.
pub fn name_of(file: &OsStr) -> Cow<'_, str> {
    if file == "-" { "standard input".into() } else { file.to_string_lossy() }
}

/// A message about a file.
pub fn about(file: &OsStr, what: impl Display) -> String {
    format!("{}: {what}", name_of(file))
}

/// Reads a file, or standard input. `take` gets the bytes that it did not take before, and whether they are the last; it returns how many it
/// takes, at least one if there are [`PIECE`].
pub fn read(file: &OsStr, mut take: impl FnMut(&[u8], bool) -> Result<usize>) -> Result<()> {
    let opened = if file == "-" { io::stdin().as_fd().try_clone_to_owned().map(File::from) } else { File::open(file) };
    let mut opened = opened.map_err(|error| about(file, error))?;
    let total = opened.metadata().ok().filter(|it| it.is_file()).map(|it| it.len());
    let (mut progress, mut done, mut buffer, mut len) = (Progress::new(total), 0, vec![0; PIECE], 0);
    loop {
        let count = match opened.read(&mut buffer[len..]) {
            Err(error) if error.kind() == ErrorKind::Interrupted => continue,
            count => count.map_err(|error| about(file, error))?,
        };
        let taken = take(&buffer[..len + count], count == 0).map_err(|what| about(file, what))?;
        if count == 0 {
            return Ok(());
        }
        buffer.copy_within(taken..len + count, 0);
        len = len + count - taken;
        done += count as u64;
        progress.show(done);
    }
}

/// The bytes of a file.
pub fn bytes_of(file: &OsStr) -> Result<Vec<u8>> {
    let mut bytes = Vec::new();
    read(file, |piece, _| {
        bytes.extend_from_slice(piece);
        Ok(piece.len())
    })?;
    Ok(bytes)
}

/// The permissions of the file that a new one replaces, if there is one. Only a regular file is replaced.
fn replaced(path: &Path) -> io::Result<Option<Permissions>> {
    match fs::symlink_metadata(path) {
        Ok(it) if it.is_file() => Ok(Some(it.permissions())),
        Ok(_) => Err(io::Error::other("it is not a regular file, and is not replaced")),
        Err(error) if error.kind() == ErrorKind::NotFound => Ok(None),
        Err(error) => Err(error),
    }
}

/// The path of a file that is removed at the end, unless it has another path then.
struct Beside(PathBuf);

impl Drop for Beside {
    fn drop(&mut self) {
        let _ = fs::remove_file(&self.0);
    }
}

/// Creates a file in the folder of another, with its permissions. A run that was killed may have left such a file.
fn created_beside(path: &Path) -> io::Result<(File, Option<Beside>)> {
    let (old, mut number) = (replaced(path)?, std::process::id());
    let (file, beside) = loop {
        let beside = path.with_file_name(format!(".numbers-{number}"));
        match File::create_new(&beside) {
            Err(error) if error.kind() == ErrorKind::AlreadyExists => number += 1,
            created => break (created?, Beside(beside)),
        }
    };
    old.map_or(Ok(()), |old| file.set_permissions(old)).map(|()| (file, Some(beside)))
}

/// The message about an error. If the reader of standard output has ended, as `head` does, nothing is left to tell.
fn failed(path: &Option<PathBuf>, error: io::Error) -> String {
    match path {
        Some(path) => about(path.as_os_str(), error),
        None if error.kind() == ErrorKind::BrokenPipe => String::new(),
        None => format!("standard output: {error}"),
    }
}

/// Standard output, or a file that is written beside its path, and replaces what is there when it is whole.
pub struct Output {
    path: Option<PathBuf>,
    file: File,
    beside: Option<Beside>,
}

impl Output {
    /// Only text is written to a terminal.
    pub fn new(path: Option<&OsStr>, is_text: bool) -> Result<Self> {
        let path = path.filter(|&it| it != "-").map(PathBuf::from);
        if path.is_none() && !is_text && io::stdout().is_terminal() {
            return Err("standard output is a terminal, and bytes would be written: add > FILE".into());
        }
        let stdout = || io::stdout().as_fd().try_clone_to_owned().map(|it| (it.into(), None));
        let (file, beside) = path.as_deref().map_or_else(stdout, created_beside).map_err(|error| failed(&path, error))?;
        Ok(Output { path, file, beside })
    }

    pub fn write(&mut self, bytes: &[u8]) -> Result<()> {
        self.file.write_all(bytes).map_err(|error| failed(&self.path, error))
    }

    /// Writes the last bytes. Without this call a file is as it was.
    pub fn end(mut self, bytes: &[u8]) -> Result<()> {
        self.write(bytes)?;
        if let (Some(path), Some(beside)) = (&self.path, &self.beside) {
            replaced(path).and_then(|_| fs::rename(&beside.0, path)).map_err(|error| failed(&self.path, error))?;
        }
        Ok(())
    }
}

/// Writes text to standard output.
pub fn print(text: &str) -> Result<bool> {
    Output::new(None, true)?.end(text.as_bytes()).map(|()| true)
}
