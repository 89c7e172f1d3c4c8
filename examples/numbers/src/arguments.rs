//! The command line and its help.

use std::ffi::{OsStr, OsString};

use bitpacking::set::IdSetBuf;

use crate::files::print;
use crate::{Result, numbers, verbs};

/// The help. Each verb has a part between empty lines, which begins with its usage: that says which options it has, and how many operands.
const HELP: &str = include_str!("help.txt");

/// A verb with the options and operands that follow it.
pub struct Call {
    usage: &'static str,
    options: Vec<(&'static str, OsString)>,
    pub operands: Vec<OsString>,
}

/// What a verb does. It returns whether the answer is yes, or has a number.
type Run = fn(&Call) -> Result<bool>;

const VERBS: [(&str, Run); 15] = [
    ("pack", verbs::pack),
    ("unpack", verbs::unpack),
    ("head", verbs::head),
    ("describe", |call| verbs::describe(call, false)),
    ("check", |call| verbs::describe(call, true)),
    ("get", verbs::get),
    ("seek", verbs::seek),
    ("rank", verbs::rank),
    ("contains", verbs::contains),
    ("sum", verbs::sum),
    ("between", verbs::between),
    ("and", |call| verbs::combine(call, IdSetBuf::intersect_all)),
    ("or", |call| verbs::combine(call, IdSetBuf::unite_all)),
    ("not", |call| verbs::combine(call, IdSetBuf::subtract_all)),
    ("xor", |call| verbs::combine(call, IdSetBuf::symmetric_difference_all)),
];

/// The help of the program, which has the first two lines of the part of each verb.
fn summary() -> String {
    let parts = HELP.split("\n\n").map(|part| match part.match_indices('\n').nth(1) {
        Some((end, _)) if part.starts_with("numbers ") => &part[..end],
        _ => part,
    });
    parts.collect::<Vec<_>>().join("\n\n")
}

impl Call {
    pub fn has(&self, option: &str) -> bool {
        self.value(option).is_some()
    }

    /// The value of an option, the last if it is there twice.
    pub fn value(&self, option: &str) -> Option<&OsStr> {
        self.options.iter().rev().find(|it| it.0 == option).map(|it| it.1.as_os_str())
    }

    /// The number that a word says.
    pub fn number(&self, word: &OsStr) -> Result<u32> {
        numbers::parsed(word.as_encoded_bytes()).map_err(|what| self.wrong(&what))
    }

    /// The numbers that the operands after the first say.
    pub fn numbers(&self) -> Result<Vec<u32>> {
        self.operands[1..].iter().map(|word| self.number(word)).collect()
    }

    /// The message about a wrong call.
    pub fn wrong(&self, what: &str) -> String {
        format!("{what}: the usage is {}", self.usage)
    }

    /// Adds an option that the usage has, and its value if it has one.
    fn add(&mut self, option: &str, words: &mut impl Iterator<Item = OsString>) -> Result<()> {
        let mut options = self.usage.split(['[', ']']).map(|part| part.split_once(' ').unwrap_or((part, "")));
        let found = options.find(|it| it.0 == option).ok_or_else(|| self.wrong(&format!("unknown option {option}")))?;
        let value = if found.1.is_empty() { Some(OsString::new()) } else { words.next() };
        self.options.push((found.0, value.ok_or_else(|| self.wrong(&format!("{option} requires {}", found.1)))?));
        Ok(())
    }

    /// Tests how many operands there are. If none is needed and there is none, it is standard input.
    fn complete(&mut self) -> Result<()> {
        let least = self.usage.split(' ').skip(2).filter(|word| !word.contains(['[', ']', '.'])).count();
        let most = if self.usage.contains("..") { usize::MAX } else { least.max(1) };
        match self.operands.len() {
            0 if least == 0 => Ok(self.operands.push("-".into())),
            len if len < least => Err(self.wrong("an operand is missing")),
            len if len > most => Err(self.wrong(&format!("unexpected operand '{}'", self.operands[most].to_string_lossy()))),
            _ => Ok(()),
        }
    }
}

/// Does what the words of the command line say.
pub fn run(mut words: impl Iterator<Item = OsString>) -> Result<bool> {
    let first = words.next().ok_or("there is no verb: see numbers --help")?;
    let verb = first.to_string_lossy();
    match &*verb {
        "--help" => return print(&summary()),
        "--version" => return print(concat!("numbers ", env!("CARGO_PKG_VERSION"), "\n")),
        _ => {}
    }
    let what = if verb.starts_with('-') { "option" } else { "verb" };
    let run = VERBS.iter().find(|it| it.0 == verb).ok_or_else(|| format!("unknown {what} {verb}: see numbers --help"))?.1;
    let help = HELP.split("\n\n").find(|part| part.starts_with(&format!("numbers {verb} "))).expect("each verb has help");
    let mut call = Call { usage: help.lines().next().unwrap_or(help), options: Vec::new(), operands: Vec::new() };
    while let Some(word) = words.next() {
        match word.to_str() {
            Some("--") => call.operands.extend(words.by_ref()),
            Some("--help") => return print(&format!("{help}\n")),
            Some(option) if option.starts_with('-') && option != "-" => call.add(option, &mut words)?,
            _ => call.operands.push(word),
        }
    }
    call.complete()?;
    run(&call)
}
