//! The rows of a table: fields between tabs, named by the first line.

use std::fmt::Debug;
use std::fs;

use bitpacking::bitpacking::Kind;
use bitpacking::lists::ListKind;

/// A row, with the name of its file and its line.
pub struct Row {
    pub name: String,
    names: Vec<String>,
    fields: Vec<String>,
}

/// The rows of a table in a folder.
pub fn of(folder: &str, table: &str) -> Vec<Row> {
    let text = fs::read_to_string(format!("{folder}/{table}")).unwrap_or_else(|why| panic!("{table}: {why}"));
    let mut lines = text.lines().map(|it| it.split('\t').map(str::to_string).collect::<Vec<_>>());
    let names = lines.next().unwrap_or_default();
    let rows = lines.enumerate().map(|(at, fields)| Row { name: format!("{table}:{}", at + 2), names: names.clone(), fields });
    rows.inspect(|it| assert_eq!(it.fields.len(), names.len(), "{}", it.name)).collect()
}

impl Row {
    pub fn has(&self, name: &str) -> bool {
        self.names.iter().any(|it| it == name)
    }

    pub fn text(&self, name: &str) -> &str {
        let at = self.names.iter().position(|it| it == name);
        &self.fields[at.unwrap_or_else(|| panic!("no column {name}"))]
    }

    pub fn number(&self, name: &str) -> usize {
        whole(self.text(name))
    }

    /// The numbers of a field, between commas.
    pub fn numbers(&self, name: &str) -> Vec<u32> {
        let text = self.text(name);
        let numbers = text.split(',').filter(|_| text != "-");
        numbers.map(|it| it.parse().unwrap_or_else(|why| panic!("{name}: {why}"))).collect()
    }

    /// The bytes of a field, two digits each. `{00*16}` is a byte 16 times.
    pub fn bytes(&self, name: &str) -> Vec<u8> {
        let text = self.text(name);
        let parts = text.split(['{', '}']).filter(|it| *it != "-");
        parts
            .flat_map(|it| it.split_once('*').map_or_else(|| octets(it), |(byte, times)| octets(byte).repeat(whole(times))))
            .collect()
    }

    /// The ids of a set: `5-9` is five of them, and `0-8/2` those with steps of 2.
    pub fn ids<T: TryFrom<usize, Error: Debug>>(&self, name: &str) -> Vec<T> {
        let runs = self.text(name).split(',').filter(|it| *it != "-");
        let run = |it: &str| {
            let (ends, step) = it.split_once('/').unwrap_or((it, "1"));
            let (first, last) = ends.split_once('-').unwrap_or((ends, ends));
            (whole(first)..=whole(last)).step_by(whole(step))
        };
        runs.flat_map(run).map(|it| it.try_into().expect("an id")).collect()
    }

    pub fn lanes(&self) -> usize {
        if self.has("lanes") { self.number("lanes") } else { self.text("packer")[..1].parse().expect("lanes") }
    }

    /// The kind of a block, with its start.
    pub fn kind(&self) -> Kind {
        match (self.text("kind"), self.text("initial")) {
            ("plain", "-") => Kind::Plain,
            ("sorted", start) => Kind::Sorted(start.parse().expect("a start")),
            ("strict", "none") => Kind::StrictlySorted(None),
            ("strict", start) => Kind::StrictlySorted(Some(start.parse().expect("a start"))),
            (kind, start) => panic!("{kind} {start}"),
        }
    }

    pub fn list_kind(&self) -> ListKind {
        match self.text("kind") {
            "plain" => ListKind::Plain,
            "sorted" => ListKind::Sorted,
            "strict" => ListKind::StrictlySorted,
            other => panic!("kind {other}"),
        }
    }
}

fn whole(digits: &str) -> usize {
    digits.parse().unwrap_or_else(|why| panic!("{digits}: {why}"))
}

fn octets(digits: &str) -> Vec<u8> {
    assert!(digits.is_ascii() && digits.len() % 2 == 0, "{digits}");
    let starts = (0..digits.len()).step_by(2);
    starts.map(|at| u8::from_str_radix(&digits[at..at + 2], 16).unwrap_or_else(|why| panic!("{digits}: {why}"))).collect()
}

/// An expression over the packer of some lanes.
macro_rules! with_packer {
    ($lanes:expr, $packer:ident, $made:expr) => {
        match $lanes {
            1 => {
                let $packer = bitpacking::bitpacking::BitPacker1x::new();
                $made
            }
            4 => {
                let $packer = bitpacking::bitpacking::BitPacker4x::new();
                $made
            }
            8 => {
                let $packer = bitpacking::bitpacking::BitPacker8x::new();
                $made
            }
            other => panic!("{other} lanes"),
        }
    };
}
pub(crate) use with_packer;
