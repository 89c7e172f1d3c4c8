//! An opened set or column.

use std::ffi::OsStr;

use bitpacking::column::{ColumnBuf, Kind};
use bitpacking::set::IdSetBuf;

use crate::Result;
use crate::files::{about, bytes_of};

pub enum Opened {
    Set(IdSetBuf),
    Column(ColumnBuf),
}

impl Opened {
    /// Opens bytes. Fails with the first fault and its number in `docs/FORMAT.md`.
    pub fn of(bytes: Vec<u8>) -> Result<Self> {
        match bytes.first() {
            Some(first @ (..5 | 7..64)) => {
                Err(format!("fault 2: {first} is the first byte of no set and no column: numbers pack writes them"))
            }
            Some(64..128) => ColumnBuf::open(bytes).map(Opened::Column).map_err(|it| format!("fault {}: {it}", it.number())),
            _ => IdSetBuf::open(bytes).map(Opened::Set).map_err(|it| format!("fault {}: {it}", it.number())),
        }
    }

    pub fn read(file: &OsStr) -> Result<Self> {
        Self::of(bytes_of(file)?).map_err(|fault| about(file, fault))
    }

    pub fn len(&self) -> usize {
        match self {
            Opened::Set(set) => set.len(),
            Opened::Column(column) => column.len(),
        }
    }

    /// Copies the numbers from a position on. Returns how many.
    pub fn unpack_range(&self, from: usize, numbers: &mut [u32]) -> usize {
        match self {
            Opened::Set(set) => set.unpack_range(from, numbers),
            Opened::Column(column) => column.unpack_range(from, numbers),
        }
    }

    /// Counts the numbers below `number`.
    pub fn rank(&self, number: u32) -> usize {
        match self {
            Opened::Set(set) => set.rank(number),
            Opened::Column(column) => column.count_between(..number),
        }
    }

    /// Whether `number` is there. In a plain column it reads on to the first.
    pub fn contains(&self, number: u32) -> bool {
        match self {
            Opened::Set(set) => set.contains(number),
            Opened::Column(column) => column.positions_between(number..=number).next().is_some(),
        }
    }

    /// Adds up all numbers. The sum of at most 2^28 numbers below 2^32 is less than 2^60.
    pub fn sum(&self) -> u64 {
        match self {
            Opened::Set(set) => set.iter().map(u64::from).sum(),
            Opened::Column(column) => column.iter().map(u64::from).sum(),
        }
    }

    /// What it is called.
    pub fn kind(&self) -> &'static str {
        match self {
            Opened::Set(_) => "set",
            Opened::Column(column) if column.kind() == Kind::Sorted => "sorted column",
            Opened::Column(_) => "plain column",
        }
    }

    /// How many bytes it has.
    fn size(&self) -> usize {
        match self {
            Opened::Set(set) => set.as_bytes().len(),
            Opened::Column(column) => column.as_bytes().len(),
        }
    }

    /// If it has a number, how many bits each takes, the least and the greatest.
    fn limits(&self) -> Option<(f64, u32, u32)> {
        let (least, greatest) = match self {
            Opened::Set(set) => (set.min()?, set.max()?),
            Opened::Column(column) => (column.iter().min()?, column.iter().max()?),
        };
        Some((8.0 * self.size() as f64 / self.len() as f64, least, greatest))
    }

    /// What it is, in a line.
    pub fn line(&self) -> String {
        let limits = self.limits();
        let more = limits.map(|(bits, least, greatest)| format!(", {bits:.2} bits a number, from {least} to {greatest}"));
        format!("{}, {} numbers in {} bytes{}\n", self.kind(), self.len(), self.size(), more.unwrap_or_default())
    }

    /// What it is, a line for each fact.
    pub fn lines(&self) -> String {
        let limits = self.limits();
        let more =
            limits.map(|(bits, least, greatest)| format!("bits a number: {bits:.2}\nleast: {least}\ngreatest: {greatest}\n"));
        format!("kind: {}\nnumbers: {}\nbytes: {}\n{}", self.kind(), self.len(), self.size(), more.unwrap_or_default())
    }
}
