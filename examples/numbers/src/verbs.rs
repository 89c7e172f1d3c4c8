//! What each verb does. It returns whether the answer is yes, or has a number.

use std::ffi::OsStr;

use bitpacking::column::{ColumnBuf, Kind};
use bitpacking::set::{Error, IdSet, IdSetBuf};

use crate::arguments::Call;
use crate::files::{Output, about, bytes_of, name_of, print};
use crate::numbers::Order;
use crate::opened::Opened;
use crate::{Result, numbers, tell};

const ANY: Order = Order { allows: |_, _| true, rule: "" };
const RISING: Order = Order { allows: |before, after| before < after, rule: "the numbers of a set increase (--sort sorts them)" };
const NOT_FALLING: Order =
    Order { allows: |before, after| before <= after, rule: "the numbers of a sorted column do not decrease (--sort sorts them)" };

/// The bytes of a set, or of a column of a kind.
fn packed(kind: Option<Kind>, values: &[u32]) -> Result<Vec<u8>> {
    match kind {
        None => IdSetBuf::pack(values).map(IdSetBuf::into_bytes).map_err(|error| error.to_string()),
        Some(kind) => ColumnBuf::pack(kind, values).map(ColumnBuf::into_bytes).map_err(|error| error.to_string()),
    }
}

pub fn pack(call: &Call) -> Result<bool> {
    let is_alone = !["--as", "--sort", "--binary"].iter().any(|option| call.has(option));
    let bytes = match call.value("--from").map(OsStr::to_str) {
        None => packed_numbers(call)?,
        Some(Some("roaring")) if is_alone => packed_bitmap(&call.operands[0])?,
        Some(Some("roaring")) => return Err(call.wrong("only --output may be beside --from")),
        Some(_) => return Err(call.wrong("FORMAT is roaring")),
    };
    Output::new(call.value("--output"), false)?.end(&bytes).map(|()| true)
}

/// The bytes of the set of a bitmap in Roaring's portable format.
fn packed_bitmap(file: &OsStr) -> Result<Vec<u8>> {
    let set = IdSetBuf::from_roaring(&bytes_of(file)?);
    set.map(IdSetBuf::into_bytes).map_err(|error| about(file, format!("reading a bitmap of Roaring: {error}")))
}

/// The numbers are tested as they are read, unless they are sorted afterwards.
fn packed_numbers(call: &Call) -> Result<Vec<u8>> {
    let (file, sorts) = (&call.operands[0], call.has("--sort"));
    let (kind, order) = match call.value("--as").map_or(Some("set"), OsStr::to_str) {
        Some("set") => (None, RISING),
        Some("sorted") => (Some(Kind::Sorted), NOT_FALLING),
        Some("plain") if sorts => return Err(call.wrong("a plain column is not sorted: --as sorted is")),
        Some("plain") => (Some(Kind::Plain), ANY),
        _ => return Err(call.wrong("KIND is set, sorted or plain")),
    };
    let mut values = numbers::numbers_of(file, call.has("--binary"), if sorts { ANY } else { order })?;
    if sorts {
        values.sort_unstable();
    }
    if sorts && kind.is_none() {
        values.dedup();
    }
    packed(kind, &values).map_err(|what| about(file, what))
}

/// Writes the first numbers. It unpacks a piece of them at a time.
fn write_first(opened: &Opened, len: usize, is_binary: bool, output: Output) -> Result<bool> {
    let copy = |from, values: &mut [u32]| _ = opened.unpack_range(from, values);
    numbers::write(output, len, is_binary, copy).map(|()| true)
}

pub fn unpack(call: &Call) -> Result<bool> {
    let (file, is_binary) = (&call.operands[0], call.has("--binary"));
    match call.value("--to").map(OsStr::to_str) {
        None => {}
        Some(Some("roaring")) if !is_binary => {
            let bitmap = set_of(file)?.to_roaring().map_err(|error| about(file, error))?;
            return Output::new(call.value("--output"), false)?.end(&bitmap).map(|()| true);
        }
        Some(Some("roaring")) => return Err(call.wrong("only --output may be beside --to")),
        Some(_) => return Err(call.wrong("FORMAT is roaring")),
    }
    let opened = Opened::read(file)?;
    write_first(&opened, opened.len(), is_binary, Output::new(call.value("--output"), !is_binary)?)
}

/// The set of a file.
fn set_of(file: &OsStr) -> Result<IdSetBuf> {
    match Opened::read(file)? {
        Opened::Set(set) => Ok(set),
        Opened::Column(_) => Err(about(file, "it is a column, not a set")),
    }
}

pub fn head(call: &Call) -> Result<bool> {
    let lines = call.value("--lines").map_or(Ok(10), |word| call.number(word))?;
    let opened = Opened::read(&call.operands[0])?;
    write_first(&opened, opened.len().min(lines as usize), false, Output::new(None, true)?)
}

/// Writes numbers as text. Returns whether there are any.
fn write_text(output: Output, values: &[u32]) -> Result<bool> {
    numbers::write(output, values.len(), false, |from, out| out.copy_from_slice(&values[from..from + out.len()]))?;
    Ok(!values.is_empty())
}

/// Prints a line about each file, or some. If that fails, it is told, and the other files have their lines all the same.
pub fn describe(call: &Call, is_check: bool) -> Result<bool> {
    let mut all = Ok(true);
    for file in &call.operands {
        let lines = bytes_of(file).and_then(|bytes| match Opened::of(bytes) {
            Ok(opened) if is_check => Ok((true, about(file, opened.line()))),
            Ok(opened) => Ok((true, format!("file: {}\n{}", name_of(file), opened.lines()))),
            Err(fault) if is_check => Ok((false, about(file, fault + "\n"))),
            Err(fault) => Err(about(file, fault)),
        });
        match lines.and_then(|(is_right, lines)| print(&lines).map(|_| is_right)) {
            Ok(is_right) => all = all.map(|before| before && is_right),
            Err(message) => {
                tell(&message);
                all = Err(String::new());
            }
        }
    }
    all
}

pub fn get(call: &Call) -> Result<bool> {
    let (file, positions) = (&call.operands[0], call.numbers()?);
    let opened = Opened::read(file)?;
    let values = positions.iter().map(|&position| {
        let value = match &opened {
            Opened::Set(set) => set.select(position as usize),
            Opened::Column(column) => column.get(position as usize),
        };
        value.ok_or_else(|| about(file, format!("there is no position {position}: it has {} numbers", opened.len())))
    });
    write_text(Output::new(None, true)?, &values.collect::<Result<Vec<_>>>()?)
}

pub fn seek(call: &Call) -> Result<bool> {
    let (file, number) = (&call.operands[0], call.numbers()?[0]);
    let found = match Opened::read(file)? {
        Opened::Set(set) => set.seek(number),
        Opened::Column(column) => column.seek(number).map_err(|error| about(file, error))?,
    };
    found.map_or(Ok(false), |(position, found)| print(&format!("{position} {found}\n")))
}

/// Prints for each number how many numbers are below it.
pub fn rank(call: &Call) -> Result<bool> {
    let (file, numbers) = (&call.operands[0], call.numbers()?);
    let opened = Opened::read(file)?;
    print(&numbers.iter().map(|&number| format!("{}\n", opened.rank(number))).collect::<String>())
}

/// Writes the numbers that are there. Returns whether all are.
pub fn contains(call: &Call) -> Result<bool> {
    let (file, numbers) = (&call.operands[0], call.numbers()?);
    let opened = Opened::read(file)?;
    let found: Vec<u32> = numbers.iter().copied().filter(|&number| opened.contains(number)).collect();
    write_text(Output::new(None, true)?, &found)?;
    Ok(found.len() == numbers.len())
}

pub fn sum(call: &Call) -> Result<bool> {
    print(&format!("{}\n", Opened::read(&call.operands[0])?.sum()))
}

pub fn between(call: &Call) -> Result<bool> {
    let (file, numbers) = (&call.operands[0], call.numbers()?);
    let (low, high) = (numbers[0], numbers[1]);
    if low > high {
        return Err(call.wrong(&format!("LOW is {low}, above HIGH {high}")));
    }
    let found: Vec<u32> = match Opened::read(file)? {
        Opened::Set(set) => set.range(low..=high).collect(),
        Opened::Column(column) => column.positions_between(low..=high).map(|position| position as u32).collect(),
    };
    write_text(Output::new(None, true)?, &found)
}

/// Combines sets into one. It unpacks only the ids that it writes as text.
pub fn combine(call: &Call, combined: fn(&[&IdSet]) -> std::result::Result<IdSetBuf, Error>) -> Result<bool> {
    let sets = call.operands.iter().map(|file| set_of(file)).collect::<Result<Vec<_>>>()?;
    let set = combined(&sets.iter().map(|set| &**set).collect::<Vec<_>>()).map_err(|error| error.to_string())?;
    let output = Output::new(call.value("--output"), call.has("--text") || call.has("--count"))?;
    let len = set.len();
    if call.has("--count") {
        output.end(format!("{len}\n").as_bytes())?;
    } else if call.has("--text") {
        write_first(&Opened::Set(set), len, false, output)?;
    } else {
        output.end(&set.into_bytes())?;
    }
    Ok(len > 0)
}
