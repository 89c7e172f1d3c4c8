//! Reads bitmaps in Roaring's portable format, each as a line of hexadecimal digits. For each it writes a line: the bytes of its set, and the bytes of the
//! bitmaps of three sets: of this one, of its ids that the set before it has too, and of all ids of both after some changes. If the bitmap has a fault,
//! the line has the number of the fault.

use std::io::{self, BufRead, BufWriter, Write};

use bitpacking::set::{Error, IdSet, IdSetBuf};

fn digits(out: &mut impl Write, bytes: &[u8]) -> io::Result<()> {
    bytes.iter().try_for_each(|byte| write!(out, "{byte:02x}"))
}

fn octets(line: &str) -> Option<Vec<u8>> {
    (0..line.len()).step_by(2).map(|at| u8::from_str_radix(line.get(at..at + 2)?, 16).ok()).collect()
}

/// The ids of both sets after the changes that `changed` of scripts/test/roaring.py asks of CRoaring.
fn changed(set: &IdSet, before: &IdSet) -> Result<IdSetBuf, Error> {
    let mut ids = set.try_unite(before)?;
    ids.insert(70_000)?;
    ids.remove(65_536)?;
    ids.insert_range(1000..3000)?;
    ids.remove_range(10_000..60_000)?;
    ids.flip(130_000..140_000)?;
    ids.shift(12_345)
}

fn main() -> io::Result<()> {
    let mut out = BufWriter::new(io::stdout().lock());
    let mut before = IdSetBuf::new();
    for line in io::stdin().lock().lines() {
        let bytes = octets(&line?).ok_or(io::ErrorKind::InvalidInput)?;
        match IdSetBuf::from_roaring(&bytes) {
            Ok(set) => {
                digits(&mut out, set.as_bytes())?;
                for set in [&set, &set.try_intersect(&before)?, &changed(&set, &before)?] {
                    write!(out, " ")?;
                    digits(&mut out, &set.to_roaring()?)?;
                }
                writeln!(out)?;
                before = set;
            }
            Err(fault) => writeln!(out, "fault {}", fault.number())?,
        }
    }
    out.flush()
}
