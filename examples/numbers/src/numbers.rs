//! Numbers as text and as bytes.

use std::ffi::OsStr;

use crate::Result;
use crate::files::{Output, PIECE, read};
use crate::progress::Progress;

/// The numbers of a set or a column are at most this many.
const MOST: usize = 1 << 28;
/// The longest number as text, with its line end, in bytes.
const LINE: usize = 11;

/// The number that decimal digits say.
pub fn parsed(digits: &[u8]) -> Result<u32> {
    let add = |number: u32, digit: &u8| match digit {
        b'0'..=b'9' => number.checked_mul(10)?.checked_add(u32::from(digit - b'0')),
        _ => None,
    };
    digits.iter().try_fold(0, add).filter(|_| (1..PIECE).contains(&digits.len())).ok_or_else(|| {
        let (shown, more) = if digits.len() > 20 { (&digits[..20], "..") } else { (digits, "") };
        format!("'{}{more}' is not a number from 0 to {}", shown.escape_ascii(), u32::MAX)
    })
}

/// The order of numbers: whether one may come after another, and what is said of one that may not.
pub struct Order {
    pub allows: fn(u32, u32) -> bool,
    pub rule: &'static str,
}

/// The numbers that are read, and how many lines of text.
struct Reading {
    values: Vec<u32>,
    lines: usize,
    order: Order,
}

impl Reading {
    fn push(&mut self, value: u32) -> Result<()> {
        match self.values.last() {
            Some(&before) if !(self.order.allows)(before, value) => {
                Err(format!("{value} comes after {before}: {}", self.order.rule))
            }
            _ => Ok(self.values.push(value)),
        }
    }

    /// Adds the numbers of a piece of text. Returns how many bytes they take: the next piece may have the rest of the last word, which is not
    /// read then.
    fn add_text(&mut self, piece: &[u8], is_last: bool) -> Result<usize> {
        let lines = |text: &[u8]| text.iter().filter(|&&byte| byte == b'\n').count();
        let spaced = piece.iter().rposition(u8::is_ascii_whitespace).map_or(0, |at| at + 1);
        let (end, mut at) = (if is_last || spaced == 0 && piece.len() == PIECE { piece.len() } else { spaced }, 0);
        for word in piece[..end].split(u8::is_ascii_whitespace) {
            if !word.is_empty() {
                let pushed = parsed(word).and_then(|value| self.push(value));
                pushed.map_err(|what| format!("line {}: {what}", self.lines + lines(&piece[..at]) + 1))?;
            }
            at += word.len() + 1;
        }
        self.lines += lines(&piece[..end]);
        Ok(end)
    }

    /// Adds the numbers of a piece of bytes. Returns how many bytes they take.
    fn add_bytes(&mut self, piece: &[u8], is_last: bool) -> Result<usize> {
        let words = piece.chunks_exact(4);
        let left = words.remainder().len();
        if is_last && left > 0 {
            return Err(format!("the last number has {left} bytes of 4"));
        }
        for word in words {
            let pushed = self.push(u32::from_le_bytes([word[0], word[1], word[2], word[3]]));
            pushed.map_err(|what| format!("position {}: {what}", self.values.len()))?;
        }
        Ok(piece.len() - left)
    }
}

/// The numbers of a file. Fails at the first that is out of order, with its line, or with its position if each has four bytes.
pub fn numbers_of(file: &OsStr, is_binary: bool, order: Order) -> Result<Vec<u32>> {
    let mut reading = Reading { values: Vec::new(), lines: 0, order };
    read(file, |piece, is_last| {
        let taken = if is_binary { reading.add_bytes(piece, is_last) } else { reading.add_text(piece, is_last) };
        if reading.values.len() > MOST { Err(format!("there are more than {MOST} numbers")) } else { taken }
    })?;
    Ok(reading.values)
}

/// Writes numbers as lines of text at the end of a buffer, from the last number to the first. Returns the index of its first byte.
fn write_text(values: &[u32], buffer: &mut [u8]) -> usize {
    let mut at = buffer.len();
    for &value in values.iter().rev() {
        at -= 1;
        buffer[at] = b'\n';
        for rest in std::iter::successors(Some(value), |rest| (*rest > 9).then_some(rest / 10)) {
            at -= 1;
            buffer[at] = b'0' + (rest % 10) as u8;
        }
    }
    at
}

/// Writes numbers as bytes at the end of a buffer. Returns the index of the first.
fn write_bytes(values: &[u32], buffer: &mut [u8]) -> usize {
    let start = buffer.len() - 4 * values.len();
    buffer[start..].chunks_exact_mut(4).zip(values).for_each(|(bytes, value)| bytes.copy_from_slice(&value.to_le_bytes()));
    start
}

/// Writes `len` numbers, as text or as bytes. `copy` copies them from a position on.
pub fn write(mut output: Output, len: usize, is_binary: bool, mut copy: impl FnMut(usize, &mut [u32])) -> Result<()> {
    let (mut progress, mut values, mut buffer) = (Progress::new(Some(len as u64)), vec![0; PIECE / 4], vec![0; LINE * PIECE / 4]);
    for from in (0..len).step_by(PIECE / 4) {
        let values = &mut values[..(PIECE / 4).min(len - from)];
        copy(from, values);
        let start = if is_binary { write_bytes(values, &mut buffer) } else { write_text(values, &mut buffer) };
        output.write(&buffer[start..])?;
        progress.show((from + values.len()) as u64);
    }
    output.end(&[])
}
