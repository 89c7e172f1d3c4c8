//! The positions of values within limits.

use core::fmt;
use core::iter::FusedIterator;
use core::ops::Range;

use crate::columns;
use crate::room::Room;

/// How many positions a page has.
const PAGE: usize = 256;

/// The positions of the values of a column that are within a range, in increasing order.
///
/// [`positions_between`](super::Column::positions_between) returns it. In a sorted column they follow each other, and searches find both ends.
/// In a plain one they come in pages of up to 256: a block is unpacked at most once for each page that has positions of it.
///
/// ```
/// let column: bitpacking::column::ColumnBuf = (0..1000).map(|k| k % 10).collect();
/// let mut threes = column.positions_between(3..4);
/// assert_eq!((threes.next(), threes.next(), threes.last()), (Some(3), Some(13), Some(993)));
/// ```
#[derive(Clone)]
pub struct Positions<'a> {
    /// The positions of a sorted column.
    pub(super) run: Range<usize>,
    /// The positions of a plain column.
    pub(super) pages: Pages<'a>,
    page: Room<usize, PAGE>,
    /// The index in the page of the next position.
    index: usize,
}

/// The positions of a plain column that are not read yet.
#[derive(Clone)]
pub(super) struct Pages<'a> {
    column: columns::Column<'a>,
    low: u32,
    high: u32,
    /// None of the positions is below this one.
    from: usize,
}

impl Pages<'_> {
    /// Writes the next positions at the start of a slice, as many as fit, and returns how many these are.
    pub(super) fn write(&mut self, out: &mut [usize]) -> usize {
        let found = self.column.positions_between(self.low, self.high, self.from, out);
        let last = out.last().filter(|_| found == out.len());
        self.from = last.map_or(self.column.len(), |last| last + 1);
        found
    }

    /// How many values may have such a position.
    pub(super) fn left(&self) -> usize {
        self.column.len() - self.from
    }
}

impl<'a> Positions<'a> {
    pub(super) fn new(column: columns::Column<'a>, limits: Option<(u32, u32)>) -> Self {
        let (low, high) = limits.unwrap_or_default();
        let mut run = 0..0;
        // Only a plain column has pages: it refuses to seek.
        let from = match limits.map(|_| column.seek(low)) {
            Some(Err(_)) => 0,
            Some(Ok(Some((first, _)))) => {
                run = first..first + column.count_between(low, high);
                column.len()
            }
            _ => column.len(),
        };
        Positions { run, pages: Pages { column, low, high, from }, page: Room::new(), index: 0 }
    }

    /// Fills the page with the next positions. Returns whether there are any.
    fn fill(&mut self) -> bool {
        let found = self.pages.write(self.page.begin(self.pages.left().min(PAGE)));
        self.page.truncate(found);
        self.index = 0;
        found > 0
    }
}

impl Iterator for Positions<'_> {
    type Item = usize;

    #[inline]
    fn next(&mut self) -> Option<usize> {
        if let Some(position) = self.run.next() {
            return Some(position);
        }
        if self.index >= self.page.items().len() && !self.fill() {
            return None;
        }
        let position = self.page.items()[self.index];
        self.index += 1;
        Some(position)
    }

    fn size_hint(&self) -> (usize, Option<usize>) {
        let found = self.run.len() + self.page.items().len() - self.index;
        (found, Some(found + self.pages.left()))
    }
}

impl FusedIterator for Positions<'_> {}

impl fmt::Debug for Positions<'_> {
    fn fmt(&self, f: &mut fmt::Formatter<'_>) -> fmt::Result {
        f.debug_struct("Positions").field("range", &(self.pages.low..=self.pages.high)).finish_non_exhaustive()
    }
}
