//! Iterators that say how many items they have, which nobody may trust.

use core::iter::repeat;

use crate::column::{self, ColumnBuf, ColumnBuilder, Kind};
use crate::set::{self, IdSetBuf, SetBuilder};

/// Items, and the least number of them that their iterator says it has.
struct Hinted<I>(I, usize);

impl<I: Iterator<Item = u32>> Iterator for Hinted<I> {
    type Item = u32;

    fn next(&mut self) -> Option<u32> {
        self.0.next()
    }

    fn size_hint(&self) -> (usize, Option<usize>) {
        (self.1, None)
    }
}

/// Too few, too many, and more than a vector can have.
const HINTS: [usize; 5] = [0, 1, 1 << 20, usize::MAX / 4, usize::MAX];

#[test]
fn builders() {
    for hint in HINTS {
        let (mut ids, mut values) = (SetBuilder::new(), ColumnBuilder::new(Kind::Plain));
        for _ in 0..2 {
            assert_eq!(
                (ids.extend(Hinted([4, 7, 9].into_iter(), hint)), values.extend(Hinted([7, 4].into_iter(), hint))),
                (Ok(()), Ok(()))
            );
            assert_eq!((ids.pack().unpack(), values.pack().unpack()), ([4, 7, 9].into(), [7, 4].into()), "{hint}");
            ids.clear();
            values.clear();
        }
        ids.push(9).unwrap();
        assert_eq!(ids.extend(Hinted([10, 12, 11].into_iter(), hint)), Err(set::Error::NotSorted(3)));
        let mut times = ColumnBuilder::new(Kind::Sorted);
        assert_eq!(times.extend(Hinted([5, 4].into_iter(), hint)), Err(column::Error::NotSorted(1)));
        assert_eq!((ids.len(), times.len()), (3, 1));
    }
}

/// Iterators without an end are read up to the first item that is refused.
#[test]
fn without_an_end() {
    assert_eq!(SetBuilder::new().extend(repeat(5)), Err(set::Error::NotSorted(1)));
    assert_eq!(SetBuilder::new().extend((3..9).chain(repeat(8))), Err(set::Error::NotSorted(6)));
    let mut falling = [2, 1].into_iter().cycle();
    assert_eq!(ColumnBuilder::new(Kind::Sorted).extend(falling.by_ref()), Err(column::Error::NotSorted(1)));
    assert_eq!(falling.next(), Some(2));
}

/// `collect` collects a vector, which has room for as many items as the iterator says.
#[test]
fn collected() {
    for hint in &HINTS[..3] {
        let ids: IdSetBuf = Hinted([9, 4, 9].into_iter(), *hint).collect();
        let values: ColumnBuf = Hinted([9, 4, 9].into_iter(), *hint).collect();
        assert_eq!((ids.unpack(), values.unpack()), ([4, 9].into(), [9, 4, 9].into()), "{hint}");
    }
}
