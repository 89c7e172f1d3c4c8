//! Columns with values, or another column, after them.

use std::vec::Vec;

use super::column_model::for_each_column;
use crate::column::{ColumnBuf, Error, Kind};

#[test]
fn values_after_a_column() {
    for_each_column(15, |column, values, numbers| {
        let kind = column.kind();
        for cut in [0, 1, 31, 127, 128, 129, 256, values.len() / 2, values.len(), numbers.below(values.len() + 1)] {
            let (front, rest) = values.split_at(cut.min(values.len()));
            let front = ColumnBuf::pack(kind, front).unwrap();
            assert_eq!(&front.append(rest).unwrap(), column);
            // The rest as another column of either kind, with its least value taken off.
            let base = rest.iter().min().copied().unwrap_or(7);
            let rest: Vec<u32> = rest.iter().map(|value| value - base).collect();
            for other in [Kind::Plain, kind] {
                let other = ColumnBuf::pack(other, &rest).unwrap();
                assert_eq!(&front.join(&other, base).unwrap(), column);
            }
        }
    });
}

#[test]
fn values_out_of_order_after_a_column() {
    for len in [1, 2, 127, 128, 129, 300] {
        let values: Vec<u32> = (10..10 + len as u32).collect();
        let column = ColumnBuf::pack(Kind::Sorted, &values).unwrap();
        let last = values[len - 1];
        assert_eq!(column.append(&[last - 1]), Err(Error::NotSorted(len)));
        assert_eq!(column.append(&[last, last, last + 1, last]), Err(Error::NotSorted(len + 3)));
        let other: ColumnBuf = [3, 3, 4, 2].into_iter().collect();
        assert_eq!(column.join(&other, last - 4), Err(Error::NotSorted(len)));
        assert_eq!(column.join(&other, last), Err(Error::NotSorted(len + 3)));
        let plain = ColumnBuf::pack(Kind::Plain, &values).unwrap();
        assert_eq!(plain.append(&[0]).unwrap().unpack(), [&values[..], &[0]].concat());
    }
}

/// By hand: a base whose sums pass 32 bits, and the greatest ones that do not. The base is added first, and the order tested then.
#[test]
fn bases() {
    const MOST: u32 = u32::MAX;
    fn joins(kind: Kind, values: &[u32], base: u32, others: &[u32], right: Result<&[u32], Error>) {
        let other: ColumnBuf = others.iter().copied().collect();
        let joined = ColumnBuf::pack(kind, values).unwrap().join(&other, base);
        assert_eq!(joined, right.map(|values| ColumnBuf::pack(kind, values).unwrap()));
    }
    joins(Kind::Plain, &[5], MOST, &[0, 1, 2], Err(Error::Overflow(1)));
    joins(Kind::Plain, &[5], MOST, &[0], Ok(&[5, MOST]));
    joins(Kind::Plain, &[MOST], 1, &[MOST - 1, 0, MOST], Err(Error::Overflow(2)));
    joins(Kind::Plain, &[MOST], 1, &[], Ok(&[MOST]));
    joins(Kind::Plain, &[], 1, &[MOST - 1], Ok(&[MOST]));
    joins(Kind::Sorted, &[9], 1, &[5, MOST], Err(Error::Overflow(1)));
    joins(Kind::Sorted, &[9], 1, &[9, 5, 7], Err(Error::NotSorted(2)));
    joins(Kind::Sorted, &[5, 5], 4, &[5], Ok(&[5, 5, 9]));
}
