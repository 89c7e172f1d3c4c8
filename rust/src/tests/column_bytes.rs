//! The bytes of columns: the tables of `vectors/`, who has the bytes, and what is the same of equal columns.

use std::borrow::{Borrow, ToOwned};
use std::collections::HashSet;
use std::hash::{DefaultHasher, Hash, Hasher};
use std::rc::Rc;
use std::string::ToString;
use std::sync::Arc;
use std::vec::Vec;
use std::{format, io, thread};

use super::column_model::{for_each_column, rows, values_of};
use crate::column::{Column, ColumnBuf, ColumnBuilder, Cursor, Error, Iter, Kind, OutOfBounds, Positions};

#[test]
fn each_column_of_the_table() {
    let rows = rows("columns");
    assert_eq!(rows.len(), 727);
    for row in rows {
        let kind = if row.fields[0] == "plain" { Kind::Plain } else { Kind::Sorted };
        let values = values_of(&row.fields[1]);
        let column = Column::open(&row.bytes).unwrap();
        assert_eq!((column.kind(), column.len(), column.blocks()), (kind, values.len(), values.len() / 128));
        assert_eq!(column.unpack(), values);
        assert!(column.iter().eq(values.iter().copied()));
        assert_eq!(ColumnBuf::pack(kind, &values).unwrap().into_bytes(), row.bytes);
    }
}

/// By each way to open bytes.
#[test]
fn each_refusal_of_the_table() {
    let rows = rows("refused_columns");
    assert_eq!(rows.len(), 2605);
    for row in rows {
        let fault = Column::open(&row.bytes).unwrap_err();
        assert_eq!([fault.number().to_string(), format!("{fault:?}")], row.fields);
        assert_eq!(ColumnBuf::open(row.bytes.clone()), Err(fault));
        assert_eq!(<ColumnBuf<&[u8]>>::try_from(&row.bytes[..]), Err(fault));
        assert_eq!(ColumnBuf::open(Arc::<[u8]>::from(&row.bytes[..])).err(), Some(fault));
        assert_eq!(ColumnBuf::try_from(row.bytes), Err(fault));
    }
}

fn hash(column: impl Hash) -> u64 {
    let mut hasher = DefaultHasher::new();
    column.hash(&mut hasher);
    hasher.finish()
}

#[test]
fn each_owner_of_bytes() {
    for_each_column(16, |column, values, _| {
        let bytes = column.as_bytes();
        let borrowed = Column::open(bytes).unwrap();
        // SAFETY: they were opened.
        let unchecked = unsafe { Column::open_unchecked(bytes) };
        let owned = ColumnBuf::try_from(bytes.to_vec()).unwrap();
        let shared = ColumnBuf::open(Arc::<[u8]>::from(bytes)).unwrap();
        let counted = ColumnBuf::open(Rc::<[u8]>::from(bytes)).unwrap();
        let copied: ColumnBuf = column.to_owned();
        let of: [&Column; 7] = [&borrowed, &unchecked, &owned, &shared, &counted, &copied, &owned.clone()];
        for other in of {
            assert_eq!((other, other.unpack()), (column, values.to_vec()));
            assert_eq!((other.kind(), other.as_bytes(), hash(other)), (column.kind(), bytes, hash(column)));
        }
        assert_eq!((&shared, hash(&owned)), (&shared.clone(), hash(&borrowed)));
        assert!(borrowed == owned && owned == *column && *column == counted);
        let (_, _, _): (&Column, &Column, &[u8]) = (owned.borrow(), owned.as_ref(), owned.as_ref());
        assert_eq!((counted.into_bytes().len(), borrowed.into_bytes()), (bytes.len(), bytes));
        let mut written = std::vec![1];
        column.write_to(&mut written).unwrap();
        assert_eq!(written, [&[1], bytes].concat());
    });
}

#[test]
fn columns_that_differ() {
    let all = [(Kind::Plain, &[][..]), (Kind::Sorted, &[]), (Kind::Plain, &[5]), (Kind::Sorted, &[5]), (Kind::Plain, &[5, 5])];
    let all: Vec<ColumnBuf> = all.into_iter().map(|(kind, values)| ColumnBuf::pack(kind, values).unwrap()).collect();
    for (k, one) in all.iter().enumerate() {
        for (l, other) in all.iter().enumerate() {
            assert_eq!((one == other, **one == **other), (k == l, k == l));
        }
    }
    assert_eq!(all.iter().cloned().collect::<HashSet<ColumnBuf>>().len(), all.len());
    assert_eq!((&ColumnBuf::default(), ColumnBuf::default().as_bytes()), (&all[0], &[0x40][..]));
}

#[test]
fn texts() {
    let column = ColumnBuf::pack(Kind::Sorted, &[5, 5, 9]).unwrap();
    assert_eq!(format!("{column:?}"), "Column { kind: Sorted, len: 3, .. }");
    assert_eq!(format!("{:?}", column.iter()), "Iter { left: 3, .. }");
    assert_eq!(format!("{:?}", column.cursor()), "Cursor { position: 0, value: Some(5), .. }");
    assert_eq!(format!("{:?}", column.positions_between(3..7)), "Positions { range: 3..=6, .. }");
}

/// A writer that has no room.
struct Full;

impl io::Write for Full {
    fn write(&mut self, _: &[u8]) -> io::Result<usize> {
        Err(io::ErrorKind::StorageFull.into())
    }

    fn flush(&mut self) -> io::Result<()> {
        Ok(())
    }
}

#[test]
fn a_writer_that_fails() {
    assert_eq!(ColumnBuf::default().write_to(Full).unwrap_err().kind(), io::ErrorKind::StorageFull);
}

#[test]
fn threads_share_columns() {
    fn shared<T: Send + Sync>() {}
    let _of = (shared::<Column>, shared::<ColumnBuf>, shared::<ColumnBuf<&[u8]>>, shared::<ColumnBuf<Arc<[u8]>>>);
    let _with = (shared::<Iter<'_>>, shared::<Cursor<'_>>, shared::<Positions<'_>>, shared::<ColumnBuilder>);
    let _why = (shared::<Error>, shared::<Kind>, shared::<OutOfBounds>);
    let column: ColumnBuf = (0..1000).collect();
    thread::scope(|scope| {
        for _ in 0..2 {
            scope.spawn(|| assert!(column.iter().eq(0..1000)));
        }
    });
}
