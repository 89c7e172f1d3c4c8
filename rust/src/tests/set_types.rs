//! What the types are: shared, shown, compared, cloned, converted.

use alloc::borrow::{Cow, ToOwned};
use alloc::collections::BTreeSet;
use alloc::rc::Rc;
use alloc::sync::Arc;
use alloc::vec::Vec;
use alloc::{format, vec};
use core::fmt::Debug;
use core::panic::UnwindSafe;
use std::collections::HashSet;
use std::io;

use crate::set::{Error, IdSet, IdSetBuf, IntoIter, Iter, Query, QueryError, QueryIds, SetBuilder, SetCursor, open_many};
use crate::{StableBytes, chain, column, ranked};

#[test]
fn shared_by_threads() {
    fn shared<T: ?Sized + Send + Sync + Debug + Unpin + UnwindSafe>() {}
    let _sets = (shared::<IdSet>(), shared::<IdSetBuf>(), shared::<IdSetBuf<Arc<[u8]>>>(), shared::<IdSetBuf<&[u8]>>());
    let _ids = (shared::<Iter<'_>>(), shared::<IntoIter<Vec<u8>>>(), shared::<SetCursor<'_>>(), shared::<QueryIds<'_>>());
    let _others = (shared::<SetBuilder>(), shared::<Query<'_>>(), shared::<Error>(), shared::<QueryError>());
    let set: IdSetBuf = (0..1000).collect();
    std::thread::scope(|scope| {
        for _ in 0..2 {
            scope.spawn(|| assert!(set.iter().eq(0..1000)));
        }
    });
}

#[test]
fn shown() {
    let shown = |ids: &[u32]| format!("{:?}", IdSetBuf::pack(ids).unwrap());
    assert_eq!([shown(&[]), shown(&[1, 4, 9])], ["{}", "{1, 4, 9}"]);
    let sixteen = "{0, 1, 2, 3, 4, 5, 6, 7, 8, 9, 10, 11, 12, 13, 14, 15";
    let many: Vec<u32> = (0..17).collect();
    assert_eq!([shown(&many[..16]), shown(&many)], [format!("{sixteen}}}"), format!("{sixteen}, ..}}")]);
    let set = IdSetBuf::pack(&many).unwrap();
    let query = Query::from(&set) | &set;
    assert_eq!(format!("{:?} {:?}", set.iter(), set.clone().into_iter()), "Iter { left: 17, .. } Iter { left: 17, .. }");
    assert_eq!(format!("{:?}", set.cursor()), "SetCursor { position: 0, value: Some(0), .. }");
    assert_eq!(format!("{query:?} {:?}", query.ids().unwrap()), "Query { sets: 2, .. } QueryIds { value: Some(0), .. }");
}

#[test]
fn compared_and_hashed() {
    let (one, same, other) = (IdSetBuf::pack(&[1, 4]).unwrap(), [4, 1].into_iter().collect::<IdSetBuf>(), IdSetBuf::default());
    let borrowed = IdSet::open(one.as_bytes()).unwrap();
    let equal = [one == same, one == borrowed, borrowed == one, *one == *borrowed, one == *borrowed, *borrowed == one];
    assert_eq!((equal, one == other, *borrowed == other), ([true; 6], false, false));
    let found = HashSet::from([one.clone(), same, other]);
    assert_eq!((found.len(), found.get(&*borrowed)), (2, Some(&one)));
    assert_eq!((IdSetBuf::new(), *IdSetBuf::new() < *one, one < borrowed), (IdSetBuf::default(), true, false));
}

/// Clones have bytes of their own, or the same ones, and are there after the first is gone.
#[test]
fn cloned_and_owned() {
    fn cloned<B: StableBytes>(set: IdSetBuf<B>)
    where
        IdSetBuf<B>: Clone,
    {
        let (clone, owned) = (set.clone(), (*set).to_owned());
        drop(set);
        assert!(clone.unpack() == [7, 9, 10, 300] && owned == clone);
        assert_eq!(clone.into_bytes().as_ref(), [0x84, 7, 9, 1, 0, 0x84, 4]);
    }
    let bytes = IdSetBuf::pack(&[7, 9, 10, 300]).unwrap().into_bytes();
    cloned(IdSetBuf::open(&bytes[..]).unwrap());
    cloned(IdSetBuf::open(&[0x84, 7, 9, 1, 0, 0x84, 4]).unwrap());
    cloned(IdSetBuf::open(Rc::<[u8]>::from(&bytes[..])).unwrap());
    cloned(IdSetBuf::open(Arc::<[u8]>::from(&bytes[..])).unwrap());
    // SAFETY: these bytes were packed.
    cloned(unsafe { IdSetBuf::open_unchecked(bytes.clone()) });
    // SAFETY: as above.
    cloned(unsafe { IdSet::open_unchecked(&bytes) });
    cloned(IdSetBuf::open(bytes).unwrap());
}

#[test]
fn moved_and_boxed() {
    let mut sets: Vec<IdSetBuf> = Vec::new();
    for k in 0..100 {
        sets.push(IdSetBuf::pack(&[k, k + 1000]).unwrap());
    }
    sets.swap(0, 99);
    assert_eq!((sets[0].unpack(), sets.remove(99).unpack()), (vec![99, 1099], vec![0, 1000]));
    let mut changed: Cow<'_, IdSet> = Cow::Borrowed(&sets[5]);
    assert!(changed.contains(5));
    *changed.to_mut() |= &sets[6];
    assert_eq!((changed.unpack(), sets[5].unpack()), (vec![5, 6, 1005, 1006], vec![5, 1005]));
}

#[test]
fn converted() {
    assert_eq!(IdSetBuf::default().as_bytes(), [0x80]);
    let bytes: &[u8] = &[0x81, 5];
    let set = IdSetBuf::try_from(bytes).unwrap();
    assert_eq!((IdSetBuf::try_from(bytes.to_vec()).unwrap(), AsRef::<[u8]>::as_ref(&set)), ((*set).to_owned(), bytes));
    let opened: &IdSet = set.as_ref();
    assert_eq!((opened.iter().collect::<BTreeSet<u32>>(), AsRef::<[u8]>::as_ref(opened)), (BTreeSet::from([5]), bytes));
}

/// As `?` converts them in a function that reads a file.
#[test]
fn errors_of_io() {
    for (error, kind, shown) in [
        (io::Error::from(IdSet::open(&[]).unwrap_err()), io::ErrorKind::InvalidData, "bytes are missing"),
        (column::Column::open(&[]).unwrap_err().into(), io::ErrorKind::InvalidData, "bytes are missing"),
        (chain::Error::BadWidth.into(), io::ErrorKind::InvalidData, "a width is above 32"),
        (ranked::Error::OtherLength.into(), io::ErrorKind::InvalidData, "there are more documents than counts, or fewer"),
        (open_many([&[]]).unwrap_err().into(), io::ErrorKind::InvalidData, "encoding 0: bytes are missing"),
        (QueryError::Memory.into(), io::ErrorKind::InvalidInput, "out of memory"),
        (
            column::ColumnBuf::default().gather(&[7]).unwrap_err().into(),
            io::ErrorKind::InvalidInput,
            "position 7, at index 0, is not in the column",
        ),
    ] {
        assert_eq!((error.kind(), format!("{error}").as_str()), (kind, shown));
    }
}

/// A writer without room.
#[test]
fn written() {
    let set = IdSetBuf::pack(&[7, 9, 10, 300]).unwrap();
    let mut file = vec![1];
    set.write_to(&mut file).unwrap();
    assert_eq!(file, [1, 0x84, 7, 9, 1, 0, 0x84, 4]);
    let mut room = [0; 6];
    assert_eq!(set.write_to(&mut &mut room[..]).unwrap_err().kind(), io::ErrorKind::WriteZero);
}
