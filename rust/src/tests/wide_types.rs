//! What the types of wide sets are: shared, shown, compared, cloned, converted, written.

use alloc::borrow::ToOwned;
use alloc::format;
use alloc::rc::Rc;
use alloc::sync::Arc;
use alloc::vec;
use alloc::vec::Vec;
use core::fmt::Debug;
use core::panic::UnwindSafe;
use std::collections::HashSet;
use std::io;

use crate::StableBytes;
use crate::set::wide::{Error, Iter, WideSet, WideSetBuf, WideSetBuilder};

#[test]
fn shared_by_threads() {
    fn shared<T: ?Sized + Send + Sync + Debug + Unpin + UnwindSafe>() {}
    let _sets = (shared::<WideSet>(), shared::<WideSetBuf>(), shared::<WideSetBuf<Arc<[u8]>>>(), shared::<WideSetBuf<&[u8]>>());
    let _others = (shared::<Iter<'_>>(), shared::<WideSetBuilder>(), shared::<Error>());
}

#[test]
fn shown() {
    let shown = |ids: &[u64]| format!("{:?}", WideSetBuf::pack(ids).unwrap());
    assert_eq!([shown(&[]), shown(&[1, u64::MAX])], ["{}", "{1, 18446744073709551615}"]);
    let sixteen = "{0, 1, 2, 3, 4, 5, 6, 7, 8, 9, 10, 11, 12, 13, 14, 15";
    let many: Vec<u64> = (0..17).collect();
    assert_eq!([shown(&many[..16]), shown(&many)], [format!("{sixteen}}}"), format!("{sixteen}, ..}}")]);
    let mut builder = WideSetBuilder::new();
    builder.push_all(&[4, 9]).unwrap();
    let set = WideSetBuf::from([4, 9]);
    assert_eq!(format!("{builder:?} {:?}", set.iter()), "WideSetBuilder { ids: [4, 9] } Iter { left: 2, .. }");
}

#[test]
fn compared_and_hashed() {
    let (one, same, other) = (WideSetBuf::from([1, 1 << 40]), WideSetBuf::from([1 << 40, 1]), WideSetBuf::default());
    let borrowed = WideSet::open(one.as_bytes()).unwrap();
    let equal = [one == same, one == borrowed, borrowed == one, *one == *borrowed, one == *borrowed, *borrowed == one];
    assert_eq!((equal, one == other, *borrowed == other), ([true; 6], false, false));
    let found = HashSet::from([one.clone(), same, other]);
    assert_eq!((found.len(), found.get(&*borrowed)), (2, Some(&one)));
}

/// Clones have bytes of their own, or the same ones, and are there after the first is gone.
#[test]
fn cloned_and_owned() {
    fn cloned<B: StableBytes>(set: WideSetBuf<B>)
    where
        WideSetBuf<B>: Clone,
    {
        let (clone, owned) = (set.clone(), (*set).to_owned());
        drop(set);
        assert!(clone.unpack() == [5] && owned == clone);
        assert_eq!(clone.into_bytes().as_ref(), [9, 1, 0x61, 0, 5, 0, 0, 0]);
    }
    let bytes = WideSetBuf::from([5]).into_bytes();
    cloned(WideSetBuf::open(&bytes[..]).unwrap());
    cloned(WideSetBuf::open(&[9, 1, 0x61, 0, 5, 0, 0, 0]).unwrap());
    cloned(WideSetBuf::open(Rc::<[u8]>::from(&bytes[..])).unwrap());
    cloned(WideSetBuf::open(Arc::<[u8]>::from(&bytes[..])).unwrap());
    // SAFETY: these bytes were packed.
    cloned(unsafe { WideSetBuf::open_unchecked(bytes.clone()) });
    // SAFETY: as above.
    cloned(unsafe { WideSet::open_unchecked(&bytes) });
    cloned(WideSetBuf::open(bytes).unwrap());
}

#[test]
fn converted_and_written() {
    assert_eq!(WideSetBuf::default().as_bytes(), [9, 0, 0x60]);
    let set = WideSetBuf::from([5]);
    let (opened, bytes): (&WideSet, &[u8]) = (set.as_ref(), set.as_ref());
    assert_eq!((opened, bytes), (&*set, set.as_bytes()));
    let mut file = vec![1];
    set.write_to(&mut file).unwrap();
    assert_eq!(file, [1, 9, 1, 0x61, 0, 5, 0, 0, 0]);
    assert_eq!(set.write_to(&mut &mut [0; 7][..]).unwrap_err().kind(), io::ErrorKind::WriteZero);
    // As `?` converts it in a function that reads a file.
    let error = io::Error::from(WideSet::open(&[]).unwrap_err());
    assert_eq!((error.kind(), format!("{error}").as_str()), (io::ErrorKind::InvalidData, "bytes are missing"));
}
