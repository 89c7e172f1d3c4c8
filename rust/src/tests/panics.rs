//! A panic names the line of the call in the user's file, and no line of this crate.

use std::boxed::Box;
use std::cell::Cell;
use std::panic::{AssertUnwindSafe, catch_unwind, set_hook, take_hook};

use super::set_reading::longest;
use crate::column::ColumnBuf;
use crate::set::IdSetBuf;
use crate::{BitPacker, BitPacker1x, Pack};

std::thread_local! {
    static IS_HERE: Cell<bool> = const { Cell::new(false) };
}

fn names_this_file<R>(call: impl FnOnce() -> R) {
    IS_HERE.set(false);
    assert!(catch_unwind(AssertUnwindSafe(call)).is_err());
    assert!(IS_HERE.get());
}

#[test]
fn panics_name_the_call() {
    let before = take_hook();
    set_hook(Box::new(move |info| {
        IS_HERE.set(info.location().unwrap().file() == file!());
        before(info);
    }));

    let (packer, bytes, values) = (BitPacker1x, &mut [][..], &mut [][..]);
    names_this_file(|| packer.compress(&[], bytes, 0));
    names_this_file(|| packer.compress_sorted(0, &[], bytes, 0));
    names_this_file(|| packer.compress_strictly_sorted(None, &[], bytes, 0));
    names_this_file(|| packer.decompress(&[], values, 0));
    names_this_file(|| packer.decompress_sorted(0, &[], values, 0));
    names_this_file(|| packer.decompress_strictly_sorted(None, &[], values, 0));
    names_this_file(|| packer.num_bits(&[]));
    names_this_file(|| packer.num_bits_sorted(0, &[]));
    names_this_file(|| packer.num_bits_strictly_sorted(None, &[]));
    names_this_file(|| packer.pack(&[], bytes));
    names_this_file(|| packer.pack_sorted(0, &[], bytes));
    names_this_file(|| packer.pack_strictly_sorted(None, &[1; 32], bytes));

    let column = ColumnBuf::default();
    names_this_file(|| column.get_wide(u64::MAX, 0));
    names_this_file(|| column.unpack_wide(u64::MAX));

    let (mut one, other) = (IdSetBuf::open(longest(0)).unwrap(), IdSetBuf::open(longest(4096)).unwrap());
    names_this_file(|| one.unite(&other));
    names_this_file(|| one.symmetric_difference(&other));
    names_this_file(|| &one | &other);
    names_this_file(|| one ^= other);
    names_this_file(|| one.extend([u32::MAX]));
    names_this_file(|| one.extend(&[u32::MAX]));
    assert_eq!(one.len(), 1 << 28);
}
