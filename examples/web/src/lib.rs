//! Id sets for a web page, which calls these functions of WebAssembly. A set has a number, the first of them 0.
//!
//! The page writes ids or bytes at an address that it gets first. A call can move memory, so the page makes its views anew after each call.

use bitpacking::set::{Error, IdSetBuf};
use std::cell::RefCell;

thread_local! {
    static IDS: RefCell<Vec<u32>> = RefCell::default();
    static BYTES: RefCell<Vec<u8>> = RefCell::default();
    static SETS: RefCell<Vec<IdSetBuf>> = RefCell::default();
}

/// Returns the number of a new set, or -1 if there is an error.
fn add(set: Result<IdSetBuf, Error>) -> i32 {
    let Ok(set) = set else { return -1 };
    SETS.with_borrow_mut(|sets| sets.push(set));
    SETS.with_borrow(Vec::len) as i32 - 1
}

fn room<T: Clone + Default>(items: &mut Vec<T>, len: usize) -> *mut T {
    items.resize(len, T::default());
    items.as_mut_ptr()
}

/// Makes room for `len` ids, which `pack` packs. Returns its address.
#[unsafe(no_mangle)]
pub extern "C" fn ids(len: usize) -> *mut u32 {
    IDS.with_borrow_mut(|ids| room(ids, len))
}

/// Makes room for `len` bytes, which `open` opens. Returns its address.
#[unsafe(no_mangle)]
pub extern "C" fn bytes(len: usize) -> *mut u8 {
    BYTES.with_borrow_mut(|bytes| room(bytes, len))
}

/// Packs the ids. Returns the number of the set, or -1 if the ids do not increase.
#[unsafe(no_mangle)]
pub extern "C" fn pack() -> i32 {
    add(IDS.with_borrow(|ids| IdSetBuf::pack(ids)))
}

/// Opens the bytes, after testing all of them. Returns the number of the set, or -1 if the bytes have a fault.
#[unsafe(no_mangle)]
pub extern "C" fn open() -> i32 {
    add(IdSetBuf::open(BYTES.take()))
}

/// Intersects two sets. Returns the number of the set of the ids that both have.
#[unsafe(no_mangle)]
pub extern "C" fn intersect(one: usize, other: usize) -> i32 {
    add(Ok(SETS.with_borrow(|sets| sets[one].intersect(&sets[other]))))
}

/// Returns the number of ids of a set.
#[unsafe(no_mangle)]
pub extern "C" fn len(set: usize) -> usize {
    SETS.with_borrow(|sets| sets[set].len())
}

/// Returns the number of bytes of a set.
#[unsafe(no_mangle)]
pub extern "C" fn byte_len(set: usize) -> usize {
    SETS.with_borrow(|sets| sets[set].as_bytes().len())
}

/// Returns the address of the bytes of a set.
#[unsafe(no_mangle)]
pub extern "C" fn encoding(set: usize) -> *const u8 {
    SETS.with_borrow(|sets| sets[set].as_bytes().as_ptr())
}

/// Unpacks a set. Returns the address of its ids, which are there until the next call of `ids` or `unpack`.
#[unsafe(no_mangle)]
pub extern "C" fn unpack(set: usize) -> *const u32 {
    IDS.replace(SETS.with_borrow(|sets| sets[set].unpack()));
    IDS.with_borrow(|ids| ids.as_ptr())
}
