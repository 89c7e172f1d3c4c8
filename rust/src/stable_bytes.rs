//! Bytes that sets and columns can own.

use alloc::rc::Rc;
use alloc::sync::Arc;
use alloc::vec::Vec;

/// Bytes that do not change: a vector, an `Rc` or an `Arc` of a slice, a borrowed slice or array.
///
/// A `Box<[u8]>` is no such type, since Rust may assume of a box that moves that nothing else reads its bytes. `into_vec` makes a vector of it
/// without a copy.
///
/// ```compile_fail,E0277
/// let bytes: Box<[u8]> = Box::new([0x81, 5]);
/// bitpacking::set::IdSetBuf::open(bytes);
/// ```
///
/// # Safety
///
/// As long as the value is not borrowed by `&mut`, `as_ref` returns the same bytes at the same address each time, also after the value has moved;
/// and they may be read while it moves, which a type with a `Box` or a `&mut` of them does not allow. The library trusts bytes that it tested before:
/// if they change, a later call may read outside of them. Clones are not trusted: a set or a column can be cloned only if its bytes are of a type
/// of this page.
///
/// A type of another crate gets a type of one's own around it. A mapped file is such bytes only if nothing writes into the file or cuts it, which
/// the caller has to know:
///
/// ```
/// struct Mapping(std::sync::Arc<Vec<u8>>); // or a type that maps a file
///
/// impl AsRef<[u8]> for Mapping {
///     fn as_ref(&self) -> &[u8] {
///         &self.0
///     }
/// }
///
/// // SAFETY: files of this index are replaced by renaming new ones, and never written again.
/// unsafe impl bitpacking::StableBytes for Mapping {}
/// ```
pub unsafe trait StableBytes: AsRef<[u8]> {}

/// Bytes whose clones have the same bytes. Users cannot name this trait, so that no type of theirs is trusted with it.
pub trait ClonedBytes: StableBytes + Clone {}

macro_rules! stable {
    ($([$($generics:tt)*] $bytes:ty),*) => {
        $(
            // SAFETY: it owns or borrows its bytes in memory that does not move with it, and lets nobody write them who does not borrow it by
            // `&mut`.
            unsafe impl<$($generics)*> StableBytes for $bytes {}
            impl<$($generics)*> ClonedBytes for $bytes {}
        )*
    };
}

stable!([] Vec<u8>, [] Rc<[u8]>, [] Arc<[u8]>, [] &[u8], [const N: usize] &[u8; N]);
