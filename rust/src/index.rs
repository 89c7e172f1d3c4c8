//! Indexes that are proved to be within their slices.

use core::slice::SliceIndex;

/// What the translation calls instead of `slice[index]`, in the files that `rust/translate/src/unchecked.rs` names. Debug builds test the
/// index. So does each build for a machine without 64 bits, since the proofs know a `usize` of 64 bits.
pub(crate) trait Proved<T> {
    /// Returns the item or the part at an index.
    ///
    /// # Safety
    ///
    /// The index is within the slice.
    unsafe fn proved_at<I: SliceIndex<[T]>>(&self, index: I) -> &I::Output;

    /// Returns the item or the part at an index, to write it.
    ///
    /// # Safety
    ///
    /// The index is within the slice.
    unsafe fn proved_at_mut<I: SliceIndex<[T]>>(&mut self, index: I) -> &mut I::Output;

    /// Returns as many items as an array has, from an index on.
    ///
    /// # Safety
    ///
    /// They are within the slice.
    unsafe fn proved_items<const N: usize>(&self, first: usize) -> &[T; N];
}

const IS_TESTED: bool = cfg!(any(debug_assertions, not(target_pointer_width = "64")));

impl<T> Proved<T> for [T] {
    #[inline(always)]
    unsafe fn proved_at<I: SliceIndex<[T]>>(&self, index: I) -> &I::Output {
        // SAFETY: the caller promises it.
        if IS_TESTED { &self[index] } else { unsafe { self.get_unchecked(index) } }
    }

    #[inline(always)]
    unsafe fn proved_at_mut<I: SliceIndex<[T]>>(&mut self, index: I) -> &mut I::Output {
        // SAFETY: the caller promises it.
        if IS_TESTED { &mut self[index] } else { unsafe { self.get_unchecked_mut(index) } }
    }

    #[inline(always)]
    unsafe fn proved_items<const N: usize>(&self, first: usize) -> &[T; N] {
        // SAFETY: the caller promises that they are within the slice, and an array is aligned as its items are.
        if IS_TESTED { self[first..].first_chunk().unwrap() } else { unsafe { &*self.as_ptr().add(first).cast() } }
    }
}
