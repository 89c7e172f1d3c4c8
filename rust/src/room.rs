//! Room of a fixed size for items that come in parts.

use core::mem::MaybeUninit;
use core::slice;

/// Room for up to `N` items. It clears an item only before the first part that has it, so that it costs nothing to begin.
#[derive(Clone)]
pub(crate) struct Room<T: Copy, const N: usize> {
    items: [MaybeUninit<T>; N],
    /// The first items, which are initialised.
    cleared: usize,
    /// How many items the part has: at most `cleared`.
    len: usize,
}

impl<T: Copy + Default, const N: usize> Room<T, N> {
    /// Room with a part of no items.
    #[inline(always)]
    pub(crate) fn new() -> Self {
        // Without `const` the compiler copies or clears the items.
        Room { items: [const { MaybeUninit::uninit() }; N], cleared: 0, len: 0 }
    }

    /// The items of the part.
    #[inline(always)]
    pub(crate) fn items(&self) -> &[T] {
        // SAFETY: the first `len` items are initialised.
        unsafe { slice::from_raw_parts(self.items.as_ptr().cast(), self.len) }
    }

    /// Begins a part of `len` items, which have any values, for the caller to write.
    ///
    /// Panics if `len` is above `N`.
    pub(crate) fn begin(&mut self, len: usize) -> &mut [T] {
        if len > self.cleared {
            self.items[self.cleared..len].fill(MaybeUninit::new(T::default()));
            self.cleared = len;
        }
        self.len = len;
        // SAFETY: the first `len` items are initialised.
        unsafe { slice::from_raw_parts_mut(self.items.as_mut_ptr().cast(), len) }
    }

    /// Drops the items of the part from an index on.
    pub(crate) fn truncate(&mut self, len: usize) {
        self.len = self.len.min(len);
    }
}
