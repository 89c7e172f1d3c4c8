//! The slices of a caller in C: no item is at a null pointer.

#[inline(always)]
pub(crate) unsafe fn slice<'a, T>(first: *const T, len: usize) -> &'a [T] {
    if first.is_null() { &[] } else { unsafe { core::slice::from_raw_parts(first, len) } }
}

#[inline(always)]
pub(crate) unsafe fn slice_mut<'a, T>(first: *mut T, len: usize) -> &'a mut [T] {
    if first.is_null() { &mut [] } else { unsafe { core::slice::from_raw_parts_mut(first, len) } }
}
