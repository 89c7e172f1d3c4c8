//! Vectors that grow, or say that there is no memory.

use alloc::collections::TryReserveError;
use alloc::vec;
use alloc::vec::Vec;

/// There is no memory.
#[derive(Debug, Clone, Copy, PartialEq, Eq)]
pub struct AllocError;

impl core::fmt::Display for AllocError {
    fn fmt(&self, f: &mut core::fmt::Formatter<'_>) -> core::fmt::Result {
        f.write_str("no memory")
    }
}

impl core::error::Error for AllocError {}

impl From<TryReserveError> for AllocError {
    fn from(_: TryReserveError) -> AllocError {
        AllocError
    }
}

/// What a vector does if there is memory.
pub(crate) trait Growing<T> {
    fn try_push(&mut self, value: T) -> Result<(), AllocError>;

    fn try_extend_from_slice(&mut self, values: &[T]) -> Result<(), AllocError>;

    fn try_resize(&mut self, len: usize, value: T) -> Result<(), AllocError>;
}

impl<T: Copy> Growing<T> for Vec<T> {
    #[inline(always)]
    fn try_push(&mut self, value: T) -> Result<(), AllocError> {
        if self.len() == self.capacity() {
            self.try_reserve(1)?;
        }
        self.push(value);
        Ok(())
    }

    #[inline(always)]
    fn try_extend_from_slice(&mut self, values: &[T]) -> Result<(), AllocError> {
        self.try_reserve(values.len())?;
        self.extend_from_slice(values);
        Ok(())
    }

    #[inline(always)]
    fn try_resize(&mut self, len: usize, value: T) -> Result<(), AllocError> {
        self.try_reserve(len.saturating_sub(self.len()))?;
        self.resize(len, value);
        Ok(())
    }
}

/// Makes a vector as long as a call needs, which then writes all its values.
pub(crate) fn resize<T: Copy + Default>(values: &mut Vec<T>, len: usize) {
    if values.capacity() < len {
        // The zeros of new memory are free.
        *values = vec![T::default(); len];
    } else {
        values.resize(len, T::default());
    }
}
