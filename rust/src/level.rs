//! Which copy of the proved modules runs: the build script writes two, and functions of the first one call the second, `crate::v3`, if the processor
//! has the features of the level x86-64-v3 that it was compiled with.

use core::arch::x86_64::{__cpuid, __cpuid_count, _xgetbv};
use core::sync::atomic::{AtomicU8, Ordering};

use crate::v3;

/// 0 before the processor was asked, then `FIRST` or `SECOND`. Every thread finds the same one, and reads nothing else by it.
static LEVEL: AtomicU8 = AtomicU8::new(0);
const FIRST: u8 = 1;
const SECOND: u8 = 2;

/// Whether the second copy runs.
#[inline(always)]
pub(crate) fn is_v3() -> bool {
    let level = LEVEL.load(Ordering::Relaxed);
    level == SECOND || level == 0 && ask()
}

#[cold]
#[inline(never)]
fn ask() -> bool {
    let found = has_features() && !is_held_down();
    LEVEL.store(if found { SECOND } else { FIRST }, Ordering::Relaxed);
    found
}

/// Tests of this repository run the first copy on any processor if this variable is set.
#[cfg(all(feature = "std", any(test, feature = "__source")))]
fn is_held_down() -> bool {
    std::env::var_os("BITPACKING_FIRST_COPY").is_some()
}

#[cfg(not(all(feature = "std", any(test, feature = "__source"))))]
fn is_held_down() -> bool {
    false
}

/// Whether the processor has all features of the second copy, and the system saves the registers of AVX.
#[allow(unused_unsafe)]
pub(crate) fn has_features() -> bool {
    const XSAVE_AVX_POPCNT: u32 = 1 << 26 | 1 << 27 | 1 << 28 | 1 << 23;
    const BMI1_AVX2_BMI2: u32 = 1 << 3 | 1 << 5 | 1 << 8;
    const LZCNT: u32 = 1 << 5;
    const SAVED: u64 = 1 << 1 | 1 << 2;

    #[target_feature(enable = "xsave")]
    unsafe fn saved() -> u64 {
        unsafe { _xgetbv(0) }
    }
    // SAFETY: each processor with 64 bits has `cpuid`, which is asked only for what it says that it has, and `xgetbv` if it has `xsave`.
    unsafe {
        __cpuid(0).eax >= 7
            && __cpuid(1).ecx & XSAVE_AVX_POPCNT == XSAVE_AVX_POPCNT
            && __cpuid_count(7, 0).ebx & BMI1_AVX2_BMI2 == BMI1_AVX2_BMI2
            && __cpuid(0x8000_0000).eax >= 0x8000_0001
            && __cpuid(0x8000_0001).ecx & LZCNT == LZCNT
            && saved() & SAVED == SAVED
    }
}

/// A value as the other copy has it.
pub(crate) trait Cross<To> {
    fn crossed(self) -> To;
}

#[inline(always)]
pub(crate) fn cross<From: Cross<To>, To>(value: From) -> To {
    value.crossed()
}

/// Types that both copies share.
impl<T> Cross<T> for T {
    #[inline(always)]
    fn crossed(self) -> T {
        self
    }
}

/// Types that each copy has, and whose references cross. The build script gives both the layout of C, and makes them of one source. What borrows has
/// the lifetime `'a`.
macro_rules! references {
    ($life:lifetime: $($one:ty, $other:ty;)*) => {$(
        // SAFETY, for all: both types have the same fields in one layout, and the same invariant.
        impl<'r, $life> Cross<&'r $other> for &'r $one {
            #[inline(always)]
            fn crossed(self) -> &'r $other {
                const { assert!(size_of::<$one>() == size_of::<$other>() && align_of::<$one>() == align_of::<$other>()) };
                unsafe { &*(&raw const *self).cast() }
            }
        }

        impl<'r, $life> Cross<&'r mut $other> for &'r mut $one {
            #[inline(always)]
            fn crossed(self) -> &'r mut $other {
                unsafe { &mut *(&raw mut *self).cast() }
            }
        }

        impl<'r, $life> Cross<&'r mut [$other]> for &'r mut [$one] {
            #[inline(always)]
            fn crossed(self) -> &'r mut [$other] {
                unsafe { core::slice::from_raw_parts_mut(self.as_mut_ptr().cast(), self.len()) }
            }
        }
    )*};
}

references! { 'a:
    crate::bitpacking::BitPacker8x, v3::bitpacking::BitPacker8x;
    crate::bitpacking::Steps, v3::bitpacking::Steps;
    crate::sets::Cursor<'a>, v3::sets::Cursor<'a>;
    crate::sets::IdSet<'a>, v3::sets::IdSet<'a>;
    v3::sets::Parts<'a>, crate::sets::Parts<'a>;
    crate::queries::Query<'a>, v3::queries::Query<'a>;
    crate::columns::Column<'a>, v3::columns::Column<'a>;
    v3::columns::Parts<'a>, crate::columns::Parts<'a>;
    crate::ranking::Parts<'a>, v3::ranking::Parts<'a>;
    crate::ranking::Walk, v3::ranking::Walk;
    crate::ranking::Scored, v3::ranking::Scored;
    v3::wide::Parts<'a>, crate::wide::Parts<'a>;
    crate::wide::WideSet<'a>, v3::wide::WideSet<'a>;
}

/// What opening found.
macro_rules! parts {
    ($($of:ident)*) => {$(
        impl<'a, E> Cross<Result<crate::$of::Parts<'a>, E>> for Result<v3::$of::Parts<'a>, E> {
            #[inline(always)]
            fn crossed(self) -> Result<crate::$of::Parts<'a>, E> {
                self.map(|it| *cross::<_, &crate::$of::Parts<'a>>(&it))
            }
        }
    )*};
}

parts!(columns sets wide);

// REQUIRES: the other copy has the same ids, since it reads the same bytes.
impl<T: crate::sets::AsSet> v3::sets::AsSet for T {
    #[inline(always)]
    fn as_set(&self) -> v3::sets::IdSet<'_> {
        *cross::<_, &_>(&crate::sets::AsSet::as_set(self))
    }
}

// REQUIRES: the other copy has the same word, since it reads the same bytes.
impl<T: crate::ranking::AsTerm> v3::ranking::AsTerm for T {
    #[inline(always)]
    fn ids(&self) -> v3::sets::IdSet<'_> {
        *cross::<_, &_>(&crate::ranking::AsTerm::ids(self))
    }

    #[inline(always)]
    fn counts(&self) -> v3::columns::Column<'_> {
        *cross::<_, &_>(&crate::ranking::AsTerm::counts(self))
    }

    #[inline(always)]
    fn parts(&self) -> v3::ranking::Parts<'_> {
        *cross::<_, &_>(&crate::ranking::AsTerm::parts(self))
    }
}
