//! Operators of sets: `&`, `|`, `-` and `^` of references and of sets that they consume, in all mixtures of sets that own their bytes and that
//! borrow them.

use core::ops::{BitAnd, BitAndAssign, BitOr, BitOrAssign, BitXor, BitXorAssign, Sub, SubAssign};

use super::wide::{WideSet, WideSetBuf};
use super::{IdSet, IdSetBuf};
use crate::slices::Operation;

/// An operator of each pair of types.
macro_rules! pairs {
    ($buf:ident, $operation:expr, $trait:ident $name:ident, $tried:expr; $([$($bytes:ident),*] $one:ty, $other:ty;)*) => {
        $(
            #[doc = concat!("Panics if [`", $tried, "`] would return an error.")]
            impl<$($bytes),*> $trait<$other> for $one {
                type Output = $buf;

                #[track_caller]
                fn $name(self, other: $other) -> $buf {
                    self.combine($operation, &other)
                }
            }
        )*
    };
}

/// An operator that changes a set, by each type.
macro_rules! assigned {
    ($buf:ident, $operation:expr, $trait:ident $name:ident, $tried:expr; $([$($bytes:ident)?] $other:ty;)*) => {
        $(
            #[doc = concat!("Panics if [`", $tried, "`] would return an error. The set is then unchanged.")]
            impl<$($bytes)?> $trait<$other> for $buf {
                #[track_caller]
                fn $name(&mut self, other: $other) {
                    *self = self.combine($operation, &other);
                }
            }
        )*
    };
}

macro_rules! operator {
    ($set:ident $buf:ident, $operation:expr, $trait:ident $name:ident, $assign_trait:ident $assign_name:ident, $tried:literal) => {
        pairs!($buf, $operation, $trait $name, concat!(stringify!($set), "::", $tried);
            [] &$set, &$set; [C] &$set, &$buf<C>; [C] &$set, $buf<C>;
            [B] &$buf<B>, &$set; [B, C] &$buf<B>, &$buf<C>; [B, C] &$buf<B>, $buf<C>;
            [B] $buf<B>, &$set; [B, C] $buf<B>, &$buf<C>; [B, C] $buf<B>, $buf<C>;
        );
        assigned!($buf, $operation, $assign_trait $assign_name, concat!(stringify!($set), "::", $tried);
            [] &$set; [C] &$buf<C>; [C] $buf<C>;);
    };
}

macro_rules! operators {
    ($set:ident $buf:ident) => {
        operator!($set $buf, Operation::And, BitAnd bitand, BitAndAssign bitand_assign, "try_intersect");
        operator!($set $buf, Operation::Or, BitOr bitor, BitOrAssign bitor_assign, "try_unite");
        operator!($set $buf, Operation::AndNot, Sub sub, SubAssign sub_assign, "try_subtract");
        operator!($set $buf, Operation::Xor, BitXor bitxor, BitXorAssign bitxor_assign, "try_symmetric_difference");
    };
}

operators!(IdSet IdSetBuf);
operators!(WideSet WideSetBuf);
