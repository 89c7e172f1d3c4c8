//! The calls and the operators of two sets, which sets of 32-bit and of 64-bit ids both have.

/// The comment of an example: two sets, and a line that has both.
macro_rules! example {
    ($buf:ident in $module:literal, $($line:expr),*) => {
        concat!(
            "\n```\nuse bitpacking::", $module, "::", stringify!($buf), ";\n\nlet (cats, dogs) = (", stringify!($buf),
            "::pack(&[1, 4, 6, 9])?, ", stringify!($buf), "::pack(&[4, 6, 7])?);\n", $($line,)* "\n# Ok::<(), bitpacking::", $module,
            "::Error>(())\n```",
        )
    };
}

/// The calls of an operation: those that return a set, that write ids, and that count these. A type has a call for each, for all operations.
macro_rules! operation {
    (
        $buf:ident of $id:ident in $module:literal, $allocates:literal; $operation:ident, $sign:literal, $ids:literal, $most:literal, $fails:literal,
        $error:literal; $set:ident $try_set:ident $into:ident $len:ident; $answer:literal, $count:literal
    ) => {
        #[doc = concat!("Returns the set of the ids that ", $ids, ", also as `", $sign, "`.")]
        ///
        /// # Panics
        ///
        #[doc = concat!($fails, " an allocation fails. [`", stringify!($try_set), "`](Self::", stringify!($try_set), ") returns an error instead.")]
        #[doc = $crate::set::pairs::example!($buf in $module, "assert_eq!(cats.", stringify!($set), "(&dogs).unpack(), ", $answer, ");")]
        #[must_use]
        #[track_caller]
        pub fn $set(&self, other: &Self) -> $buf {
            self.combine(Operation::$operation, other)
        }

        #[doc = concat!("Returns the set that [`", stringify!($set), "`](Self::", stringify!($set), ") and `", $sign, "` return.")]
        ///
        /// # Errors
        ///
        #[doc = concat!($error, "`Memory`, if an allocation fails.")]
        #[doc = $crate::set::pairs::example!($buf in $module, "assert_eq!(cats.", stringify!($try_set), "(&dogs)?.unpack(), ", $answer, ");")]
        pub fn $try_set(&self, other: &Self) -> Result<$buf, Error> {
            self.try_combine(Operation::$operation, other)
        }

        #[doc = concat!("Replaces the values of a vector by the ids that ", $ids, ", in increasing order.")]
        #[doc = concat!($allocates, " if the capacity of the vector is below the ", $most, ".")]
        #[doc = $crate::set::pairs::example!(
            $buf in $module, "let mut ids = vec![8, 3];\ncats.", stringify!($into), "(&dogs, &mut ids);\nassert_eq!(ids, ", $answer, ");"
        )]
        pub fn $into(&self, other: &Self, ids: &mut Vec<$id>) {
            self.combine_into(Operation::$operation, other, ids);
        }

        #[doc = concat!("Returns how many ids ", $ids, ". Allocates nothing.")]
        #[doc = $crate::set::pairs::example!($buf in $module, "assert_eq!(cats.", stringify!($len), "(&dogs), ", $count, ");")]
        pub fn $len(&self, other: &Self) -> usize {
            self.combine_len(Operation::$operation, other)
        }
    };
}

/// The calls of all operations.
macro_rules! operations {
    ($($type:tt)*) => {
        $crate::set::pairs::operation! {
            $($type)*; And, "&", "both have", "length of the shorter set", "If", "";
            intersect try_intersect intersect_into intersect_len; "[4, 6]", "2"
        }
        $crate::set::pairs::operation! {
            $($type)*; Or, "|", "at least one of the two has", "sum of the lengths", "If there are more than 268,435,456 ids, or",
            "`TooLong`, if there are more than 268,435,456 ids; "; unite try_unite unite_into unite_len; "[1, 4, 6, 7, 9]", "5"
        }
        $crate::set::pairs::operation! {
            $($type)*; AndNot, "-", "this set has and the other lacks", "length of this set", "If", "";
            subtract try_subtract subtract_into subtract_len; "[1, 9]", "2"
        }
        $crate::set::pairs::operation! {
            $($type)*; Xor, "^", "exactly one of the two has", "sum of the lengths", "If there are more than 268,435,456 ids, or",
            "`TooLong`, if there are more than 268,435,456 ids; ";
            symmetric_difference try_symmetric_difference symmetric_difference_into symmetric_difference_len; "[1, 7, 9]", "3"
        }
    };
}

pub(crate) use {example, operation, operations};
