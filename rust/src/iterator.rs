//! What the iterators over sets and columns have in common: they unpack the values part by part.

/// Defines an iterator over the values of an opened type. A part has at most as many values as the number says, and from a position on at most as many
/// as the function says. The last function writes the values from a position on.
macro_rules! iterator {
    (
        $(#[$doc:meta])* $iter:ident of $item:ty; $opened:ident, $buffer:ident, $module:ident::$code:ident, $most:expr, $from:expr, $read:expr
    ) => {
        $(#[$doc])*
        #[derive(Clone)]
        pub struct $iter<'a> {
            code: $module::$code<'a>,
            /// The positions of the next value, and of the one after the last.
            position: usize,
            end: usize,
            /// The position of the first value of the part.
            begin: usize,
            part: Room<$item, $most>,
        }

        impl<'a> $iter<'a> {
            #[inline]
            pub(super) fn new(code: $module::$code<'a>, end: usize) -> Self {
                $iter { code, position: 0, end, begin: 0, part: Room::new() }
            }

            /// The value at a position, if the part has it.
            #[inline(always)]
            fn in_part(&self, position: usize) -> Option<$item> {
                self.part.items().get(position.wrapping_sub(self.begin)).copied()
            }

            /// The values of the part from the next one on.
            fn unpacked(&self) -> &[$item] {
                let values = self.part.items();
                let from = self.position.checked_sub(self.begin).map_or(values.len(), |from| from.min(values.len()));
                &values[from..values.len().min(from.max(self.end.saturating_sub(self.begin)))]
            }

            /// Makes values from a position on the part.
            #[inline(never)]
            fn unpack(&mut self, begin: usize, len: usize) {
                self.begin = begin;
                let part = self.part.begin(len);
                ($read)(&mut self.code, begin, part);
            }
        }

        impl Iterator for $iter<'_> {
            type Item = $item;

            #[inline]
            fn next(&mut self) -> Option<$item> {
                if self.position >= self.end {
                    return None;
                }
                let mut value = self.in_part(self.position);
                if value.is_none() {
                    self.unpack(self.position, ($from)(self.position).min(self.end - self.position));
                    value = self.in_part(self.position);
                }
                self.position += 1;
                value
            }

            #[inline]
            fn size_hint(&self) -> (usize, Option<usize>) {
                let left = self.end - self.position;
                (left, Some(left))
            }

            fn nth(&mut self, n: usize) -> Option<$item> {
                self.position = self.position.saturating_add(n).min(self.end);
                self.next()
            }

            fn count(self) -> usize {
                self.len()
            }

            fn last(mut self) -> Option<$item> {
                self.nth(self.len().checked_sub(1)?)
            }

            #[inline]
            fn fold<A, F: FnMut(A, $item) -> A>(mut self, init: A, mut f: F) -> A {
                let mut folded = init;
                while let Some(value) = self.next() {
                    folded = f(folded, value);
                    let values = self.unpacked();
                    folded = values.iter().copied().fold(folded, &mut f);
                    self.position += values.len();
                }
                folded
            }
        }

        impl ExactSizeIterator for $iter<'_> {}

        impl FusedIterator for $iter<'_> {}

        impl fmt::Debug for $iter<'_> {
            fn fmt(&self, f: &mut fmt::Formatter<'_>) -> fmt::Result {
                f.debug_struct("Iter").field("left", &self.len()).finish_non_exhaustive()
            }
        }

        impl<'a> IntoIterator for &'a $opened {
            type Item = $item;
            type IntoIter = $iter<'a>;

            #[inline]
            fn into_iter(self) -> $iter<'a> {
                self.iter()
            }
        }

        impl<'a, B> IntoIterator for &'a $buffer<B> {
            type Item = $item;
            type IntoIter = $iter<'a>;

            #[inline]
            fn into_iter(self) -> $iter<'a> {
                self.iter()
            }
        }
    };
}

pub(crate) use iterator;
