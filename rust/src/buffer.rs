//! What opened sets and columns have in common: they are there behind a reference, and a buffer owns or borrows their bytes.

/// Defines an opened type and its buffer.
///
/// The opened type is only there behind a reference, as a `str` is. Its lifetime says `'static`, and lasts as long as the reference: so it has neither
/// `Clone` nor `Copy`, and no function returns one.
macro_rules! buffer {
    (
        $(#[$doc:meta])* $opened:ident of $code:path, $error:ty, $empty:expr;
        $(#[$buffer_doc:meta])* $buffer:ident
    ) => {
        $(#[$doc])*
        pub struct $opened {
            bytes: &'static [u8],
            code: $code,
        }

        $(#[$buffer_doc])*
        pub struct $buffer<B = Vec<u8>> {
            opened: $opened,
            bytes: B,
        }

        impl $opened {
            #[doc = concat!("Returns the bytes of the encoding. [`open`](", stringify!($opened), "::open) accepts them.")]
            #[inline]
            pub fn as_bytes(&self) -> &[u8] {
                self.bytes
            }
        }

        impl<B: StableBytes> $buffer<B> {
            /// The buffer of opened bytes.
            fn of(bytes: B, open: impl FnOnce(&'static [u8]) -> Result<$code, $error>) -> Result<Self, $error> {
                let borrowed: *const [u8] = bytes.as_ref();
                // SAFETY: the buffer has the bytes as long as the borrow lasts, which is no longer than one of the buffer, and they do not move,
                // as the trait promises.
                let borrowed: &'static [u8] = unsafe { &*borrowed };
                Ok($buffer { opened: $opened { bytes: borrowed, code: open(borrowed)? }, bytes })
            }

            #[doc = concat!("Opens bytes and owns them, as [`", stringify!($opened), "::open`] opens them.")]
            ///
            /// # Errors
            ///
            /// The first fault of the bytes, which are dropped then.
            pub fn open(bytes: B) -> Result<Self, $error> {
                $buffer::of(bytes, <$code>::open)
            }

            /// Returns the bytes.
            pub fn into_bytes(self) -> B {
                self.bytes
            }
        }

        impl<B> Deref for $buffer<B> {
            type Target = $opened;

            #[inline]
            fn deref(&self) -> &$opened {
                &self.opened
            }
        }

        impl<B> AsRef<$opened> for $buffer<B> {
            fn as_ref(&self) -> &$opened {
                self
            }
        }

        impl<B> Borrow<$opened> for $buffer<B> {
            fn borrow(&self) -> &$opened {
                self
            }
        }

        impl AsRef<[u8]> for $opened {
            fn as_ref(&self) -> &[u8] {
                self.bytes
            }
        }

        impl<B> AsRef<[u8]> for $buffer<B> {
            fn as_ref(&self) -> &[u8] {
                self.as_bytes()
            }
        }

        impl<B: ClonedBytes> Clone for $buffer<B> {
            fn clone(&self) -> Self {
                let bytes = self.bytes.clone();
                // REQUIRES: the bytes have no fault: the clone has those that were tested.
                $buffer::of(bytes, |bytes| Ok(<$code>::of_tested(bytes))).expect("bytes that were tested have no fault")
            }
        }

        impl ToOwned for $opened {
            type Owned = $buffer;

            fn to_owned(&self) -> $buffer {
                // REQUIRES: the bytes have no fault, as they were tested.
                $buffer::of(self.bytes.to_vec(), |bytes| Ok(<$code>::of_tested(bytes))).expect("bytes that were tested have no fault")
            }
        }

        impl Default for $buffer {
            /// Returns the empty one.
            fn default() -> Self {
                $buffer::open($empty.to_vec()).expect("the bytes have no fault")
            }
        }

        impl TryFrom<Vec<u8>> for $buffer {
            type Error = $error;

            fn try_from(bytes: Vec<u8>) -> Result<Self, $error> {
                $buffer::open(bytes)
            }
        }

        impl<'a> TryFrom<&'a [u8]> for $buffer<&'a [u8]> {
            type Error = $error;

            fn try_from(bytes: &'a [u8]) -> Result<Self, $error> {
                $buffer::open(bytes)
            }
        }

        // An encoding is canonical: equal values have equal bytes.
        impl PartialEq for $opened {
            fn eq(&self, other: &Self) -> bool {
                self.bytes == other.bytes
            }
        }

        impl Eq for $opened {}

        impl Hash for $opened {
            fn hash<H: Hasher>(&self, state: &mut H) {
                self.bytes.hash(state);
            }
        }

        impl<B, C> PartialEq<$buffer<C>> for $buffer<B> {
            fn eq(&self, other: &$buffer<C>) -> bool {
                **self == **other
            }
        }

        impl<B> PartialEq<$opened> for $buffer<B> {
            fn eq(&self, other: &$opened) -> bool {
                **self == *other
            }
        }

        impl<B> PartialEq<$buffer<B>> for $opened {
            fn eq(&self, other: &$buffer<B>) -> bool {
                *self == **other
            }
        }

        impl<B> Eq for $buffer<B> {}

        impl<B> Hash for $buffer<B> {
            fn hash<H: Hasher>(&self, state: &mut H) {
                (**self).hash(state);
            }
        }

        impl<B> fmt::Debug for $buffer<B> {
            fn fmt(&self, f: &mut fmt::Formatter<'_>) -> fmt::Result {
                (**self).fmt(f)
            }
        }
    };
}

pub(crate) use buffer;
