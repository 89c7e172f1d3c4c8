//! Errors as errors of `std::io`, so that a function that reads a file can return `io::Result`.

use std::io::{Error, ErrorKind};

use crate::{chain, column, ranked, set};

macro_rules! errors {
    ($($error:ty: $kind:ident),*) => {
        $(impl From<$error> for Error {
            #[doc = concat!("The kind is `", stringify!($kind), "`.")]
            fn from(error: $error) -> Self {
                Error::new(ErrorKind::$kind, error)
            }
        })*
    };
}

errors!(chain::Error: InvalidData, column::Error: InvalidData, ranked::Error: InvalidData, set::Error: InvalidData);
errors!(column::OutOfBounds: InvalidInput, set::OpenError: InvalidData, set::QueryError: InvalidInput, set::wide::Error: InvalidData);
