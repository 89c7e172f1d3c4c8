//! A set over bytes that others hold too, of a type of one's own.

use std::sync::Arc;

use bitpacking::StableBytes;
use bitpacking::set::{Error, IdSetBuf};

struct Shared(Arc<Vec<u8>>);

impl AsRef<[u8]> for Shared {
    fn as_ref(&self) -> &[u8] {
        &self.0
    }
}

// SAFETY: nothing changes the bytes, and they do not move with the `Arc`.
unsafe impl StableBytes for Shared {}

fn main() -> Result<(), Error> {
    let bytes = Arc::new(vec![0x84, 7, 9, 1, 0, 0x84, 4]);
    let ids = IdSetBuf::open(Shared(bytes.clone()))?;
    drop(bytes);
    println!("{:?}", ids.unpack());
    Ok(())
}
