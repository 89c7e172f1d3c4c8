//! A set that changes often, read from a bitmap of Roaring: a large base, and the ids that came and went since.

use bitpacking::set::{IdSet, IdSetBuf, Query, QueryError};
use std::error::Error;

#[derive(Default)]
struct Changing {
    base: IdSetBuf,
    added: IdSetBuf,
    removed: IdSetBuf,
}

impl Changing {
    fn insert(&mut self, ids: &IdSet) {
        self.added |= ids;
        self.removed -= ids;
    }

    fn remove(&mut self, ids: &IdSet) {
        self.removed |= ids;
        self.added -= ids;
    }

    fn query(&self) -> Query<'_> {
        Query::from(&self.base).or(&self.added).and_not(&self.removed)
    }

    fn compact(&mut self) -> Result<(), QueryError> {
        *self = Changing { base: self.query().pack()?, ..Changing::default() };
        Ok(())
    }
}

fn main() -> Result<(), Box<dyn Error>> {
    // 0 to 9, as CRoaring and the crate `roaring` write them.
    let bitmap = [0x3B, 0x30, 0, 0, 1, 0, 0, 9, 0, 1, 0, 0, 0, 9, 0];
    let base = IdSetBuf::from_roaring(&bitmap)?;
    let mut ids = Changing { base, ..Changing::default() };
    ids.insert(&IdSetBuf::from([12, 20]));
    ids.remove(&IdSetBuf::from([4, 20]));
    let asked = IdSetBuf::from([3, 4, 12, 20]);
    println!("{:?}", ids.query().and(&asked).ids()?.collect::<Vec<_>>());
    ids.compact()?;
    println!("{} ids, {} changes", ids.base.len(), ids.added.len() + ids.removed.len());
    Ok(())
}
