use bitpacking::set::{Error, IdSet, IdSetBuf};

fn main() -> Result<(), Error> {
    let (cats, dogs) = (IdSetBuf::pack(&[7, 9, 10, 300])?, IdSetBuf::pack(&[9, 11, 300])?);
    let ids = IdSet::open(cats.as_bytes())?;
    println!("from 100 on: {:?}, in both: {:?}", ids.seek(100), (&ids & &dogs).unpack());
    Ok(())
}
