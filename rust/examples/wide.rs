use bitpacking::set::wide::{Error, WideSet, WideSetBuf};

fn main() -> Result<(), Error> {
    let keys = WideSetBuf::pack(&[7, 1 << 40, u64::MAX])?;
    let stored = WideSet::open(keys.as_bytes())?;
    println!("from 8 on: {:?}", stored.seek(8));
    Ok(())
}
