use bitpacking::column::{Column, ColumnBuf, Error, Kind};

fn main() -> Result<(), Error> {
    let prices = ColumnBuf::pack(Kind::Plain, &[250, 199, 205, 1200])?;
    let column = Column::open(prices.as_bytes())?;
    println!("row 2: {:?}", column.get(2));
    println!("rows below 210: {:?}", column.positions_between(..210).collect::<Vec<_>>());
    Ok(())
}
