//! Blocks: the least width, the bytes and the values, by the fastest kernel of a packer and by the scalar one.

use bitpacking::bitpacking::{BitPacker, BitPacker4x, BitPacker8x, Kind, MAX_BLOCK_LEN, MAX_BLOCK_SIZE, MAX_WIDTH};

use crate::report::Report;
use crate::rows::{Row, with_packer};

/// What is there before a call, and has to be there after it behind the answer.
const REST: u8 = 0xa5;

pub fn packed(row: &Row, report: &mut Report) {
    with_packer!(row.lanes(), packer, packed_by(&packer, "", row, report));
    match row.lanes() {
        4 => packed_by(&BitPacker4x::scalar(), " (scalar)", row, report),
        8 => packed_by(&BitPacker8x::scalar(), " (scalar)", row, report),
        _ => {}
    }
}

fn packed_by<P: BitPacker>(packer: &P, by: &str, row: &Row, report: &mut Report) {
    let (kind, width) = (row.kind(), row.number("width") as u8);
    let (values, bytes) = (row.numbers("values"), row.bytes("bytes"));
    let least = row.number(if row.has("least") { "least" } else { "width" }) as u8;
    report.check(&row.name, &format!("width{by}"), packer.num_bits_kind(kind, &values), least);

    let mut written = [REST; MAX_BLOCK_SIZE + 8];
    let size = packer.compress_kind(kind, &values, &mut written, width);
    report.check(&row.name, &format!("bytes{by}"), &written[..size], &bytes[..]);
    report.check(&row.name, &format!("bytes after{by}"), written[size..].iter().all(|it| *it == REST), true);

    let mut read = [u32::from(REST); MAX_BLOCK_LEN + 8];
    let size = packer.decompress_kind(kind, &bytes, &mut read, width);
    report.check(&row.name, &format!("bytes read{by}"), size, bytes.len());
    report.check(&row.name, &format!("values{by}"), &read[..values.len()], &values[..]);
    report.check(&row.name, &format!("values after{by}"), read[values.len()..].iter().all(|it| *it == u32::from(REST)), true);
}

/// What the caller of a packer tests, by the numbers of docs/LINES.md.
pub fn refused(row: &Row, report: &mut Report) {
    let (width, number) = (row.number("width"), row.number("number"));
    let found = with_packer!(row.lanes(), packer, fault(&packer, row.text("call"), row.kind(), width, row));
    report.check(&row.name, "refusal", found, number);
}

fn fault<P: BitPacker>(packer: &P, call: &str, kind: Kind, width: usize, row: &Row) -> usize {
    let is_wide = width > MAX_WIDTH as usize;
    if call == "unpack" {
        let size = P::compressed_block_size(width as u8);
        return if is_wide {
            3
        } else if row.bytes("given").len() != size {
            5
        } else {
            0
        };
    }
    let values = row.numbers("given");
    match () {
        _ if values.len() != P::BLOCK_LEN => 2,
        _ if is_wide => 3,
        _ if usize::from(packer.num_bits_kind(kind, &values)) > width => 4,
        _ => 0,
    }
}
