//! Bitmaps in Roaring's portable format: the sets that they become, and which bytes are refused.

use bitpacking::roaring::{roaring_room, set_from_roaring, test_roaring};
use bitpacking::sets::encode;
use bitpacking::slices::SetError;

use crate::report::Report;
use crate::rows::Row;

/// How many bytes are after those that a set writes.
const MORE: usize = 3;

pub fn read(row: &Row, report: &mut Report) {
    let (ids, bytes) = (row.ids("ids"), row.bytes("bytes"));
    report.check(&row.name, "test_roaring", test_roaring(&bytes), Ok(ids.len()));
    let mut right = Vec::new();
    report.check(&row.name, "encode", encode(&ids, &mut right), Ok(()));
    let room = roaring_room(&bytes).unwrap_or(0);
    let mut set = vec![0xA5; right.len() + MORE];
    report.check(&row.name, "set_from_roaring", set_from_roaring(&bytes, &mut vec![u32::MAX; room], &mut set), Ok(right.len()));
    report.check(&row.name, "the set", set[..right.len()] == right, true);
    set.truncate(right.len());
    report.check(&row.name, "without more room", set_from_roaring(&bytes, &mut vec![u32::MAX; room], &mut set), Ok(right.len()));
    report.check(&row.name, "the set without more room", set == right, true);
    let short = set_from_roaring(&bytes, &mut vec![u32::MAX; room], &mut set[1..]);
    report.check(&row.name, "with a byte less", short, Err(SetError::Short));
    if room > 0 {
        let lent = set_from_roaring(&bytes, &mut vec![u32::MAX; room - 1], &mut set);
        report.check(&row.name, "with an item less", lent, Err(SetError::Short));
    }
}

pub fn refused(row: &Row, report: &mut Report) {
    let bytes = row.bytes("bytes");
    let right = (row.number("number"), row.text("fault").to_string());
    let named = |fault: Option<SetError>| fault.map_or((0, "-".to_string()), |it| (it.number().into(), format!("{it:?}")));
    report.check(&row.name, "test_roaring", named(test_roaring(&bytes).err()), right.clone());
    let found = set_from_roaring(&bytes, &mut vec![0; 4 * 65_536], &mut vec![0; 100_000]).err();
    report.check(&row.name, "set_from_roaring", named(found), right);
}
