//! Lists: from values to bytes and back, what is refused, from version 1 to 2, searches, and what two lists share.

use bitpacking::bitpacking::BitPacker;
use bitpacking::lists::list2::{PackedList, Reads, intersect};
use bitpacking::lists::{ListError, list, list2};

use crate::report::Report;
use crate::rows::{Row, with_packer};

pub fn version1(row: &Row, report: &mut Report) {
    let (kind, values, bytes) = (row.list_kind(), row.numbers("values"), row.bytes("bytes"));
    let (mut written, mut read) = (Vec::new(), Vec::new());
    let wrote = with_packer!(row.lanes(), packer, list::encode(&packer, kind, &values, &mut written));
    report.check(&row.name, "text", wrote.map(|()| written), Ok(bytes.clone()));
    let found = with_packer!(row.lanes(), packer, list::decode(&packer, &bytes, &mut read));
    report.check(&row.name, "kind", found, Ok(kind));
    report.check(&row.name, "values", read, values);
}

pub fn version2(row: &Row, report: &mut Report) {
    with_packer!(row.lanes(), packer, version2_by(packer, row, report));
}

fn version2_by<P: BitPacker>(packer: P, row: &Row, report: &mut Report) {
    let (kind, values, bytes) = (row.list_kind(), row.numbers("values"), row.bytes("bytes"));
    let mut written = Vec::new();
    let wrote = list2::encode(&packer, kind, &values, &mut written);
    report.check(&row.name, "text", wrote.map(|()| written), Ok(bytes.clone()));
    let list = match PackedList::open(packer, &bytes) {
        Ok(list) => list,
        Err(fault) => return report.check(&row.name, "open", Some(fault), None),
    };
    let mut read = Vec::new();
    report.check(&row.name, "append_to", list.append_to(&mut read), Ok(()));
    report.check(&row.name, "append_to", &read, &values);
    report.check(&row.name, "kind and length", (list.kind(), list.len()), (kind, values.len()));
    for at in 0..=values.len() {
        report.check(&row.name, &format!("get({at})"), list.get(at), values.get(at).copied());
    }
}

pub fn refused1(row: &Row, report: &mut Report) {
    let mut read = Vec::new();
    let fault = with_packer!(row.lanes(), packer, list::decode(&packer, &row.bytes("bytes"), &mut read).err());
    check_fault(row, fault, report);
    report.check(&row.name, "values", read, vec![]);
}

pub fn refused2(row: &Row, report: &mut Report) {
    let bytes = row.bytes("bytes");
    check_fault(row, with_packer!(row.lanes(), packer, PackedList::open(packer, &bytes).err()), report);
}

/// A fault is spelled as Rust shows it.
fn check_fault(row: &Row, fault: Option<ListError>, report: &mut Report) {
    let found = fault.map_or((0, "-".to_string()), |it| (it.number().into(), format!("{it:?}")));
    report.check(&row.name, "fault", found, (row.number("number"), row.text("fault").to_string()));
}

/// Values that are out of order.
pub fn refused_values(row: &Row, report: &mut Report) {
    let (kind, values, position) = (row.list_kind(), row.numbers("values"), row.number("position"));
    let mut text = Vec::new();
    let found = with_packer!(row.lanes(), packer, list2::encode(&packer, kind, &values, &mut text));
    report.check(&row.name, "refusal", found, Err(ListError::NotSorted(position)));
    report.check(&row.name, "text", text, vec![]);
}

pub fn upgraded(row: &Row, report: &mut Report) {
    let mut text = Vec::new();
    let fault = with_packer!(row.lanes(), packer, list2::upgrade(&packer, &row.bytes("bytes"), &mut text).err());
    check_fault(row, fault, report);
    report.check(&row.name, "text", text, row.bytes("upgraded"));
}

pub fn sought(row: &Row, report: &mut Report) {
    let bytes = row.bytes("bytes");
    with_packer!(row.lanes(), packer, sought_in(&opened(packer, &bytes), row, report));
}

fn opened<P: BitPacker>(packer: P, bytes: &[u8]) -> PackedList<'_, P> {
    PackedList::open(packer, bytes).unwrap_or_else(|fault| panic!("{fault:?}"))
}

fn sought_in<P: BitPacker>(list: &PackedList<'_, P>, row: &Row, report: &mut Report) {
    let (targets, found) = (row.numbers("targets"), row.text("found").split(','));
    report.check(&row.name, "how many are found", found.clone().count(), targets.len());
    for (target, right) in targets.into_iter().zip(found) {
        let first = list.seek(target, &mut Reads::new());
        let first = first.map_or("none".to_string(), |(position, value)| format!("{position}:{value}"));
        report.check(&row.name, &format!("seek({target})"), first, right.to_string());
    }
}

pub fn intersected(row: &Row, report: &mut Report) {
    let (bytes, others) = (row.bytes("bytes"), row.bytes("other_bytes"));
    let (mut found, mut exchanged) = (Vec::new(), Vec::new());
    with_packer!(row.number("lanes"), packer, {
        let one = opened(packer, &bytes);
        with_packer!(row.number("other_lanes"), other, {
            let two = opened(other, &others);
            intersect(&one, &two, &mut found, &mut Reads::new(), &mut Reads::new()).expect("memory");
            intersect(&two, &one, &mut exchanged, &mut Reads::new(), &mut Reads::new()).expect("memory");
        })
    });
    report.check(&row.name, "intersect", found, row.numbers("shared"));
    report.check(&row.name, "intersect, exchanged", exchanged, row.numbers("shared"));
}
