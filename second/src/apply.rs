//! Applying one request to a table, with one answer.

use crate::answer::Answer;
use crate::area::Area;
use crate::layout::Layout;
use crate::order::Order;
use crate::record::Record;
use crate::refusal::{lay, Done, Refusal};
use crate::table::Table;

/// Tests 1 to 8; a refusal writes nothing.
pub fn apply(table: &mut [u8], record: &[u8], answer: &mut [u8]) -> Done {
    apply_in(&Layout::CURRENT, table, record, answer)
}

/// The same as a unit of this layout's version does it: to tables of that version alone, by records
/// of that version or an older one.
pub fn apply_in(layout: &Layout, table: &mut [u8], record: &[u8], answer: &mut [u8]) -> Done {
    answered(layout, table, record, answer.len())
        .and_then(|written| lay(&written.encode(), answer))
        .into()
}

/// Changes the table and gives the answer, for which there are `room` bytes.
pub(crate) fn answered(
    layout: &Layout,
    table: &mut [u8],
    record: &[u8],
    room: usize,
) -> Result<Answer, Refusal> {
    let cells = Table::parse_in(layout, table)?.cells;
    let record = Record::parse_in(layout, record)?;
    let request = &record.request;
    if room < Answer::room(request.kind, cells.len()) {
        return Err(Refusal::Room);
    }
    let (area, order) = (Area::of(&record), Order::of(request));
    let mut rows = Vec::new();
    for (mut cell, part) in cells.into_iter().zip(Table::parts_mut(layout, table)) {
        // Only the bytes "of a reached cell may be written".
        if area.reaches(&cell.head) {
            rows.extend(order.happen(&mut cell));
            part.copy_from_slice(&cell.encode(layout));
        }
    }
    Ok(Answer { kind: request.kind, identifier: request.identifier, serial: request.serial, rows })
}
