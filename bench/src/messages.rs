//! The messages of the workloads: a PWS CANCEL REQUEST of a text in so many cells, as it comes from
//! the wire, and the PWS CANCEL RESPONSE to it.

use second::{CellIdentity, Row};

use crate::tables::{IDENTIFIER, SERIAL};

pub const TRANSACTION: u8 = 7;

const TRANSACTION_ID: u16 = 78;
const REQUESTED: u16 = 142;
const NOTIFICATION: u16 = 220;
/// Initiating message and successful outcome, PWS cancel, reject.
const REQUEST: [u8; 3] = [0, 21, 0];
const RESPONSE: [u8; 3] = [0x40, 21, 0];

/// A list's own id and that of its items.
struct List {
    id: u16,
    item: u16,
}

const TO_BE_CANCELLED: List = List { id: 148, item: 149 };
const CANCELLED: List = List { id: 150, item: 151 };

/// Behind its length, in the form that the length has.
fn open_type(contents: &[u8]) -> Vec<u8> {
    let length = contents.len() as u16;
    let bytes = (length | 0x8000).to_be_bytes();
    let written = if length < 0x80 { vec![length as u8] } else { bytes.to_vec() };
    [&written[..], contents].concat()
}

/// Marked reject, as all of these are.
fn element(id: u16, contents: &[u8]) -> Vec<u8> {
    [&id.to_be_bytes()[..], &[0], &open_type(contents)].concat()
}

/// PLMN and cell, between no extensions and four bits of padding.
fn cell(number: u64) -> Vec<u8> {
    const PADDING: u32 = u64::BITS - CellIdentity::PLMN_WIDTH - CellIdentity::PART_WIDTH;
    [&[0], &(number << PADDING).to_be_bytes()[..]].concat()
}

fn transaction() -> Vec<u8> {
    element(TRANSACTION_ID, &[0, TRANSACTION])
}

impl List {
    /// Left out if it has no items.
    fn of(&self, items: &[Vec<u8>]) -> Option<Vec<u8>> {
        let less_one = (items.len().checked_sub(1)? as u16).to_be_bytes();
        let items: Vec<u8> = items.iter().flat_map(|item| element(self.item, item)).collect();
        Some(element(self.id, &[&less_one[..], &items].concat()))
    }
}

/// Identifier and serial number, behind two bits and before six.
fn notification() -> Vec<u8> {
    let bits = u64::from(IDENTIFIER) << 22 | u64::from(SERIAL) << 6;
    element(NOTIFICATION, &bits.to_be_bytes()[3..])
}

fn message(frame: [u8; 3], elements: &[Vec<u8>]) -> Vec<u8> {
    let count = (elements.len() as u16).to_be_bytes();
    let value = [&[0], &count[..], &elements.concat()].concat();
    [&frame[..], &open_type(&value)].concat()
}

/// In these cells, or everywhere if there is none.
pub fn cancel(cells: &[u64]) -> Vec<u8> {
    let items: Vec<Vec<u8>> = cells.iter().copied().map(cell).collect();
    let mut elements = vec![transaction(), element(REQUESTED, &[0, 3])];
    elements.extend(TO_BE_CANCELLED.of(&items));
    elements.push(notification());
    message(REQUEST, &elements)
}

/// Each cell with the count of its broadcasts.
pub fn cancel_response(rows: &[Row]) -> Vec<u8> {
    let item = |row: &Row| [&cell(row.identity.number())[..], &row.count.0.to_be_bytes()].concat();
    let items: Vec<Vec<u8>> = rows.iter().map(item).collect();
    let mut elements = vec![transaction()];
    elements.extend(CANCELLED.of(&items));
    message(RESPONSE, &elements)
}
