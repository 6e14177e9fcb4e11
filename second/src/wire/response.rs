//! Document 02's answers on the wire: an answer becomes a PWS CANCEL RESPONSE or a WRITE-REPLACE
//! WARNING RESPONSE, and such a message becomes an answer.

use super::forms::*;
use super::pen::Pen;
use super::tree::{Criticality, Item, Tree, Value};
use super::{decoded, Message};
use crate::answer::{Answer, Row};
use crate::cell::CellIdentity;
use crate::fields::strictly_ascending;
use crate::place::Broadcasts;
use crate::refusal::{lay, Done, Refusal};
use crate::request::WRITE_REPLACE;
use crate::table::Table;

/// The message that answers with this answer and transaction identifier is laid at the start of the
/// buffer, and the bytes behind it stay. Tests 17, 8.
pub fn write_response(answer: &[u8], transaction: u8, message: &mut [u8]) -> Done {
    judged(answer)
        .ok_or(Refusal::NoSuchAnswer)
        .and_then(|(form, answer)| lay(&encoded(form, transaction, &answer.rows), message))
        .into()
}

/// The answer that a message gives is laid at the start of the buffer, and the bytes behind it
/// stay. Tests 13, 14, 15, 16, 17, 8.
pub fn read_response(message: &[u8], answer: &mut [u8]) -> Message {
    decoded(message, &RESPONSES)
        .and_then(|(form, tree)| {
            let Response { transaction, rows } = Response::of(&tree)?;
            let given = Answer { kind: form.kind, identifier: 0, serial: 0, rows };
            Ok((transaction, lay(&given.encode(), answer)?))
        })
        .into()
}

/// An answer, and the form of its response; `None` "for bytes that no accepted Write-Replace or
/// Cancel could have as its answer under any table".
fn judged(answer: &[u8]) -> Option<(&'static Form, Answer)> {
    let answer = Answer::parse(answer)?;
    let form = RESPONSES.iter().find(|form| form.kind == answer.kind)?;
    // "The count in each row is 0" of a start, and of a cancel any; content is for a second's rows.
    let is_possible = |row: &Row| {
        row.content == 0 && (answer.kind != WRITE_REPLACE || row.count == Broadcasts(0))
    };
    let is_given = answer.rows.len() <= *Table::CELLS.end()
        && cells_ascend(&answer.rows)
        && answer.rows.iter().all(is_possible);
    is_given.then_some((form, answer))
}

fn cells_ascend(rows: &[Row]) -> bool {
    strictly_ascending(&rows.iter().map(|row| row.identity).collect::<Vec<_>>())
}

/// What a message tells.
struct Response {
    transaction: u32,
    rows: Vec<Row>,
}

impl Response {
    fn of(tree: &Tree) -> Result<Response, Refusal> {
        let mut response = Response { transaction: 0, rows: Vec::new() };
        for value in tree.values() {
            match value {
                Value::Transaction(identifier) => response.transaction = *identifier as u32,
                Value::Cells(items) => response.rows = items.iter().filter_map(row).collect(),
                _ => {}
            }
        }
        cells_ascend(&response.rows).then_some(response).ok_or(Refusal::NoSuchAnswer)
    }
}

fn row(item: &Item) -> Option<Row> {
    let cell = item.cell()?;
    let identity = CellIdentity::from_number(cell.identity)?;
    Some(Row { identity, count: Broadcasts(cell.count as u16), content: 0 })
}

/// The message, with every criticality as F1AP assigns it.
fn encoded(form: &Form, transaction: u8, rows: &[Row]) -> Vec<u8> {
    let contents = |known: &Known| Some((known.id, contents(known.contents, transaction, rows)?));
    let elements: Vec<(u64, Vec<u8>)> = form.elements.iter().filter_map(contents).collect();
    let value = Pen::written(|pen| {
        pen.not_extended();
        pen.sequence_of(ELEMENTS, &elements, |pen, (id, contents)| field(pen, *id, contents));
    });
    Pen::written(|pen| {
        pen.whole_number(CHOICES, form.choice);
        pen.whole_number(CODES, form.code);
        marked_value(pen, &value);
    })
}

/// What an element has in it; `None` of one that the response has not. "A list with no rows is left
/// out."
fn contents(contents: Contents, transaction: u8, rows: &[Row]) -> Option<Vec<u8>> {
    match contents {
        Contents::Transaction => Some(Pen::written(|pen| {
            pen.not_extended();
            pen.whole_number(TRANSACTIONS, transaction.into());
        })),
        Contents::Cells(listed) if !rows.is_empty() => Some(Pen::written(|pen| {
            pen.sequence_of(CELLS, rows, |pen, row| field(pen, listed.id, &item(listed, row)));
        })),
        _ => None,
    }
}

fn item(listed: Listed, row: &Row) -> Vec<u8> {
    let identity = row.identity.number();
    Pen::written(|pen| {
        bare_sequence(pen);
        bare_sequence(pen);
        pen.octet_string(CellIdentity::PLMN_WIDTH / 8, identity >> CellIdentity::PART_WIDTH);
        pen.bit_string(CellIdentity::PART_WIDTH, identity);
        if listed.is_counted {
            pen.whole_number(COUNTS, row.count.0.into());
        }
    })
}

/// What opens an item, and its NR CGI: it is not extended, and its iE-Extensions are not there.
fn bare_sequence(pen: &mut Pen) {
    pen.not_extended();
    pen.bits(1, 0);
}

/// An element or an item.
fn field(pen: &mut Pen, id: u64, contents: &[u8]) {
    pen.whole_number(IDS, id);
    marked_value(pen, contents);
}

fn marked_value(pen: &mut Pen, contents: &[u8]) {
    pen.bits(2, Criticality::Reject as u64);
    pen.open_type(contents);
}
