//! The messages that an entry point reads, and what it makes of them.

use second::request::{self, IN_CELLS};
use second::{Answer, Broadcasts, Record, Request, Row};

use super::answers::{bytes_of, Told};
use super::forms::{Form, CANCEL, CANCELLED, COMPLETED};
use super::meaning::Meaning;
use super::messages::*;
use super::{any, bases, examples};
use crate::comparison::call::Call;
use crate::given::random::Random;

pub struct Family {
    pub forms: &'static [Form],
    /// Reads a message into a buffer.
    pub call: fn(Vec<u8>, Vec<u8>) -> Call,
    /// What it makes of the elements of a message with which nothing is wrong.
    pub given: fn(&Form, &[Field]) -> Meaning,
    /// The length of what it writes without cells, and with each of them.
    pub lengths: (usize, usize),
    pub examples: fn() -> Vec<examples::Example>,
    /// A message of each form that has all its elements.
    pub whole: fn() -> Vec<Frame>,
    /// A message that is read.
    pub any: fn(&mut Random) -> Frame,
}

pub const CANCELS: Family = Family {
    forms: &[CANCEL],
    call: |message, record| Call::ReadCancel { message, record },
    given: cancel,
    lengths: (Record::HEADER, Record::ITEM),
    examples: examples::cancels,
    whole: bases::whole_cancels,
    any: any::cancel,
};

pub const RESPONSES: Family = Family {
    forms: &[COMPLETED, CANCELLED],
    call: |message, answer| Call::ReadResponse { message, answer },
    given: response,
    lengths: (Answer::HEADER, Row::LENGTH),
    examples: examples::responses,
    whole: bases::whole_responses,
    any: any::response,
};

impl Family {
    pub fn form(&self, frame: &Frame) -> Option<&'static Form> {
        self.forms.iter().find(|form| (form.choice, form.code) == (frame.choice, frame.code))
    }
}

fn cancel(_: &Form, elements: &[Field]) -> Meaning {
    let mut transaction = 0;
    let request = Request { kind: request::CANCEL, ..Request::default() };
    let mut record = Record { request, items: Vec::new() };
    for element in elements {
        let request = &mut record.request;
        match &element.value {
            Value::Transaction(identifier) => transaction = u32::from(*identifier),
            Value::Requested(count) => request.requested = Broadcasts(*count),
            Value::CancelAll => request.flags += request::CANCEL_ALL,
            Value::Notification { identifier, serial, .. } => {
                request.flags += request::NOTIFICATION;
                (request.identifier, request.serial) = (*identifier, *serial);
            }
            Value::Cells(items) => {
                request.area = IN_CELLS;
                record.items = cells(items).map(|cell| cell.identity).collect();
            }
            Value::Cell(_) | Value::Octets(_) => {}
        }
    }
    match record.request.flags {
        0 => Err(7),
        _ => Ok((transaction, record.encode())),
    }
}

/// The other message's list is unknown, so that it is told by its identifier.
fn response(form: &Form, elements: &[Field]) -> Meaning {
    let mut transaction = 0;
    let mut told = Told::bare(if form.code == 20 { 1 } else { 2 });
    for element in elements.iter().filter(|element| form.elements.contains(&element.id)) {
        match &element.value {
            Value::Transaction(identifier) => transaction = u32::from(*identifier),
            Value::Cells(items) => {
                told.rows = cells(items).map(|it| (it.identity, it.count.unwrap_or(0))).collect();
            }
            _ => {}
        }
    }
    if told.rows.windows(2).any(|pair| pair[0].0 >= pair[1].0) {
        return Err(17);
    }
    Ok((transaction, bytes_of(&told)))
}

fn cells(items: &[Field]) -> impl Iterator<Item = &Cell> {
    items.iter().filter_map(|item| match &item.value {
        Value::Cell(cell) => Some(cell),
        _ => None,
    })
}
