//! Document 02's cancels that come straight from the wire: what a PWS CANCEL REQUEST asks for
//! becomes a record.

use super::forms::CANCEL_REQUEST;
use super::tree::{Item, Tree, Value};
use super::{decoded, Message};
use crate::place::Broadcasts;
use crate::record::written;
use crate::request::{Request, CANCEL_ALL, IN_CELLS, NOTIFICATION};

/// "The result is a Cancel record plus the transaction identifier." The record is laid at the start
/// of the buffer, and the bytes behind it stay. Tests 13, 14, 15, 16, 7, 8.
pub fn read_cancel(message: &[u8], record: &mut [u8]) -> Message {
    decoded(message, &[CANCEL_REQUEST])
        .and_then(|(form, tree)| {
            let Cancel { transaction, request, cells } = Cancel::of(form.kind, &tree);
            Ok((transaction, written(request, &cells, record)?))
        })
        .into()
}

/// What a message asks for.
struct Cancel {
    transaction: u32,
    request: Request,
    cells: Vec<u64>,
}

impl Cancel {
    /// "flags 2 cancel-all, 4 notification present"; a list is area 1, with the cells as they came.
    fn of(kind: u8, tree: &Tree) -> Cancel {
        let request = Request { kind, ..Request::default() };
        let mut cancel = Cancel { transaction: 0, request, cells: Vec::new() };
        for value in tree.values() {
            cancel.take(value);
        }
        cancel
    }

    fn take(&mut self, value: &Value) {
        let request = &mut self.request;
        match value {
            Value::Transaction(identifier) => self.transaction = *identifier as u32,
            Value::Requested(count) => request.requested = Broadcasts(*count as u16),
            Value::Cells(items) => {
                request.area = IN_CELLS;
                self.cells = items.iter().filter_map(Item::cell).map(|it| it.identity).collect();
            }
            Value::CancelAll => request.flags |= CANCEL_ALL,
            Value::Notification(notification) => {
                request.flags |= NOTIFICATION;
                request.identifier = notification.identifier as u16;
                request.serial = notification.serial as u16;
            }
        }
    }
}
