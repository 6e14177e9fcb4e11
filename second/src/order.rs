//! What happens in each reached cell.

use crate::answer::Row;
use crate::cell::Cell;
use crate::place::{Broadcasts, Place, Seconds, EARTHQUAKE_PRIMARY};
use crate::request::*;

/// An accepted request as what it orders in a cell.
pub(crate) enum Order {
    Start {
        place: Place,
        concurrent: bool,
    },
    /// A start that the zero rules stop, "even where the same text is live".
    StartNothing,
    CancelAll,
    Cancel {
        text: (u16, u16),
    },
    Restart,
    Failure,
    Second,
}

impl Order {
    /// The order of an accepted request.
    pub fn of(request: &Request) -> Order {
        match request.kind {
            WRITE_REPLACE if starts_nothing(request) => Order::StartNothing,
            WRITE_REPLACE => {
                Order::Start { place: new_place(request), concurrent: request.has(CONCURRENT) }
            }
            CANCEL if request.has(CANCEL_ALL) => Order::CancelAll,
            CANCEL => Order::Cancel { text: (request.identifier, request.serial) },
            RESTART => Order::Restart,
            FAILURE => Order::Failure,
            _ => Order::Second,
        }
    }

    /// Changes the cell's places and gives the cell's rows.
    pub fn happen(&self, cell: &mut Cell) -> Vec<Row> {
        match self {
            Order::Start { place, concurrent } => reported(start(cell, place, *concurrent), cell),
            Order::StartNothing => Vec::new(),
            Order::CancelAll | Order::Failure => reported(clear(cell), cell),
            Order::Cancel { text } => cancel(cell, *text).into_iter().collect(),
            Order::Restart => {
                clear(cell);
                reported(true, cell)
            }
            Order::Second => second(cell),
        }
    }
}

/// "A SIB 6 Write-Replace now skips the zero rules"
fn starts_nothing(request: &Request) -> bool {
    request.sib != EARTHQUAKE_PRIMARY && zero_rules_stop(request)
}

/// "a request starts nothing if requested is 0 without flag 1, or if period is 0 and requested is
/// not 1"
fn zero_rules_stop(request: &Request) -> bool {
    let endless = request.requested == Broadcasts(0);
    let at_once = request.period == Seconds(0);
    endless && !request.has(CONCURRENT) || at_once && request.requested != Broadcasts(1)
}

fn new_place(request: &Request) -> Place {
    let Request { identifier, serial, content, sib, .. } = *request;
    let (period, requested) = stored_terms(request);
    let (sent, wait) = (Broadcasts(0), Seconds(0));
    Place { identifier, serial, content, period, requested, sent, wait, sib }
}

/// An earthquake primary "is stored with period 1 and requested 0, so it goes out every second
/// until stopped".
fn stored_terms(request: &Request) -> (Seconds, Broadcasts) {
    if request.sib == EARTHQUAKE_PRIMARY {
        (Seconds(1), Broadcasts(0))
    } else {
        (request.period, request.requested)
    }
}

/// The row of a reported cell, with count 0.
fn reported(is_reported: bool, cell: &Cell) -> Vec<Row> {
    let row = Row { identity: cell.head.identity, count: Broadcasts(0), content: 0 };
    is_reported.then_some(row).into_iter().collect()
}

/// Whether the cell is reported.
fn start(cell: &mut Cell, place: &Place, concurrent: bool) -> bool {
    if cell.runs(place.text()) {
        return true;
    }
    if !concurrent {
        cell.places.clear();
    }
    let has_room = !cell.is_full();
    if has_room {
        cell.places.push(place.clone());
    }
    has_room
}

/// Whether a place was live.
fn clear(cell: &mut Cell) -> bool {
    !std::mem::take(&mut cell.places).is_empty()
}

fn cancel(cell: &mut Cell, text: (u16, u16)) -> Option<Row> {
    let index = cell.places.iter().position(|place| place.text() == text)?;
    let stopped = cell.places.remove(index);
    Some(Row { identity: cell.head.identity, count: stopped.sent, content: 0 })
}

/// A row for each broadcast, "in place order before freeing".
fn second(cell: &mut Cell) -> Vec<Row> {
    let identity = cell.head.identity;
    let mut rows = Vec::new();
    cell.places.retain_mut(|place| {
        if place.wait > Seconds(0) {
            place.wait.0 -= 1;
            return true;
        }
        place.sent = Broadcasts(place.sent.0.saturating_add(1));
        place.wait = Seconds(place.period.0.saturating_sub(1));
        rows.push(Row { identity, count: place.sent, content: place.content });
        place.requested == Broadcasts(0) || place.sent != place.requested
    });
    rows
}
