//! What the documents promise of the bytes of every call, whatever happens in a cell: a look of its
//! own at outcomes on which two units agree.

use second::request::{CANCEL, WRITE_REPLACE};
use second::{Answer, Area, Cell, Done, Head, Layout, Message, Reading, Record, Row, Table};

use super::call::{Call, Outcome};
use super::part::Part;
use super::texts::Returned;

/// "A refusal returns its number and length 0, and nothing is written", "bytes beyond it stay", and
/// only the bytes "of a reached cell may be written".
pub fn are_kept(call: &Call, outcome: &Outcome) -> bool {
    let own_are_kept = || match (call, outcome) {
        (_, Outcome::Panicked) => false,
        (Call::Apply { table: before, record, .. }, Outcome::Apply { returned, table, .. }) => {
            unreached_stays(returned, before, record, table)
        }
        (Call::Convert { old, .. }, Outcome::Convert { returned, table }) => {
            all_is_carried(returned, old, table)
        }
        (_, Outcome::Read { returned }) => {
            let refused = Reading { number: returned.number, ..Reading::default() };
            returned.number == 0 || *returned == refused
        }
        (Call::Segment { first, more, k }, Outcome::Segment { returned }) => {
            lies_where_told(first, more, *k, returned)
        }
        (_, Outcome::ReadCancel { returned, record }) => {
            is_read(returned) && (returned.number != 0 || is_a_cancel(&record[..returned.length]))
        }
        (_, Outcome::ReadResponse { returned, answer }) => {
            is_read(returned) && (returned.number != 0 || is_a_reply(&answer[..returned.length]))
        }
        _ => true,
    };
    rest_stays(call, outcome) && own_are_kept()
}

/// The buffer behind the returned length is as before; that is all of it after a refusal.
fn rest_stays(call: &Call, outcome: &Outcome) -> bool {
    let Some(done) = outcome.returned().and_then(Returned::done) else { return true };
    let length = if done.number == 0 { done.length } else { 0 };
    let [before, after] = [call.written(), outcome.written()]
        .map(|mut written| written.pop().and_then(|(_, bytes)| bytes.get(length..)));
    length == done.length && before.is_some() && before == after
}

/// The table is legal and as before, but for the places of reached cells.
fn unreached_stays(done: &Done, before: &[u8], record: &[u8], after: &[u8]) -> bool {
    if done.number != 0 {
        return before == after;
    }
    let (Ok(cells), Ok(record), Ok(_)) =
        (Table::parse(before), Record::parse(record), Table::parse(after))
    else {
        return false;
    };
    let area = Area::of(&record);
    let parts = |bytes: &[u8]| {
        bytes[Table::HEADER..].chunks(Cell::LENGTH).map(<[u8]>::to_vec).collect::<Vec<_>>()
    };
    let stays = |((cell, before), after): ((&Cell, Vec<u8>), Vec<u8>)| {
        let length = if area.reaches(&cell.head) { Head::LENGTH } else { Cell::LENGTH };
        before[..length] == after[..length]
    };
    before[..Table::HEADER] == after[..Table::HEADER]
        && cells.cells.iter().zip(parts(before)).zip(parts(after)).all(stays)
}

/// What is converted says in the current version what it said in version 1.
fn all_is_carried(done: &Done, old: &[u8], table: &[u8]) -> bool {
    let old = Table::parse_in(&Layout::VERSION_1, old);
    done.number != 0 || old.is_ok() && old == Table::parse(&table[..done.length])
}

/// A transaction identifier is a byte on the wire; a refusal has neither it nor a length.
fn is_read(message: &Message) -> bool {
    let refused = Message { number: message.number, ..Message::default() };
    if message.number == 0 {
        message.transaction <= 255
    } else {
        *message == refused
    }
}

/// "The result is a Cancel record"
fn is_a_cancel(record: &[u8]) -> bool {
    record.get(3..5) == Some(&Layout::CURRENT.version.to_be_bytes())
        && Record::parse(record).is_ok_and(|record| record.request.kind == CANCEL)
}

/// "writes an answer with message identifier and serial number 0", which a start or a cancel could
/// have.
fn is_a_reply(answer: &[u8]) -> bool {
    let Some(Answer { kind, identifier: 0, serial: 0, rows }) = Answer::parse(answer) else {
        return false;
    };
    let is_possible = |row: &Row| row.content == 0 && (kind == CANCEL || row.count.0 == 0);
    (kind == CANCEL || kind == WRITE_REPLACE)
        && rows.iter().all(is_possible)
        && rows.windows(2).all(|pair| pair[0].identity < pair[1].identity)
}

/// "A refusal hands back an empty part"; any other is the first buffer, whole, or lies in the list
/// behind its own length.
fn lies_where_told(first: &[u8], more: &[u8], k: usize, part: &Part) -> bool {
    let Part { number, buffer, start, length } = *part;
    if number != 0 {
        return *part == Part::refused(number);
    }
    if k == 0 {
        return (buffer, start, length) == (0, 0, first.len());
    }
    let told = start.checked_sub(2).and_then(|before| more.get(before..start));
    let behind_length = told.is_some_and(|told| {
        let lengths = [told[0], told[1]].map(usize::from);
        lengths[0] * 256 + lengths[1] == length
    });
    buffer == 1 && behind_length && part.bytes(first, more).len() == length
}
