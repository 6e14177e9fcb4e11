//! The workloads: each is one call, with its buffers as they are before it.

use second::request::*;
use second::{Answer, Broadcasts, Cell, Layout, Record, Request, Row, Seconds, Table};

use crate::comparison::call::Call;
use crate::comparison::lists::{packed, Packing, MOST};
use crate::messages::{self, TRANSACTION};
use crate::tables::{head, heads, identity, old_table, table, Due, IDENTIFIER, SERIAL};

pub const MOST_CELLS: usize = 512;
const SIZES: [usize; 3] = [1, 16, MOST_CELLS];
const RECORD_SIZES: [usize; 3] = [0, 1, 512];
const LIST_SIZES: [usize; 3] = [1, 16, MOST];
const MESSAGE_SIZES: [usize; 4] = [0, 1, 16, MOST_CELLS];
/// Bytes of each segment, the first one too.
const SEGMENT: usize = 82;
const OTHER_SERIAL: u16 = 99;

pub struct Workload {
    pub name: &'static str,
    /// Cells of the table, or of a message; of a record that is read or written, its items; of a
    /// list, its segments; of a response, its rows.
    pub size: usize,
    pub call: Call,
}

fn request(kind: u8, flags: u8, serial: u16) -> Request {
    Request { kind, flags, identifier: IDENTIFIER, serial, ..Request::default() }
}

pub fn bare(kind: u8) -> Record {
    Record { request: Request { kind, ..Request::default() }, items: vec![] }
}

fn cancel(serial: u16) -> Record {
    Record { request: request(CANCEL, NOTIFICATION, serial), items: vec![] }
}

pub fn cancel_in(area: u8, items: Vec<u64>) -> Record {
    Record { request: Request { area, ..request(CANCEL, NOTIFICATION, SERIAL) }, items }
}

pub fn start(flags: u8, serial: u16) -> Record {
    let terms = request(WRITE_REPLACE, flags, serial);
    let (period, requested) = (Seconds(10), Broadcasts(100));
    Record { request: Request { content: 7, period, requested, sib: 8, ..terms }, items: vec![] }
}

fn apply(table: Vec<u8>, record: &Record) -> Call {
    let cells = (table.len() - Table::HEADER) / Cell::LENGTH;
    let answer = vec![0xee; Answer::room(record.request.kind, cells)];
    Call::Apply { table, record: record.encode(), answer }
}

/// 512 cells that are nobody's: the identities between those of the tables.
fn strangers() -> Vec<u64> {
    (0..Record::MOST_ITEMS as u64).map(|k| identity(k) + 1).collect()
}

/// 512 items, the table's own cells first.
fn at_the_start(cells: usize) -> Vec<u64> {
    let own = (0..cells as u64).map(identity);
    own.chain(strangers()).take(Record::MOST_ITEMS).collect()
}

fn at_the_end(cells: usize) -> Vec<u64> {
    at_the_start(cells).into_iter().rev().collect()
}

fn seconds(cells: usize) -> Vec<(&'static str, Call)> {
    let second = bare(SECOND);
    let full = |due| apply(table(cells, 4, due), &second);
    vec![
        ("second, no live place", apply(table(cells, 0, Due::Nothing), &second)),
        ("second, four live, none due", full_second(cells)),
        ("second, four live, all due", full(Due::All)),
        ("second, a quarter freed", full(Due::AllAndOneEnds)),
    ]
}

fn cancels(cells: usize) -> Vec<(&'static str, Call)> {
    let on_full = |record| apply(table(cells, 4, Due::Nothing), &record);
    let codes = (0..512).map(|code| identity(0) >> 36 << 24 | (0x8000 + code)).collect();
    let areas = (0..512).map(|area| 0x800000 + area).collect();
    vec![
        ("cancel, matched everywhere", on_full(cancel(SERIAL))),
        ("cancel, matched nowhere", on_full(cancel(OTHER_SERIAL))),
        ("cancel by 512 cells, none matches", on_full(cancel_in(IN_CELLS, strangers()))),
        ("cancel by 512 cells, all at the end", on_full(cancel_in(IN_CELLS, at_the_end(cells)))),
        (
            "cancel by 512 cells, all at the start",
            on_full(cancel_in(IN_CELLS, at_the_start(cells))),
        ),
        ("cancel by 512 tracking areas, none", on_full(cancel_in(IN_TRACKING_AREAS, codes))),
        ("cancel by 512 emergency areas, none", on_full(cancel_in(IN_EMERGENCY_AREAS, areas))),
    ]
}

fn starts(cells: usize) -> Vec<(&'static str, Call)> {
    let on = |live, record| apply(table(cells, live, Due::Nothing), &record);
    vec![
        ("start, replaces four", on(4, start(0, OTHER_SERIAL))),
        ("start, concurrent into the third", on(2, start(CONCURRENT, OTHER_SERIAL))),
        ("start, full cells", on(4, start(CONCURRENT, OTHER_SERIAL))),
        ("start, repeat", on(4, start(CONCURRENT, SERIAL))),
    ]
}

fn resets(cells: usize) -> Vec<(&'static str, Call)> {
    let on_full = |kind| apply(table(cells, 4, Due::Nothing), &bare(kind));
    vec![("restart", on_full(RESTART)), ("failure", on_full(FAILURE))]
}

/// A table wrong in its last byte alone; a record wrong in its last item alone.
fn refusals(cells: usize) -> Vec<(&'static str, Call)> {
    let whole = table(cells, 4, Due::Nothing);
    let mut damaged = whole.clone();
    *damaged.last_mut().expect("a table has bytes") = 1;
    let mut items = strangers();
    *items.last_mut().expect("512 items") = 1 << 60;
    vec![
        ("refusal 2, the table's last byte", apply(damaged, &bare(SECOND))),
        ("refusal 6, the record's last item", apply(whole, &cancel_in(IN_CELLS, items))),
    ]
}

fn whole_tables(cells: usize) -> Vec<(&'static str, Call)> {
    let (heads, table) = (heads(cells), vec![0xee; Layout::CURRENT.table(cells)]);
    let old = old_table(cells, 4, Due::Nothing);
    let convert = Call::Convert { old, table: table.clone() };
    vec![("build", Call::Build { heads, table }), ("convert", convert)]
}

fn records(items: usize) -> Vec<(&'static str, Call)> {
    let area = if items == 0 { NO_AREA } else { IN_CELLS };
    let record = cancel_in(area, strangers().into_iter().take(items).collect());
    let read = Call::Read { record: record.encode() };
    let room = vec![0xee; Record::HEADER + Record::ITEM * items];
    let write = Call::Write { request: record.request, items: record.items, record: room };
    vec![("read a record", read), ("write a record", write)]
}

fn lists(count: usize) -> Vec<(&'static str, Call)> {
    let segments: Vec<Vec<u8>> = (1..=count).map(|k| vec![k as u8; SEGMENT]).collect();
    let find = Call::Segment { first: vec![0; SEGMENT], more: packed(&segments), k: count };
    let Packing { bytes, lengths, room, .. } = Packing::of(&segments);
    let pack = Call::Pack { bytes, lengths, list: vec![0xee; room] };
    vec![("find the last segment", find), ("pack a list", pack)]
}

fn cancels_read(cells: usize) -> Vec<(&'static str, Call)> {
    let listed: Vec<u64> = (0..cells as u64).map(identity).collect();
    let record = vec![0xee; Record::HEADER + Record::ITEM * cells];
    vec![("read a cancel", Call::ReadCancel { message: messages::cancel(&listed), record })]
}

fn responses(rows: usize) -> Vec<(&'static str, Call)> {
    let row = |k: u64| Row { identity: head(k).identity, count: Broadcasts(k as u16), content: 0 };
    let rows: Vec<Row> = (0..rows as u64).map(row).collect();
    let message = messages::cancel_response(&rows);
    let room = vec![0xee; Answer::room(CANCEL, rows.len())];
    let answer = Answer { kind: CANCEL, identifier: IDENTIFIER, serial: SERIAL, rows }.encode();
    let written = vec![0xee; message.len()];
    let write = Call::WriteResponse { answer, transaction: TRANSACTION, message: written };
    let read = Call::ReadResponse { message, answer: room };
    vec![("write a response", write), ("read a response", read)]
}

type Family = fn(usize) -> Vec<(&'static str, Call)>;

fn family(of: Family, sizes: &[usize]) -> Vec<Workload> {
    let at = |size: &usize| of(*size).into_iter().map(|(name, call)| (name, *size, call)).collect();
    let by_size: Vec<Vec<(&'static str, usize, Call)>> = sizes.iter().map(at).collect();
    let kinds = by_size[0].len();
    let ordered =
        (0..kinds).flat_map(|kind| by_size.iter().map(move |of_size| of_size[kind].clone()));
    ordered.map(|(name, size, call)| Workload { name, size, call }).collect()
}

/// All of them, a workload's sizes together.
pub fn all() -> Vec<Workload> {
    let cells: [Family; 6] = [seconds, cancels, starts, resets, refusals, whole_tables];
    let of_cells = cells.into_iter().flat_map(|of| family(of, &SIZES));
    let of_records = family(records, &RECORD_SIZES);
    let of_lists = family(lists, &LIST_SIZES);
    let messages: [Family; 2] = [cancels_read, responses];
    let of_messages = messages.into_iter().flat_map(|of| family(of, &MESSAGE_SIZES));
    of_cells.chain(of_records).chain(of_lists).chain(of_messages).collect()
}

/// A second over so many full cells, none due.
pub fn full_second(cells: usize) -> Call {
    apply(table(cells, 4, Due::Nothing), &bare(SECOND))
}

/// A cancel by so many cells, of which none is among the table's 512.
pub fn unmatched_cancel(items: usize) -> Call {
    let listed = strangers().into_iter().take(items).collect();
    apply(table(MOST_CELLS, 4, Due::Nothing), &cancel_in(IN_CELLS, listed))
}
