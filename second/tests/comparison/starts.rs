//! Starts on both sides of the zero rules, of every SIB kind, and the seconds behind each.

use second::request::*;
use second::{Answer, Broadcasts, Cell, Layout, Place, Record, Request, Seconds, Table};
use second::{EARTHQUAKE_PRIMARY, SIB_KINDS};

use super::cases::{Cases, Compared};
use super::compare::Difference;
use crate::given::heads::heads;

const IDENTIFIER: u16 = 4370;
/// The serial number of the text that is started.
const SERIAL: u16 = 16;

const PERIODS: [u32; 7] = [0, 1, 5, 4095, 4096, 131_071, 131_072];
const COUNTS: [u16; 3] = [0, 1, 2];
/// So many that a text counted up to 2 ends, and an unending one does not.
const SECONDS: usize = 3;

impl Cases<'_> {
    /// Each start written, and read and applied in both versions; the last period is refused by
    /// each of the three, and in version 1 the two before it.
    pub(super) fn starts(&mut self) -> Compared {
        let fillings = fillings();
        let heads = heads(&mut self.random, fillings.len());
        let cells = heads.into_iter().zip(fillings).map(|(head, places)| Cell { head, places });
        let table = Table { cells: cells.collect() };
        for request in requests() {
            let record = Record { request, items: Vec::new() };
            let buffer = self.buffer(Record::HEADER);
            self.write(&record, buffer)?;
            for layout in [Layout::VERSION_1, Layout::VERSION_2] {
                let start = record.encode_in(&layout);
                self.compare.read(&start)?;
                let answer = self.buffer(Answer::room(WRITE_REPLACE, table.cells.len()));
                let started = self.compare.apply(table.encode(), &start, answer)?;
                self.run_seconds(started, SECONDS)?;
            }
        }
        Ok(())
    }

    /// The table after so many seconds.
    pub(super) fn run_seconds(
        &mut self,
        table: Vec<u8>,
        seconds: usize,
    ) -> Result<Vec<u8>, Difference> {
        let request = Request { kind: SECOND, ..Request::default() };
        let second = Record { request, items: Vec::new() }.encode();
        let cells = (table.len() - Table::HEADER) / Cell::LENGTH;
        (0..seconds).try_fold(table, |table, _| {
            let answer = self.buffer(Answer::room(SECOND, cells));
            self.compare.apply(table, &second, answer)
        })
    }
}

/// The starts of one text on all terms.
fn requests() -> Vec<Request> {
    let mut requests = Vec::new();
    for sib in SIB_KINDS {
        for (period, requested) in
            PERIODS.iter().flat_map(|period| COUNTS.map(|requested| (*period, requested)))
        {
            requests.extend([0, CONCURRENT].map(|flags| Request {
                kind: WRITE_REPLACE,
                flags,
                area: NO_AREA,
                identifier: IDENTIFIER,
                serial: SERIAL,
                content: 7,
                period: Seconds(period),
                requested: Broadcasts(requested),
                sib,
            }));
        }
    }
    requests
}

/// The places of a cell each: without the text and with it, counted and not, with a free place and
/// full.
fn fillings() -> Vec<Vec<Place>> {
    let other = |serial, sib| place(serial, sib, 2, 3);
    let others = [other(1, 6), other(2, 7), other(3, 8)];
    let live = |sib, period, requested| place(SERIAL, sib, period, requested);
    let beside_others = |place| others.iter().cloned().chain([place]).collect();
    vec![
        vec![],
        others.to_vec(),
        beside_others(other(4, 8)),
        vec![live(EARTHQUAKE_PRIMARY, 1, 2)],
        vec![live(EARTHQUAKE_PRIMARY, 2, 2), other(1, 8)],
        vec![live(EARTHQUAKE_PRIMARY, 0, 1)],
        vec![live(EARTHQUAKE_PRIMARY, 5, 0)],
        beside_others(live(EARTHQUAKE_PRIMARY, 1, 2)),
        vec![other(1, 6), live(7, 1, 2)],
        vec![live(8, 1, 2)],
    ]
}

fn place(serial: u16, sib: u8, period: u32, requested: u16) -> Place {
    Place {
        identifier: IDENTIFIER,
        serial,
        content: 8,
        period: Seconds(period),
        requested: Broadcasts(requested),
        sent: Broadcasts(0),
        wait: Seconds(0),
        sib,
    }
}
