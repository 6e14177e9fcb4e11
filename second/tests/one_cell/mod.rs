//! A unit of one cell, and the requests of the sample situations.

use second::request::*;
use second::{apply, build, Answer, Broadcasts, CellIdentity, Head, Layout, Place, Record};
use second::{Request, Row, Seconds, Table};

pub const CELL: u64 = 0x00f110000000010;

/// A table of one cell, to which requests are applied.
pub struct Unit {
    pub table: Vec<u8>,
}

impl Unit {
    pub fn empty() -> Unit {
        let mut table = vec![0; Layout::CURRENT.table(1)];
        assert_eq!(build(&head().encode(), &mut table).number, 0);
        Unit { table }
    }

    /// The rows, or the refusal's number after a look that nothing was written.
    pub fn apply(&mut self, request: Request, items: &[u64]) -> Result<Vec<Row>, u32> {
        let record = Record { request, items: items.to_vec() }.encode();
        let before = self.table.clone();
        let mut answer = [0xa5; 12 + 56 + 1];
        let done = apply(&mut self.table, &record, &mut answer);
        assert!(answer[done.length..].iter().all(|byte| *byte == 0xa5));
        if done.number != 0 {
            assert_eq!((done.length, &before), (0, &self.table));
            return Err(done.number);
        }
        let answer = Answer::parse(&answer[..done.length]).unwrap();
        let named = (answer.kind, answer.identifier, answer.serial);
        assert_eq!(named, (request.kind, request.identifier, request.serial));
        Ok(answer.rows)
    }

    pub fn run(&mut self, request: Request) -> Result<Vec<Row>, u32> {
        self.apply(request, &[])
    }

    pub fn seconds(&mut self, count: usize) {
        for _ in 0..count {
            self.run(second()).unwrap();
        }
    }

    pub fn places(&self) -> Vec<Place> {
        Table::parse(&self.table).unwrap().cells.remove(0).places
    }
}

pub fn head() -> Head {
    Head { identity: identity(), code: 1, areas: vec![] }
}

fn identity() -> CellIdentity {
    CellIdentity::from_number(CELL).unwrap()
}

/// A Write-Replace of SIB kind 8.
pub fn start(serial: u16, period: u32, requested: u16, flags: u8) -> Request {
    Request {
        kind: WRITE_REPLACE,
        flags,
        identifier: 4370,
        serial,
        content: 7,
        period: Seconds(period),
        requested: Broadcasts(requested),
        sib: 8,
        ..Request::default()
    }
}

pub fn second() -> Request {
    Request { kind: SECOND, ..Request::default() }
}

pub fn cancel(serial: u16, flags: u8) -> Request {
    let notification = Request { identifier: 4370, serial, ..Request::default() };
    let named = if flags & NOTIFICATION != 0 { notification } else { Request::default() };
    Request { kind: CANCEL, flags, ..named }
}

pub fn row(count: u16, content: u32) -> Row {
    Row { identity: identity(), count: Broadcasts(count), content }
}
