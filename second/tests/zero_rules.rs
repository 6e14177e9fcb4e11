//! The rows of docs/ZERO-RULES.md, the support desk's page, against what the report programs do:
//! the own one and, where PWS_REPORT names it, the first implementation's.

mod programs;
mod run;

use std::fs;

use programs::{printed, programs};
use second::request::*;
use second::{Broadcasts, CellIdentity, Head, Record, Request, Seconds, EARTHQUAKE_PRIMARY};

const PAGE: &str = concat!(env!("CARGO_MANIFEST_DIR"), "/../docs/ZERO-RULES.md");
const COLUMNS: &str = "| Concurrent | Requested | Period | The start | Because |";
const SOURCE: &str = "(004, 8.9.1.3)";

/// What stands in a row, with numbers for its words.
struct Row {
    line: String,
    flags: u8,
    requested: &'static [u16],
    periods: &'static [u32],
    starts: bool,
}

impl Row {
    fn of(line: &str) -> Result<Row, String> {
        let unlike = |column: &str| format!("{column} is none that is known: {line}");
        let cells: Vec<&str> = line.trim_matches('|').split('|').map(str::trim).collect();
        let [concurrent, requested, period, start, because] = cells[..] else {
            return Err(unlike("the number of columns"));
        };
        let row = Row {
            line: line.to_string(),
            flags: match concurrent {
                "no" => 0,
                "yes" => CONCURRENT,
                _ => return Err(unlike("concurrent")),
            },
            requested: match requested {
                "0" => &[0],
                "1" => &[1],
                "above 1" => &[2, 3, 255, 256, 257, 65_535],
                _ => return Err(unlike("requested")),
            },
            periods: match period {
                "0" => &[0],
                "above 0" => &[1, 2, 255, 256, 4095, 4096, 65_536, 131_071],
                _ => return Err(unlike("the period")),
            },
            starts: match start {
                "starts" => true,
                "starts nothing" => false,
                _ => return Err(unlike("what the start does")),
            },
        };
        if row.starts == because.contains(SOURCE) {
            return Err(format!("{SOURCE} is the source where nothing starts: {line}"));
        }
        Ok(row)
    }

    fn case(&self) -> (u8, u16, u32) {
        (self.flags, self.requested[0], self.periods[0])
    }

    /// The starts of a SIB kind that the row speaks of.
    fn requests(&self, sib: u8) -> Vec<Request> {
        let terms = self.requested.iter().flat_map(|n| self.periods.iter().map(move |s| (n, s)));
        let request = |(requested, period): (&u16, &u32)| Request {
            flags: self.flags,
            requested: Broadcasts(*requested),
            period: Seconds(*period),
            sib,
            ..start(NEW)
        };
        terms.map(request).collect()
    }
}

/// The page's rows: one for each of the twelve cases.
fn rows(page: &str) -> Result<Vec<Row>, String> {
    let lines = page.lines().skip_while(|line| *line != COLUMNS).skip(2);
    let rows = lines.take_while(|line| line.starts_with('|')).map(Row::of);
    let rows = rows.collect::<Result<Vec<Row>, String>>()?;
    let mut cases: Vec<_> = rows.iter().map(Row::case).collect();
    cases.sort();
    cases.dedup();
    match (rows.len(), cases.len()) {
        (12, 12) => Ok(rows),
        (rows, cases) => Err(format!("{rows} rows of {cases} cases, and not 12 of 12")),
    }
}

// ---- one cell, with a text that runs before the start: another one, or the same

const CELL: u64 = 0x00f110000000010;
const OLD: u32 = 6;
const NEW: u32 = 7;

/// A text without end, named by its content.
fn start(content: u32) -> Request {
    Request {
        kind: WRITE_REPLACE,
        flags: CONCURRENT,
        identifier: 4370,
        serial: content as u16,
        content,
        period: Seconds(1),
        sib: 8,
        ..Request::default()
    }
}

/// The running text, the start, a second.
fn input(running: u32, request: Request) -> Vec<u8> {
    let identity = CellIdentity::from_number(CELL).unwrap();
    let head = Head { identity, code: 1, areas: vec![] }.encode();
    let second = Request { kind: SECOND, ..Request::default() };
    let records = [start(running), request, second];
    let records = records.map(|request| Record { request, items: vec![] }.encode());
    [vec![0, 1], head, records.concat()].concat()
}

/// What is to be printed. A start is reported, and its text broadcast in the second, beside the
/// other one if it is concurrent and alone if not. One that starts nothing has no rows, even where
/// the same text runs, and leaves what runs.
fn expected(running: u32, request: &Request, starts: bool) -> String {
    let broadcast = match (starts, request.has(CONCURRENT)) {
        _ if running == NEW => vec![NEW],
        (false, _) => vec![running],
        (true, true) => vec![running, NEW],
        (true, false) => vec![NEW],
    };
    let reported = format!("ok 1 1\n{CELL:015x} 0 0\n");
    let told = if starts { reported.clone() } else { "ok 1 0\n".into() };
    let second: String = broadcast.iter().map(|text| format!("{CELL:015x} 1 {text}\n")).collect();
    format!("{reported}{told}ok 5 {}\n{second}", broadcast.len())
}

/// Whether a program does what is said of each start.
fn does(program: &str, requests: &[Request], starts: bool) -> Result<usize, String> {
    for request in requests {
        for running in [OLD, NEW] {
            let printed = printed(program, &input(running, *request));
            let expected = expected(running, request, starts);
            if printed != expected {
                return Err(format!("{program}: {request:?}\n{printed}and not\n{expected}"));
            }
        }
    }
    Ok(requests.len())
}

#[test]
fn each_row_is_what_the_program_does() {
    let rows = rows(&fs::read_to_string(PAGE).unwrap()).unwrap();
    for program in programs() {
        let mut starts = 0;
        for row in &rows {
            for (sib, said) in [(7, row.starts), (8, row.starts), (EARTHQUAKE_PRIMARY, true)] {
                starts += does(&program, &row.requests(sib), said)
                    .unwrap_or_else(|told| panic!("{}\n{told}", row.line));
            }
        }
        println!("{program}: {starts} starts, each beside another text and as a repeat");
    }
}

#[test]
fn a_row_that_says_the_opposite_is_found() {
    let rows = rows(&fs::read_to_string(PAGE).unwrap()).unwrap();
    for program in programs() {
        for row in &rows {
            let found = does(&program, &row.requests(8)[..1], !row.starts);
            assert!(found.is_err(), "{program}: {}", row.line);
        }
    }
}

#[test]
fn a_page_without_twelve_cases_is_found() {
    let page = fs::read_to_string(PAGE).unwrap();
    let line = |start: &str| page.lines().find(|line| line.starts_with(start)).unwrap();
    let (first, second) = (line("| no | 0 | 0 |"), line("| no | 0 | above 0 |"));
    for (wrong, told) in [
        (page.replace(&format!("{first}\n"), ""), "11 rows of 11 cases, and not 12 of 12"),
        (page.replace(second, first), "12 rows of 11 cases, and not 12 of 12"),
        (page.replace(COLUMNS, ""), "0 rows of 0 cases, and not 12 of 12"),
    ] {
        assert_eq!(rows(&wrong).err().as_deref(), Some(told));
    }
    for (from, to, told) in [
        ("| no |", "| maybe |", "concurrent is none that is known"),
        ("| 0 | 0 |", "| none | 0 |", "requested is none that is known"),
        ("| 0 | starts", "| zero | starts", "the period is none that is known"),
        ("| starts nothing |", "| idle |", "what the start does is none that is known"),
        (SOURCE, "", "(004, 8.9.1.3) is the source where nothing starts"),
    ] {
        let told_of = rows(&page.replace(first, &first.replace(from, to))).err().unwrap();
        assert!(told_of.starts_with(told), "{told_of}");
    }
}
