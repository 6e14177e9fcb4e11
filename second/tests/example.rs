//! Document 01's example of the program, whole.

mod programs;
mod run;

use programs::{printed, programs};
use second::request::*;
use second::{Broadcasts, CellIdentity, Head, Record, Request, Seconds};

const OUTPUT: &str = "\
ok 1 2
00f110000000010 0 0
00f110000000020 0 0
ok 5 2
00f110000000010 1 7
00f110000000020 1 7
ok 5 0
ok 5 2
00f110000000010 2 7
00f110000000020 2 7
ok 2 1
00f110000000020 2 0
ok 2 1
00f110000000010 0 0
ok 2 0
";

fn head(number: u64, code: u32) -> Vec<u8> {
    Head { identity: CellIdentity::from_number(number).unwrap(), code, areas: vec![] }.encode()
}

fn record(request: Request, items: &[u64]) -> Vec<u8> {
    Record { request, items: items.to_vec() }.encode()
}

fn input() -> Vec<u8> {
    let zero = Request::default();
    let text = Request { identifier: 4370, serial: 16, ..zero };
    let (period, requested) = (Seconds(2), Broadcasts(3));
    let start = Request { kind: WRITE_REPLACE, content: 7, period, requested, sib: 8, ..text };
    let second = record(Request { kind: SECOND, ..zero }, &[]);
    let cancel = Request { kind: CANCEL, flags: NOTIFICATION, ..text };
    let in_tracking_area = Request { area: IN_TRACKING_AREAS, ..cancel };
    [
        vec![0, 2],
        head(0x00f110000000010, 1),
        head(0x00f110000000020, 2),
        record(start, &[]),
        second.repeat(3),
        record(in_tracking_area, &[0x00f110000002]),
        record(Request { kind: CANCEL, flags: CANCEL_ALL, ..zero }, &[]),
        record(cancel, &[]),
    ]
    .concat()
}

#[test]
fn the_library_reports_the_example() {
    let mut output = Vec::new();
    second::report(&input()[..], &mut output).unwrap();
    assert_eq!(String::from_utf8(output).unwrap(), OUTPUT);
}

#[test]
fn the_programs_report_the_example() {
    for program in programs() {
        assert_eq!(printed(&program, &input()), OUTPUT, "{program}");
    }
}
