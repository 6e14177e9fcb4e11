//! Document 02's conversion of a version 1 table, and what a unit of each version takes.

mod one_cell;

use one_cell::{cancel, head, row, second, start, Unit};
use second::request::{CONCURRENT, NOTIFICATION};
use second::{apply, apply_in, convert, Broadcasts, Cell, Done, Layout, Place, Record, Request};
use second::{Seconds, Table};

const LENGTH: usize = 16 + 120;

/// A place in the midst of its run: sent, and waiting.
fn place(serial: u16, period: u32, wait: u32) -> Place {
    Place {
        identifier: 4370,
        serial,
        content: 0x0102_0304,
        period: Seconds(period),
        requested: Broadcasts(0x0506),
        sent: Broadcasts(0x0102),
        wait: Seconds(wait),
        sib: 7,
    }
}

/// Every field at a value with each byte of its own, and the bounds of version 1.
fn old_table() -> Table {
    let primary = Place { sib: 6, ..place(4, 1, 0) };
    let endless = Place { requested: Broadcasts(0), sent: Broadcasts(65_535), ..place(2, 3, 1) };
    let places = vec![place(1, 4095, 4094), endless, place(3, 0x0a0b, 0x0908), primary];
    Table { cells: vec![Cell { head: head(), places }] }
}

fn old_bytes() -> Vec<u8> {
    old_table().encode_in(&Layout::VERSION_1)
}

/// The number, after a look that a refusal wrote nothing.
fn number(old: &[u8], room: usize) -> u32 {
    let mut table = vec![0xa5; room];
    let done = convert(old, &mut table);
    if done.number != 0 {
        assert_eq!((done.length, table), (0, vec![0xa5; room]));
    }
    done.number
}

#[test]
fn all_fields_are_carried_and_bytes_behind_stay() {
    let mut table = vec![0xa5; LENGTH + 3];
    assert_eq!(convert(&old_bytes(), &mut table), Done { number: 0, length: LENGTH });
    assert_eq!(table[LENGTH..], [0xa5; 3]);
    assert_eq!(table[..16], *b"PWT\x00\x02\x00\x01\x04\x00\x00\x00\x00\x00\x00\x00\x00");
    assert_eq!(Table::parse(&table[..LENGTH]), Ok(old_table()));
    assert_eq!(table[16..40], old_bytes()[16..40], "the head stays as it is");
}

#[test]
fn refusals_come_in_their_order() {
    let legal = old_bytes();
    assert_eq!(number(&legal, LENGTH), 0);
    assert_eq!(number(&legal, LENGTH - 1), 8);
    assert_eq!(number(&legal, 0), 8);
    let mut damaged = legal.clone();
    damaged[7] = 3;
    assert_eq!(number(&damaged, 0), 2);
    damaged[4] = 2;
    assert_eq!(number(&damaged, 0), 1);
}

#[test]
fn anything_but_version_1_is_1() {
    let legal = old_bytes();
    for length in 0..5 {
        assert_eq!(number(&legal[..length], LENGTH), 1, "{length} bytes");
    }
    for version in [0, 2, 3, 0x0100, 0x0101, 0xffff] {
        let mut other = legal.clone();
        other[3..5].copy_from_slice(&u16::to_be_bytes(version));
        assert_eq!(number(&other, LENGTH), 1, "version {version}");
    }
    assert_eq!(number(&old_table().encode(), LENGTH), 1, "a version 2 table");
    let mut unmarked = legal.clone();
    unmarked[2] = b'R';
    assert_eq!(number(&unmarked, LENGTH), 1);
}

#[test]
fn version_1_rules_make_a_table_legal() {
    let with =
        |places| Table { cells: vec![Cell { head: head(), places }] }.encode_in(&Layout::VERSION_1);
    assert_eq!(number(&with(vec![place(1, 4095, 4094)]), LENGTH), 0);
    assert_eq!(number(&with(vec![place(1, 4096, 0)]), LENGTH), 2);
    assert_eq!(number(&with(vec![place(1, 65_535, 0)]), LENGTH), 2);
    assert_eq!(number(&with(vec![place(1, 4095, 4095)]), LENGTH), 2);
    assert_eq!(number(&with(vec![place(1, 2, 0), place(1, 2, 0)]), LENGTH), 2);
    assert_eq!(number(&[&old_bytes()[..], &[0]].concat(), LENGTH), 2);
    assert_eq!(number(&old_bytes()[..119], LENGTH), 2);
    assert_eq!(number(&old_bytes()[..5], LENGTH), 2);
}

#[test]
fn each_unit_takes_tables_of_its_own_version_alone() {
    let second = |layout: &Layout| Record { request: second(), items: vec![] }.encode_in(layout);
    let (old, new) = (old_bytes(), old_table().encode());
    let mut answer = [0; 12 + 56];
    let [one, two] = [&Layout::VERSION_1, &Layout::VERSION_2];
    assert_eq!(apply(&mut old.clone(), &second(one), &mut answer).number, 1);
    assert_eq!(apply(&mut old.clone(), &second(two), &mut answer).number, 1);
    assert_eq!(apply(&mut new.clone(), &second(one), &mut answer).number, 0);
    assert_eq!(apply_in(one, &mut new.clone(), &second(one), &mut answer).number, 1);
    assert_eq!(apply_in(one, &mut old.clone(), &second(two), &mut answer).number, 3);
    assert_eq!(apply_in(one, &mut old.clone(), &second(one), &mut answer).number, 0);
    assert_eq!(Unit::empty().table[..5], *b"PWT\x00\x02", "what is built");
}

/// Applies the record in version 1 to both tables; the answers must be equal.
fn run_both(old: &mut [u8], unit: &mut Unit, request: Request) {
    let record = Record { request, items: vec![] }.encode_in(&Layout::VERSION_1);
    let mut answers = [[0xa5; 12 + 56]; 2];
    let done = apply_in(&Layout::VERSION_1, old, &record, &mut answers[0]);
    assert_eq!(apply(&mut unit.table, &record, &mut answers[1]), done);
    assert_eq!(answers[0], answers[1]);
}

#[test]
fn a_converted_table_broadcasts_what_it_would_have() {
    let mut old = old_bytes();
    let mut unit = Unit { table: vec![0; LENGTH] };
    convert(&old, &mut unit.table);
    let requests = [cancel(3, NOTIFICATION), start(5, 4095, 2, CONCURRENT)];
    for request in requests {
        (0..2000).for_each(|_| run_both(&mut old, &mut unit, second()));
        run_both(&mut old, &mut unit, request);
    }
    (0..9000).for_each(|_| run_both(&mut old, &mut unit, second()));
    assert_eq!(unit.places()[0].sent, Broadcasts(0x0102 + 3));
    let mut converted = vec![0; LENGTH];
    convert(&old, &mut converted);
    assert_eq!(converted, unit.table);
}

#[test]
fn a_converted_table_takes_longer_periods() {
    let mut unit = Unit { table: vec![0; LENGTH] };
    convert(&old_bytes(), &mut unit.table);
    assert_eq!(unit.run(cancel(1, NOTIFICATION)), Ok(vec![row(0x0102, 0)]));
    assert_eq!(unit.run(start(5, 131_071, 2, CONCURRENT)), Ok(vec![row(0, 0)]));
    unit.seconds(2);
    assert_eq!(unit.places()[3].wait, Seconds(131_069));
}
