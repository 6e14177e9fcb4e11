//! Document 02's earthquake primaries: starts of SIB kind 6, and such places in a table.

mod one_cell;

use one_cell::{cancel, head, row, second, start, Unit};
use second::request::*;
use second::EARTHQUAKE_PRIMARY;
use second::{read, write, Broadcasts, Cell, Layout, Place, Record, Request, Seconds, Table};

fn primary(serial: u16, period: u32, requested: u16, flags: u8) -> Request {
    Request { sib: EARTHQUAKE_PRIMARY, ..start(serial, period, requested, flags) }
}

fn place(serial: u16, period: u32, requested: u16) -> Place {
    Place {
        identifier: 4370,
        serial,
        content: 7,
        period: Seconds(period),
        requested: Broadcasts(requested),
        sent: Broadcasts(0),
        wait: Seconds(0),
        sib: EARTHQUAKE_PRIMARY,
    }
}

/// A unit whose table was left with these places, however they came there.
fn unit_with(places: Vec<Place>) -> Unit {
    Unit { table: Table { cells: vec![Cell { head: head(), places }] }.encode() }
}

/// Every start of these terms is reported, and stored with period 1 and requested 0.
fn assert_starts_without_end(period: u32, requested: u16, flags: u8) {
    let mut unit = Unit::empty();
    let told = format!("period {period}, requested {requested}, flags {flags}");
    assert_eq!(unit.run(primary(16, period, requested, flags)), Ok(vec![row(0, 0)]), "{told}");
    assert_eq!(unit.places(), [place(16, 1, 0)], "{told}");
}

#[test]
fn a_primary_goes_out_every_second_until_it_is_cancelled() {
    let mut unit = Unit::empty();
    assert_eq!(unit.run(primary(16, 5, 2, 0)), Ok(vec![row(0, 0)]));
    for count in 1..=3 {
        assert_eq!(unit.run(second()), Ok(vec![row(count, 7)]));
    }
    assert_eq!(unit.places(), [Place { sent: Broadcasts(3), ..place(16, 1, 0) }]);
    assert_eq!(unit.run(cancel(16, NOTIFICATION)), Ok(vec![row(3, 0)]));
    assert_eq!(unit.places(), []);
}

#[test]
fn a_primary_stays_at_65535_sent() {
    let mut unit = Unit::empty();
    unit.run(primary(16, 4095, 1, 0)).unwrap();
    unit.seconds(65_534);
    assert_eq!(unit.run(second()), Ok(vec![row(65_535, 7)]));
    assert_eq!(unit.run(second()), Ok(vec![row(65_535, 7)]));
}

#[test]
fn a_primary_with_requested_0_needs_no_flag_1() {
    assert_starts_without_end(5, 0, 0);
}

#[test]
fn a_primary_with_period_0_may_have_requested_2() {
    assert_starts_without_end(0, 2, 0);
}

#[test]
fn a_primary_with_period_0_and_requested_0_starts() {
    assert_starts_without_end(0, 0, 0);
}

#[test]
fn a_primary_starts_alike_on_all_terms() {
    for period in [0, 1, 2, 4095, 4096, 131_071] {
        for requested in [0, 1, 2, 65_535] {
            assert_starts_without_end(period, requested, 0);
            assert_starts_without_end(period, requested, CONCURRENT);
        }
    }
}

#[test]
fn a_primary_with_a_larger_period_is_refused() {
    let larger = primary(16, Layout::CURRENT.largest_period.0 + 1, 2, 0);
    assert_eq!(Unit::empty().run(larger), Err(6));
    assert_eq!(read(&Record { request: larger, items: vec![] }.encode()).number, 6);
    assert_eq!(write(larger, &[], &mut [0; Record::HEADER]).number, 6);
}

#[test]
fn a_primary_without_flag_1_drops_the_others() {
    let mut unit = Unit::empty();
    for serial in 1..=4 {
        unit.run(start(serial, 1, 9, CONCURRENT)).unwrap();
    }
    assert_eq!(unit.run(primary(5, 0, 0, 0)), Ok(vec![row(0, 0)]));
    assert_eq!(unit.places(), [place(5, 1, 0)]);
}

#[test]
fn a_primary_with_flag_1_needs_a_free_place() {
    let mut unit = Unit::empty();
    for serial in 1..=3 {
        unit.run(start(serial, 1, 9, CONCURRENT)).unwrap();
    }
    assert_eq!(unit.run(primary(4, 5, 2, CONCURRENT)), Ok(vec![row(0, 0)]));
    assert_eq!(unit.places()[3], place(4, 1, 0));
    let before = unit.places();
    assert_eq!(unit.run(primary(5, 5, 2, CONCURRENT)), Ok(vec![]));
    assert_eq!(unit.places(), before);
}

#[test]
fn a_counted_primary_in_a_table_ends_as_stored() {
    let mut unit = unit_with(vec![place(16, 3, 2)]);
    assert_eq!(unit.run(second()), Ok(vec![row(1, 7)]));
    assert_eq!(unit.run(second()), Ok(vec![]));
    assert_eq!(unit.run(second()), Ok(vec![]));
    assert_eq!(unit.run(second()), Ok(vec![row(2, 7)]));
    assert_eq!(unit.places(), []);
}

#[test]
fn a_primary_with_period_0_in_a_table_is_one_broadcast() {
    let mut unit = unit_with(vec![place(16, 0, 1)]);
    assert_eq!(unit.run(second()), Ok(vec![row(1, 7)]));
    assert_eq!(unit.places(), []);
}

#[test]
fn an_unending_primary_in_a_table_keeps_its_period() {
    let mut unit = unit_with(vec![place(16, 2, 0)]);
    unit.seconds(5);
    assert_eq!(unit.places(), [Place { sent: Broadcasts(3), wait: Seconds(1), ..place(16, 2, 0) }]);
}

#[test]
fn a_repeat_of_a_counted_primary_leaves_it_counted() {
    for (period, requested, flags) in [(1, 2, 0), (5, 9, CONCURRENT), (0, 0, 0), (0, 2, 0)] {
        let mut unit = unit_with(vec![place(16, 1, 2)]);
        assert_eq!(unit.run(second()), Ok(vec![row(1, 7)]));
        let before = unit.places();
        let repeat = Request { content: 8, ..primary(16, period, requested, flags) };
        assert_eq!(unit.run(repeat), Ok(vec![row(0, 0)]));
        assert_eq!(unit.places(), before);
        assert_eq!(unit.run(second()), Ok(vec![row(2, 7)]));
        assert_eq!(unit.places(), []);
    }
}

#[test]
fn the_kind_of_the_start_decides_and_not_that_of_the_live_text() {
    let mut unit = unit_with(vec![place(16, 1, 2)]);
    let before = unit.places();
    assert_eq!(unit.run(start(16, 5, 0, 0)), Ok(vec![]), "SIB 8 is stopped by the zero rules");
    let mut other = Unit::empty();
    other.run(start(16, 1, 2, 0)).unwrap();
    assert_eq!(other.run(primary(16, 0, 0, 0)), Ok(vec![row(0, 0)]), "SIB 6 is not");
    assert_eq!(unit.places(), before);
    assert_eq!(other.places(), [Place { sib: 8, ..place(16, 1, 2) }]);
}

#[test]
fn the_other_kinds_keep_the_zero_rules_and_their_terms() {
    for sib in [7, 8] {
        for (period, requested, flags) in
            [(5, 0, 0), (0, 0, 0), (0, 2, 0), (0, 0, CONCURRENT), (0, 2, CONCURRENT)]
        {
            let mut unit = Unit::empty();
            let idle = Request { sib, ..start(16, period, requested, flags) };
            assert_eq!(unit.run(idle), Ok(vec![]));
            assert_eq!(unit.places(), []);
        }
        let mut unit = Unit::empty();
        unit.run(Request { sib, ..start(16, 2, 2, 0) }).unwrap();
        assert_eq!(unit.places(), [Place { sib, ..place(16, 2, 2) }]);
        unit.seconds(2);
        assert_eq!(unit.run(second()), Ok(vec![row(2, 7)]), "the second broadcast is the last");
        assert_eq!(unit.places(), []);
    }
}

#[test]
fn a_written_primary_reads_back_with_its_own_period_and_count() {
    for (period, requested) in [(5, 2), (0, 0), (0, 2), (4095, 65_535), (131_071, 1)] {
        let request = primary(16, period, requested, 0);
        let mut record = [0xa5; Record::HEADER];
        assert_eq!(write(request, &[], &mut record).number, 0);
        assert_eq!(record, *Record { request, items: vec![] }.encode());
        assert_eq!((read(&record).number, read(&record).request), (0, request));
    }
}
