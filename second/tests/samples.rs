//! Document 01's sample situations: P1 to P13, P2 as document 02 moves it, and the rows without a
//! mark.

mod one_cell;

use one_cell::{cancel, row, second, start, Unit, CELL};
use second::request::*;
use second::{item, Broadcasts, Place, Record, Request};

#[test]
fn p1_period_4095_starts() {
    let mut unit = Unit::empty();
    assert_eq!(unit.run(start(16, 4095, 2, 0)), Ok(vec![row(0, 0)]));
    assert_eq!(unit.places().len(), 1);
}

#[test]
fn p2_a_period_above_the_largest_is_refused() {
    assert_eq!(Unit::empty().run(start(16, 131_072, 2, 0)), Err(6));
}

#[test]
fn p3_requested_0_without_flag_1_starts_nothing() {
    let mut unit = Unit::empty();
    assert_eq!(unit.run(start(16, 5, 0, 0)), Ok(vec![]));
    assert_eq!(unit.places(), []);
}

#[test]
fn p4_requested_0_with_flag_1_has_no_end() {
    let mut unit = Unit::empty();
    assert_eq!(unit.run(start(16, 1, 0, CONCURRENT)), Ok(vec![row(0, 0)]));
    unit.seconds(1000);
    assert_eq!(unit.places()[0].sent, Broadcasts(1000));
}

#[test]
fn p5_period_0_is_one_broadcast() {
    let mut unit = Unit::empty();
    assert_eq!(unit.run(start(16, 0, 1, 0)), Ok(vec![row(0, 0)]));
    assert_eq!(unit.run(second()), Ok(vec![row(1, 7)]));
    assert_eq!(unit.places(), []);
}

#[test]
fn p6_period_0_requested_2_starts_nothing() {
    let mut unit = Unit::empty();
    assert_eq!(unit.run(start(16, 0, 2, 0)), Ok(vec![]));
    assert_eq!(unit.places(), []);
}

#[test]
fn p7_a_repeat_changes_nothing() {
    let mut unit = Unit::empty();
    unit.run(start(16, 1, 9, 0)).unwrap();
    unit.seconds(2);
    let before = unit.places();
    let other = Request { content: 8, sib: 6, ..start(16, 2, 5, CONCURRENT) };
    assert_eq!(unit.run(other), Ok(vec![row(0, 0)]));
    assert_eq!(unit.places(), before);
    assert_eq!(before[0].sent, Broadcasts(2));
    assert_eq!(unit.run(start(16, 1, 0, 0)), Ok(vec![]), "the zero rules come first");
}

#[test]
fn p8_a_fifth_text_finds_no_place() {
    let mut unit = Unit::empty();
    for serial in 1..=4 {
        assert_eq!(unit.run(start(serial, 1, 9, CONCURRENT)), Ok(vec![row(0, 0)]));
    }
    let before = unit.places();
    assert_eq!(unit.run(start(5, 1, 9, CONCURRENT)), Ok(vec![]));
    assert_eq!(unit.places(), before);
    assert_eq!(
        unit.run(start(4, 1, 9, CONCURRENT)),
        Ok(vec![row(0, 0)]),
        "a repeat in a full cell"
    );
}

#[test]
fn p9_a_new_text_without_flag_1_drops_the_others() {
    let mut unit = Unit::empty();
    for serial in 1..=4 {
        unit.run(start(serial, 1, 9, CONCURRENT)).unwrap();
    }
    assert_eq!(unit.run(start(5, 1, 9, 0)), Ok(vec![row(0, 0)]));
    assert_eq!(unit.places().iter().map(Place::text).collect::<Vec<_>>(), [(4370, 5)]);
}

#[test]
fn p10_to_p12_a_cancel_gives_the_sent_count_once() {
    for (flags, items, count) in [
        (NOTIFICATION, &[][..], 2),
        (CANCEL_ALL, &[], 0),
        (CANCEL_ALL | NOTIFICATION, &[], 0),
        (NOTIFICATION, &[CELL, CELL], 2),
    ] {
        let mut unit = Unit::empty();
        unit.run(start(16, 1, 9, 0)).unwrap();
        unit.seconds(2);
        let area = if items.is_empty() { NO_AREA } else { IN_CELLS };
        let cancel = Request { area, ..cancel(16, flags) };
        assert_eq!(unit.apply(cancel, items), Ok(vec![row(count, 0)]));
        assert_eq!(unit.places(), []);
        assert_eq!(unit.apply(cancel, items), Ok(vec![]), "nothing is left to stop");
    }
}

#[test]
fn p13_a_cancel_of_nothing_is_refused() {
    assert_eq!(Unit::empty().run(cancel(0, 0)), Err(7));
}

#[test]
fn the_most_items_are_512() {
    let mut unit = Unit::empty();
    let start = Request { area: IN_CELLS, ..start(16, 1, 9, 0) };
    assert_eq!(unit.apply(start, &[CELL; 513]), Err(4));
    assert_eq!(unit.apply(start, &[CELL; 512]), Ok(vec![row(0, 0)]));
    let record = Record { request: start, items: vec![CELL; 512] }.encode();
    assert_eq!((item(&record, 511), item(&record, 512)), (CELL, 0));
}

#[test]
fn an_unending_text_stays_at_65535_sent() {
    let mut unit = Unit::empty();
    unit.run(start(16, 1, 0, CONCURRENT)).unwrap();
    unit.seconds(65_534);
    assert_eq!(unit.run(second()), Ok(vec![row(65_535, 7)]));
    assert_eq!(unit.run(second()), Ok(vec![row(65_535, 7)]));
    assert_eq!(unit.places()[0].sent, Broadcasts(65_535));
}

#[test]
fn an_area_without_items_is_refused() {
    assert_eq!(Unit::empty().run(Request { area: IN_CELLS, ..start(16, 1, 9, 0) }), Err(5));
}

#[test]
fn restart_reports_every_cell_and_failure_those_with_a_live_place() {
    let mut unit = Unit::empty();
    let (restart, failure) =
        (Request { kind: RESTART, ..second() }, Request { kind: FAILURE, ..second() });
    assert_eq!(unit.run(failure), Ok(vec![]));
    assert_eq!(unit.run(restart), Ok(vec![row(0, 0)]));
    for stop in [failure, restart] {
        unit.run(start(16, 1, 9, 0)).unwrap();
        assert_eq!(unit.run(stop), Ok(vec![row(0, 0)]));
        assert_eq!(unit.places(), []);
    }
}

#[test]
fn the_rest_close_up_in_order() {
    let mut unit = Unit::empty();
    for serial in 1..=4 {
        unit.run(start(serial, u32::from(serial), 2, CONCURRENT)).unwrap();
    }
    assert_eq!(unit.run(cancel(2, NOTIFICATION)), Ok(vec![row(0, 0)]));
    assert_eq!(unit.run(second()), Ok(vec![row(1, 7); 3]));
    assert_eq!(unit.run(second()), Ok(vec![row(2, 7)]), "period 1 ends");
    assert_eq!(unit.places().iter().map(|place| place.serial).collect::<Vec<_>>(), [3, 4]);
    assert_eq!(unit.places().iter().map(|place| place.wait.0).collect::<Vec<_>>(), [1, 2]);
}
