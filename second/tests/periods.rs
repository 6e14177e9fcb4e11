//! Document 02's periods above an hour: the limits of both record versions, and texts that run with
//! such a period.

mod one_cell;

use one_cell::{cancel, row, second, start, Unit};
use second::request::{CONCURRENT, NOTIFICATION};
use second::{apply, read, write, Answer, Layout, Record, Request, Seconds, SIB_KINDS};

/// The number that both the reader and applying give to a record.
fn number(record: &[u8]) -> u32 {
    let mut answer = [0; 12 + 56];
    let applied = apply(&mut Unit::empty().table, record, &mut answer).number;
    assert_eq!(read(record).number, applied, "the reader and applying differ");
    applied
}

fn encoded(request: Request, layout: Layout) -> Vec<u8> {
    Record { request, items: vec![] }.encode_in(&layout)
}

#[test]
fn the_largest_period_starts() {
    let mut unit = Unit::empty();
    assert_eq!(unit.run(start(16, 131_071, 2, 0)), Ok(vec![row(0, 0)]));
    assert_eq!(unit.places()[0].period, Seconds(131_071));
    assert_eq!(unit.run(second()), Ok(vec![row(1, 7)]));
    assert_eq!(unit.places()[0].wait, Seconds(131_070));
}

#[test]
fn the_largest_period_runs_whole() {
    let mut unit = Unit::empty();
    unit.run(start(16, 131_071, 2, 0)).unwrap();
    assert_eq!(unit.run(second()), Ok(vec![row(1, 7)]));
    for left in (0..131_070).rev() {
        assert_eq!(unit.run(second()), Ok(vec![]), "{left} seconds to wait");
        assert_eq!(unit.places()[0].wait, Seconds(left));
    }
    assert_eq!(unit.run(second()), Ok(vec![row(2, 7)]));
    assert_eq!(unit.places(), []);
}

#[test]
fn a_quarry_notice_goes_out_every_two_hours() {
    let mut unit = Unit::empty();
    unit.run(start(16, 7200, 0, CONCURRENT)).unwrap();
    for count in 1..=3 {
        assert_eq!(unit.run(second()), Ok(vec![row(count, 7)]));
        unit.seconds(7199);
    }
    assert_eq!(unit.run(cancel(16, NOTIFICATION)), Ok(vec![row(3, 0)]));
}

#[test]
fn each_record_version_has_its_own_limit() {
    for sib in SIB_KINDS {
        let number =
            |period, layout| number(&encoded(Request { sib, ..start(16, period, 2, 0) }, layout));
        for (layout, largest) in [(Layout::VERSION_1, 4095), (Layout::VERSION_2, 131_071)] {
            assert_eq!(number(0, layout), 0);
            assert_eq!(number(largest, layout), 0);
            assert_eq!(number(largest + 1, layout), 6);
            assert_eq!(number(u32::MAX, layout), 6);
        }
        assert_eq!(number(131_071, Layout::VERSION_1), 6);
        assert_eq!(number(4096, Layout::VERSION_2), 0);
    }
}

#[test]
fn the_writer_has_the_new_limit() {
    let written = |period| write(start(16, period, 2, 0), &[], &mut [0; Record::HEADER]).number;
    assert_eq!([4095, 4096, 131_071, 131_072].map(written), [0, 0, 0, 6]);
}

#[test]
fn a_record_of_any_other_version_is_refused() {
    let mut record = encoded(start(16, 2, 3, 0), Layout::CURRENT);
    for version in 0..=u16::MAX {
        record[3..5].copy_from_slice(&version.to_be_bytes());
        let expected = if [1, 2].contains(&version) { 0 } else { 3 };
        assert_eq!(read(&record).number, expected, "version {version}");
    }
    for version in [0, 1, 2, 3, 0x0100, 0x0102, 0x0201] {
        record[3..5].copy_from_slice(&u16::to_be_bytes(version));
        assert_eq!(number(&record), read(&record).number, "version {version}");
    }
}

#[test]
fn a_version_1_record_comes_back_as_version_2_with_the_same_fields() {
    for request in [start(16, 4095, 2, 0), start(17, 5, 0, CONCURRENT), cancel(16, 4), second()] {
        let old = encoded(request, Layout::VERSION_1);
        let reading = read(&old);
        assert_eq!((reading.number, reading.request), (0, request));
        let mut written = [0xa5; Record::HEADER];
        assert_eq!(write(reading.request, &[], &mut written).number, 0);
        assert_eq!(written[..], encoded(request, Layout::VERSION_2));
        assert_eq!((written[..5].to_vec(), &written[5..]), (b"PWR\x00\x02".to_vec(), &old[5..]));
    }
}

#[test]
fn both_record_versions_are_answered_alike() {
    let mut units = [Unit::empty(), Unit::empty()];
    for request in [start(16, 2, 3, 0), second(), second(), second(), cancel(16, NOTIFICATION)] {
        let layouts = [Layout::VERSION_1, Layout::VERSION_2];
        let answers: Vec<Answer> = units
            .iter_mut()
            .zip(layouts)
            .map(|(unit, layout)| {
                let mut answer = [0; 12 + 56];
                let done = apply(&mut unit.table, &encoded(request, layout), &mut answer);
                Answer::parse(&answer[..done.length]).unwrap()
            })
            .collect();
        assert_eq!(answers[0], answers[1]);
        assert_eq!(units[0].table, units[1].table);
    }
}
