//! Units with one fault each in what document 02 says of periods above an hour: the versions, the
//! limits, and waits of more than two bytes.

use second::request::*;
use second::{apply, apply_in, build, read, write, Done, Head, Layout, Reading, Refusal, Request};
use second::{Seconds, Table};

use super::broken::{faulty_in_applying, refused, with_byte, Apply};
use super::spoiled::{spoiled, Applied};
use super::unit::{Functions, SOUND};

const OLD_LIMIT: Seconds = Layout::VERSION_1.largest_period;

/// Faults in applying.
const APPLYING: [(&str, Apply); 19] = [
    ("a version 2 record has the old limit", |t, r, a| apply(t, &renumbered(r, 2, 1), a)),
    ("a version 1 record has the new limit", |t, r, a| apply(t, &renumbered(r, 1, 2), a)),
    ("a version 1 record is refused", |t, r, a| apply(t, &renumbered(r, 1, 0), a)),
    ("a version 0 record is applied", |t, r, a| apply(t, &renumbered(r, 0, 1), a)),
    ("a version 3 record is applied", |t, r, a| apply(t, &renumbered(r, 3, 2), a)),
    ("a record's version is its lower byte", |t, r, a| apply(t, &with_byte(r, 3, 0), a)),
    ("a version 1 table is applied to", |t, r, a| {
        let is_old = Table::parse_in(&Layout::VERSION_1, t).is_ok();
        apply_in(if is_old { &Layout::VERSION_1 } else { &Layout::CURRENT }, t, r, a)
    }),
    ("a version 1 table gives 2", |t, r, a| match apply(t, r, a) {
        _ if Table::parse_in(&Layout::VERSION_1, t).is_ok() => refused(Refusal::Table),
        done => done,
    }),
    ("a table has the old limit", |t, r, a| apply_in(&limited_to(OLD_LIMIT.0), t, r, a)),
    ("a table has a limit of 65,535", |t, r, a| apply_in(&limited_to(65_535), t, r, a)),
    ("a table has a limit of 131,070", |t, r, a| apply_in(&limited_to(131_070), t, r, a)),
    ("a table has a limit of 131,072", |t, r, a| apply_in(&limited_to(131_072), t, r, a)),
    ("a table has no limit", |t, r, a| apply_in(&limited_to(u32::MAX), t, r, a)),
    ("a table's wait is judged in two bytes", a_wait_is_judged_in_two_bytes),
    ("a wait is kept in two bytes", |t, r, a| {
        spoiled(t, r, a, |applied| in_seconds(applied, |wait| wait % (1 << 16)))
    }),
    ("a wait is held at 65,535", |t, r, a| {
        spoiled(t, r, a, |applied| in_seconds(applied, |wait| wait.min((1 << 16) - 1)))
    }),
    ("a wait goes down in its lower bytes alone", |t, r, a| {
        spoiled(t, r, a, |applied| in_seconds(applied, without_borrow))
    }),
    ("a stored period is kept in two bytes", |t, r, a| {
        spoiled(t, r, a, |applied| applied.started().for_each(|place| place.period.0 %= 1 << 16))
    }),
    ("a stored period is held at the old limit", |t, r, a| {
        spoiled(t, r, a, |applied| {
            applied.started().for_each(|place| place.period = place.period.min(OLD_LIMIT))
        })
    }),
];

type Read = fn(&[u8]) -> Reading;

const READING: [(&str, Read); 6] = [
    ("the reader has the old limit for version 2", |r| read(&renumbered(r, 2, 1))),
    ("the reader has the new limit for version 1", |r| read(&renumbered(r, 1, 2))),
    ("the reader refuses version 1", |r| read(&renumbered(r, 1, 0))),
    ("the reader takes version 0", |r| read(&renumbered(r, 0, 1))),
    ("the reader takes version 3", |r| read(&renumbered(r, 3, 2))),
    ("the reader takes any upper byte of a version", |r| read(&with_byte(r, 3, 0))),
];

/// All of them, by name.
pub fn broken_in_periods() -> Vec<(&'static str, Functions)> {
    let mut units = faulty_in_applying(&APPLYING);
    units.extend(READING.map(|(name, read)| (name, Functions { read, ..SOUND })));
    units.extend([
        ("the writer has the old limit", Functions { write: writes_an_hour, ..SOUND }),
        ("the writer writes version 1", Functions { write: writes_version_1, ..SOUND }),
        ("a table is built in version 1", Functions { build: builds_version_1, ..SOUND }),
    ]);
    units
}

/// A record of one version as a record of another.
fn renumbered(record: &[u8], from: u16, to: u16) -> Vec<u8> {
    let mut record = record.to_vec();
    let version = record.get_mut(3..5).filter(|version| **version == from.to_be_bytes());
    version.into_iter().for_each(|version| version.copy_from_slice(&to.to_be_bytes()));
    record
}

/// The current version but for a table's largest period; records keep their own.
fn limited_to(largest: u32) -> Layout {
    Layout { largest_period: Seconds(largest), ..Layout::CURRENT }
}

/// The upper bytes of each wait are passed over where nothing else is wrong.
fn a_wait_is_judged_in_two_bytes(table: &mut [u8], record: &[u8], answer: &mut [u8]) -> Done {
    let mut passed = table.to_vec();
    for (offset, byte) in passed.iter_mut().skip(Table::HEADER).enumerate() {
        let in_places = (offset % Layout::CURRENT.cell()).checked_sub(Head::LENGTH);
        let in_place = in_places.map(|offset| offset % Layout::CURRENT.place());
        if [Some(16), Some(17)].contains(&in_place) {
            *byte = 0;
        }
    }
    if Table::parse(table).is_ok() || Table::parse(&passed).is_err() {
        return apply(table, record, answer);
    }
    let done = apply(&mut passed, record, answer);
    table.copy_from_slice(&passed);
    done
}

/// Each wait that a second leaves, as a function of the sound one.
fn in_seconds(applied: &mut Applied, kept: fn(u32) -> u32) {
    if applied.is(SECOND) {
        let places = applied.reached().flat_map(|(_, after)| &mut after.places);
        places.for_each(|place| place.wait = Seconds(kept(place.wait.0)));
    }
}

/// 65,536 does not go down to 65,535, since its upper bytes stay.
fn without_borrow(wait: u32) -> u32 {
    if wait == (1 << 16) - 1 {
        (1 << 17) - 1
    } else {
        wait
    }
}

fn writes_an_hour(request: Request, items: &[u64], record: &mut [u8]) -> Done {
    let done = write(request, items, &mut record.to_vec());
    if request.period > OLD_LIMIT && [0, 8].contains(&done.number) {
        return refused(Refusal::RecordValue);
    }
    write(request, items, record)
}

fn writes_version_1(request: Request, items: &[u64], record: &mut [u8]) -> Done {
    let done = write(request, items, record);
    let written = renumbered(&record[..done.length], 2, 1);
    record[..done.length].copy_from_slice(&written);
    done
}

fn builds_version_1(heads: &[u8], table: &mut [u8]) -> Done {
    let done = build(heads, table);
    match Table::parse(&table[..done.length]) {
        Ok(built) => {
            let old = built.encode_in(&Layout::VERSION_1);
            table[..old.len()].copy_from_slice(&old);
            Done { length: old.len(), ..done }
        }
        Err(_) => done,
    }
}
