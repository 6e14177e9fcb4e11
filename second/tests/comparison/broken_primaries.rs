//! Units with one fault each in what document 02 says of earthquake primaries.

use second::request::*;
use second::{apply, read, write, Broadcasts, Done, Layout, Place, Reading, Record, Refusal};
use second::{Request, Seconds, Table, EARTHQUAKE_PRIMARY};

use super::broken::{faulty_in_applying, refused, Apply};
use super::spoiled::{spoiled, with_request, Applied};
use super::unit::{Functions, SOUND};

/// Faults in applying.
const APPLYING: [(&str, Apply); 13] = [
    ("a primary keeps its period", |t, r, a| spoiled(t, r, a, keeps_its_period)),
    ("a primary keeps its count", |t, r, a| spoiled(t, r, a, keeps_its_count)),
    ("requested 0 without flag 1 stops a primary", |t, r, a| {
        with_request(t, r, a, |request| {
            stop_primary_if(request, |terms| terms.requested.0 == 0 && !terms.has(CONCURRENT))
        })
    }),
    ("period 0 with requested 0 stops a primary", |t, r, a| {
        with_request(t, r, a, |request| {
            stop_primary_if(request, |terms| terms.period.0 == 0 && terms.requested.0 == 0)
        })
    }),
    ("period 0 with requested 2 stops a primary", |t, r, a| {
        with_request(t, r, a, |request| {
            stop_primary_if(request, |terms| terms.period.0 == 0 && terms.requested.0 == 2)
        })
    }),
    ("SIB 7 is taken for a primary", taken_for_a_primary::<7>),
    ("SIB 8 is taken for a primary", taken_for_a_primary::<8>),
    ("a primary is always concurrent", |t, r, a| {
        with_request(t, r, a, |request| {
            request.flags |= if is_primary(request) { CONCURRENT } else { 0 }
        })
    }),
    ("a repeat makes a counted primary unending", |t, r, a| {
        spoiled(t, r, a, repeat_takes_the_count_away)
    }),
    ("a counted primary in a table does not end", |t, r, a| spoiled(t, r, a, does_not_end)),
    ("a primary in a table goes out every second", |t, r, a| {
        spoiled(t, r, a, goes_out_every_second)
    }),
    ("a counted primary makes a table wrong", a_counted_primary_is_wrong),
    ("a primary's period is not judged", its_period_is_not_judged),
];

/// All of them, by name.
pub fn broken_in_primaries() -> Vec<(&'static str, Functions)> {
    let mut units = faulty_in_applying(&APPLYING);
    units.extend([
        ("the reader gives a primary's stored terms", Functions { read: reads_stored, ..SOUND }),
        ("the writer writes a primary's stored terms", Functions { write: writes_stored, ..SOUND }),
    ]);
    units
}

fn is_primary(request: &Request) -> bool {
    request.kind == WRITE_REPLACE && request.sib == EARTHQUAKE_PRIMARY
}

/// Under another SIB kind the zero rules stop it, and nothing tells the SIB kind.
fn stop_primary_if(request: &mut Request, stopped: fn(&Request) -> bool) {
    if is_primary(request) && stopped(request) {
        request.sib = 8;
    }
}

/// Each place that the start of a primary made.
fn made(applied: &mut Applied) -> impl Iterator<Item = &mut Place> {
    let primary = is_primary(&applied.record.request);
    applied.started().filter(move |_| primary)
}

/// Period 0 aside, which no unending place may have.
fn keeps_its_period(applied: &mut Applied) {
    let period = applied.record.request.period.max(Seconds(1));
    made(applied).for_each(|place| place.period = period);
}

fn keeps_its_count(applied: &mut Applied) {
    let requested = applied.record.request.requested;
    made(applied).for_each(|place| place.requested = requested);
}

/// Starts of this SIB kind go as a primary's do, but for the SIB kind in the place.
fn taken_for_a_primary<const SIB: u8>(table: &mut [u8], record: &[u8], answer: &mut [u8]) -> Done {
    match Record::parse(record) {
        Ok(mut decoded) if decoded.request.kind == WRITE_REPLACE && decoded.request.sib == SIB => {
            decoded.request.sib = EARTHQUAKE_PRIMARY;
            spoiled(table, &decoded.encode(), answer, |applied| {
                made(applied).for_each(|place| place.sib = SIB)
            })
        }
        _ => apply(table, record, answer),
    }
}

fn repeat_takes_the_count_away(applied: &mut Applied) {
    let request = applied.record.request;
    let text = (request.identifier, request.serial);
    if is_primary(&request) {
        let places = applied.reached().flat_map(|(_, after)| &mut after.places);
        places
            .filter(|place| place.text() == text && place.sib == EARTHQUAKE_PRIMARY)
            .for_each(|place| *place = unending(place.clone()));
    }
}

/// Such a place as the start of a primary makes, with what it has sent.
fn unending(place: Place) -> Place {
    Place { period: Seconds(1), requested: Broadcasts(0), wait: Seconds(0), ..place }
}

/// At its last broadcast a primary stays at its place, without a count.
fn does_not_end(applied: &mut Applied) {
    if !applied.is(SECOND) {
        return;
    }
    for (before, after) in applied.reached() {
        let mut left = std::mem::take(&mut after.places).into_iter().peekable();
        for was in &before.places {
            let stays = left.next_if(|place| place.text() == was.text());
            let ended = || Place { sent: was.requested, ..unending(was.clone()) };
            let primary = was.sib == EARTHQUAKE_PRIMARY;
            after.places.extend(stays.or_else(|| primary.then(ended)));
        }
    }
}

fn goes_out_every_second(applied: &mut Applied) {
    if applied.is(SECOND) {
        let places = applied.reached().flat_map(|(_, after)| &mut after.places);
        let primaries = places.filter(|place| place.sib == EARTHQUAKE_PRIMARY);
        primaries.for_each(|place| place.wait = Seconds(0));
    }
}

fn a_counted_primary_is_wrong(table: &mut [u8], record: &[u8], answer: &mut [u8]) -> Done {
    let counted =
        |place: &Place| place.sib == EARTHQUAKE_PRIMARY && place.requested != Broadcasts(0);
    match Table::parse(table) {
        Ok(cells) if cells.cells.iter().flat_map(|cell| &cell.places).any(counted) => {
            refused(Refusal::Table)
        }
        _ => apply(table, record, answer),
    }
}

fn its_period_is_not_judged(table: &mut [u8], record: &[u8], answer: &mut [u8]) -> Done {
    let mut passed = record.to_vec();
    if (record.get(5), record.get(22)) == (Some(&WRITE_REPLACE), Some(&EARTHQUAKE_PRIMARY)) {
        passed[16..20].copy_from_slice(&[0, 0, 0, 1]);
    }
    apply(table, &passed, answer)
}

fn stored(request: Request) -> Request {
    if is_primary(&request) && request.period <= Layout::CURRENT.largest_period {
        Request { period: Seconds(1), requested: Broadcasts(0), ..request }
    } else {
        request
    }
}

fn reads_stored(record: &[u8]) -> Reading {
    let reading = read(record);
    Reading { request: stored(reading.request), ..reading }
}

fn writes_stored(request: Request, items: &[u64], record: &mut [u8]) -> Done {
    write(stored(request), items, record)
}
