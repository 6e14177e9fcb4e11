//! Units with one fault each in converting.

use second::EARTHQUAKE_PRIMARY;
use second::{convert, Broadcasts, Done, Layout, Place, Refusal, Seconds, Table};

use super::broken::{refused, short_by, with_byte};
use super::unit::{Functions, SOUND};

type Convert = fn(&[u8], &mut [u8]) -> Done;

const CONVERTING: [(&str, Convert); 30] = [
    ("a converted text has sent nothing", |o, t| {
        in_places(o, t, |place| place.sent = Broadcasts(0))
    }),
    ("a converted text waits no more", |o, t| in_places(o, t, |place| place.wait = Seconds(0))),
    ("a converted wait is a second less", |o, t| {
        in_places(o, t, |place| place.wait.0 = place.wait.0.saturating_sub(1))
    }),
    ("a converted wait has its bytes swapped", |o, t| {
        in_places(o, t, |place| place.wait.0 = u16::swap_bytes(place.wait.0 as u16).into())
    }),
    ("a converted wait stands in the upper bytes", |o, t| {
        in_places(o, t, |place| place.wait.0 <<= 16)
    }),
    ("a converted wait is kept in a byte", |o, t| in_places(o, t, |place| place.wait.0 %= 256)),
    ("a converted period is kept in a byte", |o, t| in_places(o, t, |place| place.period.0 %= 256)),
    ("a converted period stands in the upper bytes", |o, t| {
        in_places(o, t, |place| place.period.0 <<= 16)
    }),
    ("a converted text starts anew", |o, t| {
        in_places(o, t, |place| (place.sent, place.wait) = (Broadcasts(0), Seconds(0)))
    }),
    ("a converted primary has no end", |o, t| in_places(o, t, is_without_end)),
    ("a fourth place is not converted", |o, t| {
        in_table(o, t, |table| table.cells.iter_mut().for_each(|cell| cell.places.truncate(3)))
    }),
    ("converted places are in another order", |o, t| {
        in_table(o, t, |table| table.cells.iter_mut().for_each(|cell| cell.places.reverse()))
    }),
    ("cells from the 257th on are converted empty", |o, t| {
        in_table(o, t, |table| {
            table.cells.iter_mut().skip(256).for_each(|cell| cell.places.clear())
        })
    }),
    ("a converted table is still version 1", |o, t| {
        let done = convert(o, t);
        t.get_mut(4).filter(|_| done.number == 0).into_iter().for_each(|version| *version = 1);
        done
    }),
    ("free places are not converted", free_places_are_not),
    ("a version 2 table is converted too", |o, t| match Table::parse(o) {
        Ok(carried) => laid(&carried.encode(), t),
        Err(_) => convert(o, t),
    }),
    ("any version is converted", |o, t| convert(&with_byte(o, 4, 1), t)),
    ("any upper byte of a version is converted", |o, t| convert(&with_byte(o, 3, 0), t)),
    ("the old table has the new limit", |o, t| limited_to(131_071, o, t)),
    ("the old table has a limit of 4096", |o, t| limited_to(4096, o, t)),
    ("the old table has a limit of 4094", |o, t| limited_to(4094, o, t)),
    ("bytes behind the old table are passed over", |o, t| {
        let length = o.get(6).map_or(0, |cells| Layout::VERSION_1.table((*cells).into()));
        convert(&o[..o.len().min(length.max(5))], t)
    }),
    ("for the converter 8 comes before 2", |o, t| eight_before(o, t, 2)),
    ("for the converter 8 comes before 1", |o, t| eight_before(o, t, 1)),
    ("for the converter 2 comes before 1", |o, t| {
        let is_2 = convert(&with_byte(o, 4, 1), &mut []).number == 2;
        match convert(o, t) {
            done if done.number == 1 && is_2 => refused(Refusal::Table),
            done => done,
        }
    }),
    ("an exact table has no room to be converted", |o, t| convert(o, short_by(t, 1))),
    ("a converted table may miss a byte of room", |o, t| may_miss(1, o, t)),
    ("the old table's room is enough", |o, t| {
        may_miss(Layout::CURRENT.cell() - Layout::VERSION_1.cell(), o, t)
    }),
    ("the byte behind the converted table is zeroed", |o, t| {
        let done = convert(o, t);
        t.get_mut(done.length).filter(|_| done.number == 0).into_iter().for_each(|byte| *byte = 0);
        done
    }),
    ("a refusal clears the table", |o, t| {
        let done = convert(o, t);
        t.iter_mut().filter(|_| done.number != 0).for_each(|byte| *byte = 0);
        done
    }),
];

/// All of them, by name.
pub fn broken_in_conversions() -> Vec<(&'static str, Functions)> {
    let converting = CONVERTING.iter();
    converting.map(|(name, convert)| (*name, Functions { convert: *convert, ..SOUND })).collect()
}

/// Converts soundly, then lets an accepted table be spoiled.
fn in_table(old: &[u8], table: &mut [u8], spoil: impl Fn(&mut Table)) -> Done {
    let done = convert(old, table);
    let written = &mut table[..done.length];
    if let Ok(mut decoded) = Table::parse(written) {
        spoil(&mut decoded);
        written.copy_from_slice(&decoded.encode());
    }
    done
}

fn in_places(old: &[u8], table: &mut [u8], spoil: fn(&mut Place)) -> Done {
    in_table(old, table, |decoded| {
        decoded.cells.iter_mut().flat_map(|cell| &mut cell.places).for_each(spoil)
    })
}

fn is_without_end(place: &mut Place) {
    if place.sib == EARTHQUAKE_PRIMARY {
        (place.period, place.wait) = (Seconds(1), Seconds(0));
        place.requested = Broadcasts(0);
    }
}

/// What lay in the buffer stays where a cell's last place is free.
fn free_places_are_not(old: &[u8], table: &mut [u8]) -> Done {
    let before = table.to_vec();
    let done = convert(old, table);
    for cell in 0..done.length.saturating_sub(Table::HEADER) / Layout::CURRENT.cell() {
        let end = Layout::CURRENT.table(cell + 1);
        let last = end - Layout::CURRENT.place()..end;
        if table[last.clone()].iter().all(|byte| *byte == 0) {
            table[last.clone()].copy_from_slice(&before[last]);
        }
    }
    done
}

fn laid(written: &[u8], table: &mut [u8]) -> Done {
    match table.get_mut(..written.len()) {
        Some(part) => {
            part.copy_from_slice(written);
            Done { number: 0, length: written.len() }
        }
        None => refused(Refusal::Room),
    }
}

/// Converts by version 1's rules but for the largest period.
fn limited_to(largest: u32, old: &[u8], table: &mut [u8]) -> Done {
    let layout = Layout { largest_period: Seconds(largest), ..Layout::VERSION_1 };
    match Table::parse_in(&layout, old) {
        Ok(carried) => laid(&carried.encode(), table),
        Err(refusal) => refused(refusal),
    }
}

fn eight_before(old: &[u8], table: &mut [u8], number: u32) -> Done {
    match convert(old, table) {
        done if done.number == number && table.len() < Layout::CURRENT.table(1) => {
            refused(Refusal::Room)
        }
        done => done,
    }
}

/// Converts also where so many bytes of room are missing, as far as there is room.
fn may_miss(bytes: usize, old: &[u8], table: &mut [u8]) -> Done {
    let mut roomy = [&*table, &vec![0; bytes]].concat();
    let done = convert(old, &mut roomy);
    table.copy_from_slice(&roomy[..table.len()]);
    done
}
