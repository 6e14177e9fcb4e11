//! Units with one fault each in reading a segment or in packing.

use std::ops::Range;

use super::broken_packings::PACKING;
use super::lists::{ends, places, whole, MOST};
use super::part::{segment, Part};
use super::unit::{Functions, SOUND};

type Segment = fn(&[u8], &[u8], usize) -> Part;

/// Faults in reading.
const READING: [(&str, Segment); 25] = [
    ("a length is little-endian", is_little_endian),
    ("a length has a sign", |f, m, k| {
        let long = whole(m).iter().any(|place| place.len() > 32_767);
        refused_if(long, 10, || segment(f, m, k))
    }),
    ("11 comes before 10", |f, m, k| refused_if(whole(m).len() > MOST, 11, || segment(f, m, k))),
    ("12 comes before 11", |f, m, k| twelve_before(f, m, k, 11)),
    ("12 comes before 10", |f, m, k| twelve_before(f, m, k, 10)),
    ("k = 0 is not judged", |f, m, k| segment(f, if k == 0 { &[] } else { m }, k)),
    ("the list is judged up to k", |f, m, k| taken_if(f, m, k, k <= whole(m).len().min(MOST))),
    ("64 segments are read", |f, m, k| {
        taken_if(f, m, k, whole(m).len() == 64 && ends(m) == m.len())
    }),
    ("63 segments are too many", |f, m, k| {
        let legal = whole(m).len() == MOST && ends(m) == m.len();
        refused_if(legal, 11, || segment(f, m, k))
    }),
    ("segments are counted in a byte", |f, m, k| counted(f, m, k, 8)),
    ("segments are counted in 16 bits", |f, m, k| counted(f, m, k, 16)),
    ("k is kept in a byte", |f, m, k| segment(f, m, k % (1 << 8))),
    ("k is kept in 32 bits", |f, m, k| segment(f, m, k % (1 << 32))),
    ("the neighbour is read", |f, m, k| segment(f, m, k.saturating_add((k > 0).into()))),
    ("the additional ones count from 0", |f, m, k| segment(f, m, k.saturating_add(1))),
    ("a part segment is passed over", |f, m, k| segment(f, &m[..ends(m)], k)),
    ("half a length is passed over", |f, m, k| {
        segment(f, if ends(m) + 1 == m.len() { &m[..ends(m)] } else { m }, k)
    }),
    ("an empty list is damaged", |f, m, k| refused_if(m.is_empty(), 10, || segment(f, m, k))),
    ("an empty segment is damaged", |f, m, k| {
        refused_if(whole(m).iter().any(Range::is_empty), 10, || segment(f, m, k))
    }),
    ("an empty segment ends the list", |f, m, k| {
        let empty = whole(m).into_iter().find(Range::is_empty);
        segment(f, &m[..empty.map_or(m.len(), |place| place.end)], k)
    }),
    ("an empty part has no place", |f, m, k| {
        let part = segment(f, m, k);
        Part { start: if part.length == 0 { 0 } else { part.start }, ..part }
    }),
    ("a part lies in the other buffer", |f, m, k| {
        let part = segment(f, m, k);
        Part { buffer: if part.number == 0 { 1 - part.buffer } else { 0 }, ..part }
    }),
    ("a part starts at its length", |f, m, k| {
        let part = segment(f, m, k);
        Part { start: part.start.saturating_sub(2), ..part }
    }),
    ("the first one is behind a length", |f, m, k| match segment(f, m, k) {
        part if k > 0 || part.length < 2 => part,
        part => Part { start: 2, length: part.length - 2, ..part },
    }),
    ("a refused part has a place", |f, m, k| {
        let part = segment(f, m, k);
        Part { start: if part.number == 12 { m.len() } else { part.start }, ..part }
    }),
];

/// All of them, by name.
pub fn broken_in_segments() -> Vec<(&'static str, Functions)> {
    let reading =
        READING.iter().map(|(name, segment)| (*name, Functions { segment: *segment, ..SOUND }));
    let packing = PACKING.iter().map(|(name, pack)| (*name, Functions { pack: *pack, ..SOUND }));
    reading.chain(packing).collect()
}

fn refused_if(chosen: bool, number: u32, sound: impl FnOnce() -> Part) -> Part {
    if chosen {
        Part::refused(number)
    } else {
        sound()
    }
}

/// Segment k of these places, without a judgement of the list.
fn taken(first: &[u8], k: usize, places: &[Range<usize>]) -> Part {
    let accepted = |buffer, place: Range<usize>| Part {
        buffer,
        start: place.start,
        length: place.len(),
        ..Part::default()
    };
    match k.checked_sub(1).map(|k| places.get(k)) {
        None => accepted(0, 0..first.len()),
        Some(Some(place)) => accepted(1, place.clone()),
        Some(None) => Part::refused(12),
    }
}

/// Without a judgement of the list if so chosen.
fn taken_if(first: &[u8], more: &[u8], k: usize, chosen: bool) -> Part {
    if chosen {
        taken(first, k, &whole(more))
    } else {
        segment(first, more, k)
    }
}

fn is_little_endian(first: &[u8], more: &[u8], k: usize) -> Part {
    let places = places(more, u16::from_le_bytes);
    let damaged = places.last().map_or(0, |place| place.end) != more.len();
    refused_if(damaged, 10, || refused_if(places.len() > MOST, 11, || taken(first, k, &places)))
}

fn counted(first: &[u8], more: &[u8], k: usize, width: u32) -> Part {
    let mut places = whole(more);
    places.truncate(places.len() % (1 << width));
    if ends(more) == more.len() && places.len() <= MOST {
        taken(first, k, &places)
    } else {
        segment(first, more, k)
    }
}

fn twelve_before(first: &[u8], more: &[u8], k: usize, number: u32) -> Part {
    let part = segment(first, more, k);
    refused_if(part.number == number && k > whole(more).len(), 12, || part)
}
