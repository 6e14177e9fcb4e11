//! Rules of a live place, each broken on its own.

use second::{Broadcasts, Layout, Place, Seconds};

pub type Spoil = fn(&mut Place, &Layout);

/// Each rule of a live place, broken.
const PLACES: [(&str, Spoil); 15] = [
    ("period above the largest", |place, layout| place.period = above(layout)),
    ("period all ones", |place, layout| place.period = all_ones(layout)),
    ("period 0, requested 0", |place, _| set(place, 0, 0, 0, 0)),
    ("period 0, requested 2", |place, _| set(place, 0, 2, 0, 0)),
    ("period 0, wait 1", |place, _| set(place, 0, 1, 0, 1)),
    ("period 1, wait 1", |place, _| set(place, 1, 3, 0, 1)),
    ("wait equal to the largest period", |place, layout| {
        (place.period, place.wait) = (layout.largest_period, layout.largest_period)
    }),
    ("wait all ones", |place, layout| place.wait = all_ones(layout)),
    ("sent equal to requested", |place, _| set(place, 2, 3, 3, 0)),
    ("sent above requested", |place, _| set(place, 2, 3, 65_535, 0)),
    ("sent and requested 65535", |place, _| set(place, 2, 65_535, 65_535, 0)),
    ("SIB kind 0", |place, _| place.sib = 0),
    ("SIB kind 5", |place, _| place.sib = 5),
    ("SIB kind 9", |place, _| place.sib = 9),
    ("SIB kind 255", |place, _| place.sib = 255),
];

/// What four bytes can hold, legal but for bits above those of a legal count of seconds.
const WIDE_PLACES: [(&str, Spoil); 6] = [
    ("period 2 above 2^17", |place, _| place.period = Seconds((1 << 17) + 2)),
    ("period 2 above 2^24", |place, _| place.period = Seconds((1 << 24) + 2)),
    ("wait 1 above 2^16", |place, _| place.wait = Seconds((1 << 16) + 1)),
    ("wait 1 above 2^24", |place, _| place.wait = Seconds((1 << 24) + 1)),
    ("period and wait 65536", |place, _| set(place, 65_536, 9, 4, 65_536)),
    ("period 65536, wait 65537", |place, _| set(place, 65_536, 9, 4, 65_537)),
];

/// Those that a place of this layout has room for.
pub fn spoils(layout: &Layout) -> impl Iterator<Item = &'static (&'static str, Spoil)> {
    let wide = if layout.seconds_width == 4 { &WIDE_PLACES[..] } else { &[] };
    PLACES.iter().chain(wide)
}

fn set(place: &mut Place, period: u32, requested: u16, sent: u16, wait: u32) {
    (place.period, place.wait) = (Seconds(period), Seconds(wait));
    (place.requested, place.sent) = (Broadcasts(requested), Broadcasts(sent));
}

fn above(layout: &Layout) -> Seconds {
    Seconds(layout.largest_period.0 + 1)
}

/// The most seconds that a place's bytes can hold.
fn all_ones(layout: &Layout) -> Seconds {
    Seconds(u32::MAX >> (u32::BITS as usize - 8 * layout.seconds_width))
}

/// The places of a full cell, far from every bound.
pub fn full() -> Vec<Place> {
    let place = |serial| Place {
        identifier: 4370,
        serial,
        content: 7,
        period: Seconds(3),
        requested: Broadcasts(9),
        sent: Broadcasts(4),
        wait: Seconds(1),
        sib: 8,
    };
    (1..=4).map(place).collect()
}
