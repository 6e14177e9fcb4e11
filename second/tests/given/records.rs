//! Records that are accepted: every kind, flag and area, values at their bounds, and lists that
//! match, miss and repeat.

use second::request::*;
use second::{Broadcasts, CellIdentity, Head, Layout, Record, Request, Seconds};

use super::heads::AREAS;
use super::random::Random;

pub const IDENTIFIERS: [u64; 3] = [0, 4370, 65_535];
pub const SERIALS: [u64; 4] = [0, 16, 17, 65_535];
pub const CONTENTS: [u64; 4] = [0, 7, 8, u32::MAX as u64];
const SHORT_PERIODS: [u32; 4] = [0, 1, 2, 3];
/// At the bound of each version, and at that of two bytes.
const LONG_PERIODS: [u32; 7] = [4094, 4095, 4096, 65_535, 65_536, 131_070, 131_071];
pub const COUNTS: [u64; 6] = [0, 1, 2, 3, 65_534, 65_535];

pub const KINDS: [u8; 5] = [WRITE_REPLACE, CANCEL, RESTART, FAILURE, SECOND];

/// An accepted record of any kind; starts and cancels more often than what empties the cells.
pub fn record(random: &mut Random, heads: &[Head]) -> Record {
    let kind = match random.below(16) {
        0 => RESTART,
        1 => FAILURE,
        2..=5 => CANCEL,
        6..=8 => SECOND,
        _ => WRITE_REPLACE,
    };
    of_kind(random, heads, kind)
}

pub fn of_kind(random: &mut Random, heads: &[Head], kind: u8) -> Record {
    let area = random.pick(areas_of(kind));
    in_area(random, heads, kind, area)
}

pub fn areas_of(kind: u8) -> &'static [u8] {
    match kind {
        WRITE_REPLACE | CANCEL => &[NO_AREA, IN_CELLS, IN_TRACKING_AREAS, IN_EMERGENCY_AREAS],
        RESTART | FAILURE => &[NO_AREA, IN_CELLS],
        _ => &[NO_AREA],
    }
}

pub fn in_area(random: &mut Random, heads: &[Head], kind: u8, area: u8) -> Record {
    let request = match kind {
        WRITE_REPLACE => start(random),
        CANCEL => cancel(random),
        _ => Request { kind, ..Request::default() },
    };
    let items = if area == NO_AREA { Vec::new() } else { items(random, heads, area) };
    Record { request: Request { area, ..request }, items }
}

/// Half the time a short one, so that texts go out often.
pub fn period(random: &mut Random, layout: &Layout) -> Seconds {
    let largest = layout.largest_period.0;
    let any = random.number() as u32 % (largest + 1);
    let short = random.pick(&SHORT_PERIODS);
    let long = random.pick(&LONG_PERIODS).min(largest);
    Seconds(random.pick(&[short, short, long, any]))
}

/// The bytes of an accepted record in either version, or in the one that takes its period.
pub fn encoded(random: &mut Random, record: &Record) -> Vec<u8> {
    let is_old = record.request.period <= Layout::VERSION_1.largest_period && random.one_in(2);
    record.encode_in(if is_old { &Layout::VERSION_1 } else { &Layout::CURRENT })
}

fn start(random: &mut Random) -> Request {
    Request {
        kind: WRITE_REPLACE,
        flags: random.pick(&[0, CONCURRENT, CONCURRENT]),
        area: NO_AREA,
        identifier: random.pick(&IDENTIFIERS) as u16,
        serial: random.pick_or_any(&SERIALS, 16) as u16,
        content: random.pick_or_any(&CONTENTS, 32) as u32,
        period: period(random, &Layout::CURRENT),
        requested: Broadcasts(random.pick_or_any(&COUNTS, 16) as u16),
        sib: random.pick(&[6, 7, 8]),
    }
}

fn cancel(random: &mut Random) -> Request {
    let flags = random.pick(&[CANCEL_ALL, NOTIFICATION, NOTIFICATION, CANCEL_ALL | NOTIFICATION]);
    let requested = Broadcasts(random.pick_or_any(&COUNTS, 16) as u16);
    let cancel = Request { kind: CANCEL, flags, requested, ..Request::default() };
    if flags & NOTIFICATION == 0 {
        return cancel;
    }
    let identifier = random.pick(&IDENTIFIERS) as u16;
    Request { identifier, serial: random.pick(&SERIALS) as u16, ..cancel }
}

/// A list for an area: of items that match a cell, of items that miss, or of both.
fn items(random: &mut Random, heads: &[Head], area: u8) -> Vec<u64> {
    let count = match random.below(24) {
        0 => random.pick(&[255, 256, 257, 511, 512]),
        1 => 1 + random.below(Record::MOST_ITEMS),
        2..=10 => 1,
        _ => 2 + random.below(6),
    };
    if random.one_in(4) {
        return one_match(random, heads, area, count);
    }
    let misses = random.pick(&[0, 0, 2, 4]);
    let mut items = Vec::with_capacity(count);
    for _ in 0..count {
        let repeated = !items.is_empty() && random.one_in(4);
        items.push(match random.below(4) {
            _ if repeated => items[random.below(items.len())],
            turn if turn < misses => missing(random, heads, area),
            _ => matching(random, heads, area),
        });
    }
    items
}

/// A list where one item alone is made to match: the first, the last or another.
pub fn one_match(random: &mut Random, heads: &[Head], area: u8, count: usize) -> Vec<u64> {
    let mut items = vec![missing(random, heads, area); count];
    let any = random.below(count);
    items[random.pick(&[0, count - 1, count - 1, any])] = matching(random, heads, area);
    items
}

fn matching(random: &mut Random, heads: &[Head], area: u8) -> u64 {
    let head = &heads[random.below(heads.len())];
    match area {
        IN_CELLS => head.identity.number(),
        IN_TRACKING_AREAS => head.tracking_area(),
        _ if head.areas.is_empty() => random.pick(&AREAS),
        _ => random.pick(&head.areas).into(),
    }
}

/// An item that lies beside a matching one, or anywhere; it matches by chance only.
fn missing(random: &mut Random, heads: &[Head], area: u8) -> u64 {
    let beside = matching(random, heads, area);
    let (largest, upper) = match area {
        IN_CELLS => (CellIdentity::LARGEST, 1 << CellIdentity::PART_WIDTH),
        IN_TRACKING_AREAS => (Head::LARGEST_TRACKING_AREA, 1 << 24),
        _ => (Head::LARGEST_AREA.into(), 1 << 8),
    };
    match random.below(4) {
        0 => beside.wrapping_add(1) & largest,
        1 => beside.wrapping_add(upper) & largest,
        2 => random.pick(&[0, largest]),
        _ => random.number() & largest,
    }
}
