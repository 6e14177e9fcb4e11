//! Tables with live places at every boundary.

use second::{Broadcasts, Cell, Head, Layout, Place, Seconds, Table};

use crate::given::random::Random;
use crate::given::records::{period, CONTENTS, COUNTS, IDENTIFIERS, SERIALS};

/// A table of these heads that is legal in the current version.
pub fn table(random: &mut Random, heads: &[Head]) -> Table {
    table_in(&Layout::CURRENT, random, heads)
}

/// A table of these heads that is legal in this layout, with 0 to 4 live places in each cell.
pub fn table_in(layout: &Layout, random: &mut Random, heads: &[Head]) -> Table {
    let cell = |head: &Head| Cell { head: head.clone(), places: places(layout, random) };
    Table { cells: heads.iter().map(cell).collect() }
}

fn places(layout: &Layout, random: &mut Random) -> Vec<Place> {
    let live = random.below(Cell::PLACES + 1);
    let mut places: Vec<Place> = Vec::new();
    while places.len() < live {
        let place = place(layout, random);
        if places.iter().all(|other| other.text() != place.text()) {
            places.push(place);
        }
    }
    places
}

fn place(layout: &Layout, random: &mut Random) -> Place {
    let period = period(random, layout);
    let requested = if period == Seconds(0) { 1 } else { random.pick_or_any(&COUNTS, 16) };
    let sent = match requested {
        0 => random.pick_or_any(&[0, 1, 65_534, 65_535], 16),
        _ => below(random, requested),
    };
    Place {
        identifier: random.pick(&IDENTIFIERS) as u16,
        serial: random.pick(&SERIALS) as u16,
        content: random.pick_or_any(&CONTENTS, 32) as u32,
        period,
        requested: Broadcasts(requested as u16),
        sent: Broadcasts(sent as u16),
        wait: Seconds(below(random, period.0.max(1).into()) as u32),
        sib: random.pick(&[6, 7, 8]),
    }
}

/// A number below the bound: mostly at one of its ends, or at that of two bytes.
fn below(random: &mut Random, bound: u64) -> u64 {
    let any = random.number() % bound;
    let two_bytes = random.pick(&[65_535, 65_536]) % bound;
    random.pick(&[0, 0, 1 % bound, bound - 1, bound - 1, two_bytes, any])
}
