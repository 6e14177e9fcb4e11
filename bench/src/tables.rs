//! The tables of the workloads: cells of one operator, their emergency areas and live places.

use second::{Broadcasts, Cell, CellIdentity, Head, Layout, Place, Seconds, Table};

const PLMN: u64 = 0x00f110;
pub const IDENTIFIER: u16 = 4370;
/// The text that each full cell has in one of its places, in turn.
pub const SERIAL: u16 = 16;
/// Cells of one tracking area.
const CELLS_OF_A_CODE: u64 = 8;
const PERIOD: Seconds = Seconds(10);
const REQUESTED: Broadcasts = Broadcasts(100);
const SENT: u16 = 3;

/// The k-th cell's identity, as a number. The odd ones between are nobody's.
pub fn identity(k: u64) -> u64 {
    PLMN << CellIdentity::PART_WIDTH | (0x10 + 2 * k)
}

/// Cells have 2, 3, 4, 0 and 1 emergency areas in turn.
pub fn head(k: u64) -> Head {
    let used = (k + 2) % 5;
    Head {
        identity: CellIdentity::from_number(identity(k)).expect("below 2^60"),
        code: (k / CELLS_OF_A_CODE) as u32,
        areas: (0..used).map(|area| (0x1000 + 8 * k + area) as u32).collect(),
    }
}

pub fn heads(cells: usize) -> Vec<u8> {
    (0..cells as u64).flat_map(|k| head(k).encode()).collect()
}

/// What a second finds in the live places.
#[derive(Clone, Copy, PartialEq)]
pub enum Due {
    Nothing,
    All,
    /// All, and each cell's text `SERIAL` for the last time.
    AllAndOneEnds,
}

fn place(serial: u16, due: Due) -> Place {
    let ends = due == Due::AllAndOneEnds && serial == SERIAL;
    Place {
        identifier: IDENTIFIER,
        serial,
        content: 0x0100_0000 + u32::from(serial),
        period: PERIOD,
        requested: if ends { Broadcasts(SENT + 1) } else { REQUESTED },
        sent: Broadcasts(SENT),
        wait: if due == Due::Nothing { Seconds(5) } else { Seconds(0) },
        sib: 8,
    }
}

/// A table of so many cells with so many live places each.
pub fn table(cells: usize, live: u16, due: Due) -> Vec<u8> {
    of(cells, live, due).encode()
}

/// A table of version 1, for the converter.
pub fn old_table(cells: usize, live: u16, due: Due) -> Vec<u8> {
    of(cells, live, due).encode_in(&Layout::VERSION_1)
}

/// The places' order turns from cell to cell, so that a text is found in each place equally often.
fn of(cells: usize, live: u16, due: Due) -> Table {
    let places =
        |k: u64| (0..live).map(move |j| place(SERIAL + (j + (k % 4) as u16) % live, due)).collect();
    let cell = |k: u64| Cell { head: head(k), places: places(k) };
    Table { cells: (0..cells as u64).map(cell).collect() }
}
