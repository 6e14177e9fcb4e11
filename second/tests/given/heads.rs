//! Cell heads: several PLMNs with equal codes, few emergency areas shared by many cells.

use std::collections::BTreeSet;

use second::{CellIdentity, Head, Table};

use super::random::Random;

const PLMNS: [u64; 5] = [0, 1, 0x00f110, 0x00f111, 0xffffff];
const PARTS: [u64; 6] = [0, 1, 0x10, 0x20, 1 << 35, (1 << 36) - 1];
const CODES: [u64; 4] = [0, 1, 2, 0xffffff];
pub const AREAS: [u64; 6] = [0, 1, 5, 9, 0xfffffe, 0xffffff];

/// A number of cells: mostly few, so that requests meet; each bound now and then.
pub fn count(random: &mut Random) -> usize {
    match random.below(16) {
        0 => random.pick(&[255, 256, 257, 511, 512]),
        1 => 1 + random.below(*Table::CELLS.end()),
        2..=4 => 1,
        _ => 1 + random.below(8),
    }
}

pub fn heads(random: &mut Random, count: usize) -> Vec<Head> {
    let mut identities = BTreeSet::new();
    while identities.len() < count {
        identities.insert(identity(random));
    }
    identities.into_iter().map(|identity| head(random, identity)).collect()
}

fn identity(random: &mut Random) -> CellIdentity {
    let number = random.pick(&PLMNS) << CellIdentity::PART_WIDTH
        | random.pick_or_any(&PARTS, CellIdentity::PART_WIDTH);
    CellIdentity::from_number(number).expect("24 and 36 bits are an identity")
}

fn head(random: &mut Random, identity: CellIdentity) -> Head {
    let used = random.below(Head::MOST_AREAS + 1);
    let mut areas = BTreeSet::new();
    while areas.len() < used {
        areas.insert(random.pick_or_any(&AREAS, 24) as u32);
    }
    let code = random.pick_or_any(&CODES, 24) as u32;
    Head { identity, code, areas: areas.into_iter().collect() }
}
