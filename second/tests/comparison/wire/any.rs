//! Seeded messages: every element there or not, values at their bounds, and unknown ones among them
//! at every depth.

use second::CellIdentity;

use super::answers::{rows, told};
use super::forms::{Form, Place, CANCEL, CANCELLED, COMPLETED};
use super::messages::*;
use crate::given::random::Random;

pub fn number(random: &mut Random) -> u16 {
    random.pick_or_any(&[0, 1, 16, 255, 256, 4370, 32_768, 65_535], 16) as u16
}

pub fn identity(random: &mut Random) -> u64 {
    let plmn = random.pick_or_any(&[0, 1, 0x00f110, 0xffffff], CellIdentity::PLMN_WIDTH);
    let parts = [0, 1, 0x10, 0x20, 1 << 35, (1 << 36) - 1];
    plmn << CellIdentity::PART_WIDTH | random.pick_or_any(&parts, CellIdentity::PART_WIDTH)
}

/// One that is not known in such a list.
fn unknown(random: &mut Random, form: &Form, place: Place, criticality: u8) -> Field {
    let id = random.pick(&place.unknown(form));
    let length = random.pick(&[1, 1, 1, 2, 2, 3, 9, 40, 127, 128, 129]);
    Field::unknown(id, criticality, &random.bytes(length))
}

/// How many cells a list has: mostly few.
pub fn cells(random: &mut Random) -> usize {
    match random.below(24) {
        0 => random.pick(&[255, 256, 257, 511, 512]),
        1 => 1 + random.below(64),
        _ => 1 + random.below(4),
    }
}

/// A cancel that is read, or refused with 7.
pub fn cancel(random: &mut Random) -> Frame {
    let mut elements =
        vec![Field::transaction(random.number() as u8), Field::requested(number(random))];
    if random.one_in(2) {
        let identities: Vec<u64> = (0..cells(random)).map(|_| identity(random)).collect();
        elements.push(Field::cells(&identities));
    }
    let indicators = random.pick(&[0, 1, 1, 1, 2, 2, 2, 3, 3]);
    if indicators & 1 != 0 {
        elements.push(Field::cancel_all());
    }
    if indicators & 2 != 0 {
        elements.push(Field::notification(number(random), number(random)));
    }
    among_others(random, &CANCEL, elements)
}

/// A response that is read, or refused with 17.
pub fn response(random: &mut Random) -> Frame {
    let (kind, rows) = (random.pick(&[1, 2]), rows(random));
    let mut told = told(random, kind, rows);
    if random.one_in(8) && rows > 1 {
        let (one, other) = (random.below(rows), random.below(rows));
        told.rows[one].0 = told.rows[other].0;
    }
    let Frame { elements, .. } = told.response(random.number() as u8);
    among_others(random, if kind == 1 { &COMPLETED } else { &CANCELLED }, elements)
}

/// Known elements in their order, whatever their criticality, and others between them that are
/// skipped.
fn among_others(random: &mut Random, form: &Form, elements: Vec<Field>) -> Frame {
    let mut frame = Frame::of(form, elements);
    frame.criticality = random.below(3) as u8;
    if random.one_in(2) {
        mark_known(random, &mut frame.elements);
    }
    for _ in 0..random.pick(&[0, 0, 0, 1, 2, 5]) {
        let criticality = random.pick(&[IGNORE, NOTIFY]);
        insert(random, form, &mut frame, |place| place != Place::Items, criticality);
    }
    frame
}

/// Gives known elements and items any criticality.
fn mark_known(random: &mut Random, fields: &mut [Field]) {
    for field in fields {
        field.criticality = random.below(4) as u8;
        if let Value::Cells(items) = &mut field.value {
            mark_known(random, items);
        }
    }
}

/// Puts an unknown one at any place of any such list, if there is one.
pub fn insert(
    random: &mut Random,
    form: &Form,
    frame: &mut Frame,
    such: fn(Place) -> bool,
    criticality: u8,
) {
    let places: Vec<(usize, Place)> =
        Place::all(frame).into_iter().enumerate().filter(|(_, place)| such(*place)).collect();
    if places.is_empty() {
        return;
    }
    let (k, place) = random.pick(&places);
    let field = unknown(random, form, place, criticality);
    let list = frame.list(k).expect("the list is numbered");
    list.insert(random.below(list.len() + 1), field);
}
