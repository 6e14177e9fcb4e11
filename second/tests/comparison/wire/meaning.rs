//! What a message means, told from what it is made of and not from its bytes.

use super::families::Family;
use super::forms::{Form, Place};
use super::messages::*;

/// The transaction identifier and what is written, or the refusal but for 8.
pub type Meaning = Result<(u32, Vec<u8>), u32>;

/// The longest contents of an open type that are not in fragments.
pub const LONGEST: usize = (1 << 14) - 1;

/// Of a message that is encoded without a twist, whose known elements have values of their own.
pub fn meaning(family: &Family, frame: &Frame) -> Meaning {
    // Nothing within is longer than the whole, whose frame has five bytes, or six with a long code.
    let longest = LONGEST + if frame.choice == 3 { 6 } else { 5 };
    if frame.criticality > 2 || frame.encode().len() > longest {
        return Err(13);
    }
    let form = family.form(frame).ok_or(14_u32)?;
    let met = met(form, Place::Elements, &frame.elements);
    if !met.iter().all(Met::is_well_encoded) {
        return Err(13);
    }
    if met.iter().any(|it| !it.is_known && it.field.criticality == REJECT) {
        return Err(15);
    }
    if !is_in_order(form, &met) || met.iter().any(|it| it.place == Place::Items && !it.is_known) {
        return Err(16);
    }
    (family.given)(form, &frame.elements)
}

/// A field, and what it is in the list in which it stands.
#[derive(Clone, Copy)]
struct Met<'a> {
    place: Place,
    is_known: bool,
    field: &'a Field,
}

/// Each field with those within it. What is unknown is not looked into.
fn met<'a>(form: &Form, place: Place, fields: &'a [Field]) -> Vec<Met<'a>> {
    let mut all = Vec::new();
    for field in fields {
        let is_known = place.knows(form, field.id);
        all.push(Met { place, is_known, field });
        if is_known {
            all.extend(within(form, field));
        }
    }
    all
}

fn within<'a>(form: &Form, field: &'a Field) -> Vec<Met<'a>> {
    let extensions = |fields: &'a [Field]| met(form, Place::Extensions, fields);
    match &field.value {
        Value::Cells(items) => met(form, Place::Items, items),
        Value::Notification { extensions: own, .. } => extensions(own),
        Value::Cell(cell) => {
            [extensions(&cell.identity_extensions), extensions(&cell.extensions)].concat()
        }
        _ => Vec::new(),
    }
}

impl Met<'_> {
    fn is_well_encoded(&self) -> bool {
        match &self.field.value {
            Value::Octets(octets) if octets.is_empty() => false,
            Value::Cells(items) if self.is_known => (1..=512).contains(&items.len()),
            _ => self.is_known || self.field.criticality < 3,
        }
    }
}

fn is_in_order(form: &Form, met: &[Met]) -> bool {
    let elements = met.iter().filter(|it| it.place == Place::Elements && it.is_known);
    let known: Vec<u16> = elements.map(|it| it.field.id).collect();
    let (mandatory, optional) = form.elements.split_at(form.mandatory);
    let there = optional.iter().filter(|id| known.contains(id));
    known == mandatory.iter().chain(there).copied().collect::<Vec<u16>>()
}
