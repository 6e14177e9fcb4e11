//! Messages of F1AP before they are bytes: the frame, its elements, their items and extensions.

use second::CellIdentity;

use super::encoder::{Encoder, Spots, Twist};
use super::forms::Form;

pub const DIAGNOSTICS: u16 = 7;
pub const TRANSACTION: u16 = 78;
pub const REQUESTED: u16 = 142;
pub const COMPLETED_LIST: u16 = 146;
pub const COMPLETED_ITEM: u16 = 147;
pub const LIST: u16 = 148;
pub const ITEM: u16 = 149;
pub const CANCELLED_LIST: u16 = 150;
pub const CANCELLED_ITEM: u16 = 151;
pub const CANCEL_ALL: u16 = 157;
pub const DEDICATED_LIST: u16 = 189;
pub const NOTIFICATION: u16 = 220;
pub const NID: u16 = 385;

/// A known element's own criticality.
pub const REJECT: u8 = 0;
pub const IGNORE: u8 = 1;
pub const NOTIFY: u8 = 2;

#[derive(Clone, Debug, PartialEq, Eq)]
pub struct Frame {
    pub choice: u8,
    /// Two bytes where the choice is 3.
    pub code: u16,
    pub criticality: u8,
    pub elements: Vec<Field>,
}

/// An element, an item or an extension.
#[derive(Clone, Debug, PartialEq, Eq)]
pub struct Field {
    pub id: u16,
    pub criticality: u8,
    pub value: Value,
}

#[derive(Clone, Debug, PartialEq, Eq)]
pub enum Value {
    Transaction(u8),
    Requested(u16),
    Cells(Vec<Field>),
    CancelAll,
    Notification { identifier: u16, serial: u16, extensions: Vec<Field> },
    Cell(Cell),
    Octets(Vec<u8>),
}

#[derive(Clone, Debug, PartialEq, Eq)]
pub struct Cell {
    pub identity: u64,
    pub identity_extensions: Vec<Field>,
    /// Of broadcasts, where it has one.
    pub count: Option<u16>,
    pub extensions: Vec<Field>,
}

impl Frame {
    pub fn of(form: &Form, elements: Vec<Field>) -> Frame {
        Frame { choice: form.choice, code: form.code, criticality: REJECT, elements }
    }

    pub fn encode(&self) -> Vec<u8> {
        self.twisted(Twist::Nothing)
    }

    pub fn twisted(&self, twist: Twist) -> Vec<u8> {
        self.written(twist).0
    }

    pub fn spots(&self) -> Spots {
        self.written(Twist::Nothing).1
    }

    fn written(&self, twist: Twist) -> (Vec<u8>, Spots) {
        let value = |encoder: &mut Encoder| self.write_value(encoder);
        Encoder::written(twist, |encoder| self.write_around(encoder, value))
    }

    /// What the frame is around.
    pub fn value(&self) -> Vec<u8> {
        Encoder::written(Twist::Nothing, |encoder| self.write_value(encoder)).0
    }

    fn write_value(&self, encoder: &mut Encoder) {
        encoder.zero();
        encoder.count(self.elements.len() as u16);
        self.elements.iter().for_each(|element| element.write(encoder));
    }

    /// The frame with other contents than its elements.
    pub fn around(&self, contents: &[u8], twist: Twist) -> Vec<u8> {
        let write = |encoder: &mut Encoder| encoder.octets(contents);
        Encoder::written(twist, |encoder| self.write_around(encoder, write)).0
    }

    fn write_around(&self, encoder: &mut Encoder, contents: impl FnOnce(&mut Encoder)) {
        encoder.bits(2, self.choice.into());
        encoder.aligned(if self.choice == 3 { 16 } else { 8 }, self.code.into());
        encoder.bits(2, self.criticality.into());
        encoder.open_type(contents);
    }

    /// The items of its list of cells.
    pub fn cells(&mut self) -> &mut Vec<Field> {
        let mut elements = self.elements.iter_mut();
        let items = elements.find_map(|element| match &mut element.value {
            Value::Cells(items) => Some(items),
            _ => None,
        });
        items.expect("it has a list")
    }

    /// The k-th list of fields: the elements, then those within each, in their order.
    pub fn list(&mut self, k: usize) -> Option<&mut Vec<Field>> {
        list(&mut self.elements, &mut { k })
    }
}

fn list<'a>(fields: &'a mut Vec<Field>, left: &mut usize) -> Option<&'a mut Vec<Field>> {
    if *left == 0 {
        return Some(fields);
    }
    *left -= 1;
    let mut within = fields.iter_mut().flat_map(|field| field.value.lists());
    within.find_map(|inner| list(inner, left))
}

impl Field {
    /// A known one, as it should be marked.
    pub fn known(id: u16, value: Value) -> Field {
        Field { id, criticality: REJECT, value }
    }

    pub fn transaction(identifier: u8) -> Field {
        Field::known(TRANSACTION, Value::Transaction(identifier))
    }

    pub fn requested(count: u16) -> Field {
        Field::known(REQUESTED, Value::Requested(count))
    }

    /// What a cancel is for.
    pub fn cells(identities: &[u64]) -> Field {
        Field::list(LIST, ITEM, identities.iter().map(|identity| (*identity, None)))
    }

    /// Where a start went.
    pub fn completed(identities: &[u64]) -> Field {
        Field::list(COMPLETED_LIST, COMPLETED_ITEM, identities.iter().map(|it| (*it, None)))
    }

    /// What was cancelled, with how often it had been broadcast.
    pub fn cancelled(counted: &[(u64, u16)]) -> Field {
        let cells = counted.iter().map(|(identity, count)| (*identity, Some(*count)));
        Field::list(CANCELLED_LIST, CANCELLED_ITEM, cells)
    }

    /// A list of bare cells.
    fn list(id: u16, item: u16, cells: impl Iterator<Item = (u64, Option<u16>)>) -> Field {
        let cell = |(identity, count)| Field::known(item, Value::Cell(Cell::bare(identity, count)));
        Field::known(id, Value::Cells(cells.map(cell).collect()))
    }

    pub fn cancel_all() -> Field {
        Field::known(CANCEL_ALL, Value::CancelAll)
    }

    pub fn notification(identifier: u16, serial: u16) -> Field {
        let extensions = Vec::new();
        Field::known(NOTIFICATION, Value::Notification { identifier, serial, extensions })
    }

    pub fn unknown(id: u16, criticality: u8, octets: &[u8]) -> Field {
        Field { id, criticality, value: Value::Octets(octets.to_vec()) }
    }

    fn write(&self, encoder: &mut Encoder) {
        encoder.aligned(16, self.id.into());
        encoder.bits(2, self.criticality.into());
        encoder.open_type(|encoder| self.value.write(encoder));
    }
}

impl Value {
    /// The lists of fields within, in the order in which they are written.
    pub fn lists(&mut self) -> Vec<&mut Vec<Field>> {
        match self {
            Value::Cells(items) => vec![items],
            Value::Notification { extensions, .. } => vec![extensions],
            Value::Cell(cell) => vec![&mut cell.identity_extensions, &mut cell.extensions],
            _ => Vec::new(),
        }
    }

    fn write(&self, encoder: &mut Encoder) {
        match self {
            Value::Transaction(identifier) => {
                encoder.zero();
                encoder.aligned(8, (*identifier).into());
            }
            Value::Requested(count) => encoder.aligned(16, (*count).into()),
            Value::Cells(items) => write_from_one(encoder, items),
            Value::CancelAll => encoder.zero(),
            Value::Notification { identifier, serial, extensions } => {
                encoder.zero();
                encoder.bits(1, (!extensions.is_empty()).into());
                encoder.bits(16, (*identifier).into());
                encoder.bits(16, (*serial).into());
                write_extensions(encoder, extensions);
            }
            Value::Cell(cell) => cell.write(encoder),
            Value::Octets(octets) => encoder.octets(octets),
        }
    }
}

impl Cell {
    /// Without extensions.
    pub fn bare(identity: u64, count: Option<u16>) -> Cell {
        Cell { identity, identity_extensions: Vec::new(), count, extensions: Vec::new() }
    }

    fn write(&self, encoder: &mut Encoder) {
        for extensions in [&self.extensions, &self.identity_extensions] {
            encoder.zero();
            encoder.bits(1, (!extensions.is_empty()).into());
        }
        encoder.aligned(CellIdentity::PLMN_WIDTH, self.identity >> CellIdentity::PART_WIDTH);
        encoder.aligned(CellIdentity::PART_WIDTH, self.identity);
        write_extensions(encoder, &self.identity_extensions);
        if let Some(count) = self.count {
            encoder.aligned(16, count.into());
        }
        write_extensions(encoder, &self.extensions);
    }
}

/// A list that has one at least, so that one less than its count is written.
fn write_from_one(encoder: &mut Encoder, fields: &[Field]) {
    encoder.count((fields.len() as u16).wrapping_sub(1));
    fields.iter().for_each(|field| field.write(encoder));
}

fn write_extensions(encoder: &mut Encoder, extensions: &[Field]) {
    if !extensions.is_empty() {
        write_from_one(encoder, extensions);
    }
}
