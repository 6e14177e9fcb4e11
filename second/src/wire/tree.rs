//! The messages of F1AP as trees: the frame of any, and the elements of one whose form is known.
//! What is made here is well encoded to its last bit; whether its elements are the right ones is
//! not looked at.

use super::cursor::Cursor;
use super::forms::*;
use super::types::whole;
use crate::cell::CellIdentity;

/// The outer frame of any message.
#[derive(Debug, PartialEq, Eq)]
pub(super) struct Frame<'a> {
    choice: u64,
    /// The procedure code; of the choice's extension its identifier.
    code: u64,
    pub value: &'a [u8],
}

impl<'a> Frame<'a> {
    pub fn decode(message: &'a [u8]) -> Option<Frame<'a>> {
        whole(message, |cursor| {
            let choice = cursor.whole_number(CHOICES)?;
            let code = cursor.whole_number(if choice == CHOICE_EXTENSION { IDS } else { CODES })?;
            Criticality::of(cursor.bits(2)?)?;
            Some(Frame { choice, code, value: cursor.open_type()? })
        })
    }

    pub fn has(&self, form: &Form) -> bool {
        (self.choice, self.code) == (form.choice, form.code)
    }
}

#[derive(Clone, Copy, Debug, PartialEq, Eq)]
pub(super) enum Criticality {
    Reject,
    Ignore,
    Notify,
}

impl Criticality {
    /// Two bits have a fourth value, which is none.
    fn of(bits: u64) -> Option<Criticality> {
        [Criticality::Reject, Criticality::Ignore, Criticality::Notify].get(bits as usize).copied()
    }
}

/// What elements, items and extensions have in common. The criticality is two bits of any value
/// until it is known whether it is read.
struct Field<'a> {
    id: u64,
    criticality: u64,
    value: &'a [u8],
}

impl<'a> Field<'a> {
    fn decode(cursor: &mut Cursor<'a>) -> Option<Field<'a>> {
        Some(Field {
            id: cursor.whole_number(IDS)?,
            criticality: cursor.bits(2)?,
            value: cursor.open_type()?,
        })
    }
}

/// An element, item or extension that is not known in its place, with its contents as they lie.
#[derive(Debug, PartialEq, Eq)]
pub(super) struct Unknown<'a> {
    pub id: u64,
    pub criticality: Criticality,
    pub contents: &'a [u8],
}

impl<'a> Unknown<'a> {
    fn of(field: Field<'a>) -> Option<Unknown<'a>> {
        let criticality = Criticality::of(field.criticality)?;
        Some(Unknown { id: field.id, criticality, contents: field.value })
    }
}

/// A message's elements, in the order in which they came.
#[derive(Debug, PartialEq, Eq)]
pub(super) struct Tree<'a> {
    pub elements: Vec<Element<'a>>,
}

impl<'a> Tree<'a> {
    pub fn decode(form: &Form, value: &'a [u8]) -> Option<Tree<'a>> {
        whole(value, |cursor| {
            cursor.not_extended()?;
            let elements = cursor.sequence_of(ELEMENTS, |one| Element::decode(form, one))?;
            Some(Tree { elements })
        })
    }
}

#[derive(Debug, PartialEq, Eq)]
pub(super) enum Element<'a> {
    /// With its place among those of the form.
    Known(usize, Value<'a>),
    Unknown(Unknown<'a>),
}

impl<'a> Element<'a> {
    fn decode(form: &Form, cursor: &mut Cursor<'a>) -> Option<Element<'a>> {
        let field = Field::decode(cursor)?;
        match form.elements.iter().position(|known| known.id == field.id) {
            None => Unknown::of(field).map(Element::Unknown),
            Some(place) => {
                let contents = form.elements[place].contents;
                let value = whole(field.value, |cursor| Value::decode(contents, cursor))?;
                Some(Element::Known(place, value))
            }
        }
    }
}

#[derive(Debug, PartialEq, Eq)]
pub(super) enum Value<'a> {
    Transaction(u64),
    Requested(u64),
    Cells(Vec<Item<'a>>),
    CancelAll,
    Notification(Notification<'a>),
}

impl<'a> Value<'a> {
    fn decode(contents: Contents, cursor: &mut Cursor<'a>) -> Option<Value<'a>> {
        match contents {
            Contents::Transaction => {
                cursor.not_extended()?;
                cursor.whole_number(TRANSACTIONS).map(Value::Transaction)
            }
            Contents::Requested => cursor.whole_number(COUNTS).map(Value::Requested),
            Contents::Cells(listed) => {
                cursor.sequence_of(CELLS, |one| Item::decode(listed, one)).map(Value::Cells)
            }
            // An enumeration of one value, so that it has no bit but that of its extension.
            Contents::CancelAll => {
                cursor.not_extended()?;
                cursor.whole_number(0..=0).map(|_| Value::CancelAll)
            }
            Contents::Notification => Notification::decode(cursor).map(Value::Notification),
        }
    }
}

#[derive(Debug, PartialEq, Eq)]
pub(super) struct Notification<'a> {
    pub identifier: u64,
    pub serial: u64,
    pub extensions: Vec<Unknown<'a>>,
}

impl<'a> Notification<'a> {
    fn decode(cursor: &mut Cursor<'a>) -> Option<Notification<'a>> {
        cursor.not_extended()?;
        let extended = cursor.bit()?;
        let (identifier, serial) = (cursor.bit_string(16)?, cursor.bit_string(16)?);
        Some(Notification { identifier, serial, extensions: extensions(extended, cursor)? })
    }
}

/// What stands in the list of cells.
#[derive(Debug, PartialEq, Eq)]
pub(super) enum Item<'a> {
    Cell(Cell<'a>),
    Unknown(Unknown<'a>),
}

impl<'a> Item<'a> {
    fn decode(listed: Listed, cursor: &mut Cursor<'a>) -> Option<Item<'a>> {
        let field = Field::decode(cursor)?;
        if field.id != listed.id {
            return Unknown::of(field).map(Item::Unknown);
        }
        whole(field.value, |cursor| Cell::decode(listed, cursor)).map(Item::Cell)
    }

    pub fn cell(&self) -> Option<&Cell<'a>> {
        match self {
            Item::Cell(cell) => Some(cell),
            Item::Unknown(_) => None,
        }
    }
}

#[derive(Debug, PartialEq, Eq)]
pub(super) struct Cell<'a> {
    /// NR CGI.
    pub identity: u64,
    pub identity_extensions: Vec<Unknown<'a>>,
    /// Of broadcasts; 0 where the items have none.
    pub count: u64,
    pub extensions: Vec<Unknown<'a>>,
}

impl<'a> Cell<'a> {
    fn decode(listed: Listed, cursor: &mut Cursor<'a>) -> Option<Cell<'a>> {
        cursor.not_extended()?;
        let extended = cursor.bit()?;
        let (identity, identity_extensions) = identity(cursor)?;
        let count = if listed.is_counted { cursor.whole_number(COUNTS)? } else { 0 };
        let extensions = extensions(extended, cursor)?;
        Some(Cell { identity, identity_extensions, count, extensions })
    }
}

/// NR CGI, a sequence of its own, with its own extensions.
fn identity<'a>(cursor: &mut Cursor<'a>) -> Option<(u64, Vec<Unknown<'a>>)> {
    cursor.not_extended()?;
    let extended = cursor.bit()?;
    let plmn = cursor.octet_string(CellIdentity::PLMN_WIDTH / 8)?;
    let part = cursor.bit_string(CellIdentity::PART_WIDTH)?;
    Some((plmn << CellIdentity::PART_WIDTH | part, extensions(extended, cursor)?))
}

/// iE-Extensions, where their bit says that they are there. None of them is known.
fn extensions<'a>(present: bool, cursor: &mut Cursor<'a>) -> Option<Vec<Unknown<'a>>> {
    if !present {
        return Some(Vec::new());
    }
    cursor.sequence_of(EXTENSIONS, |cursor| Unknown::of(Field::decode(cursor)?))
}
