//! Document 02's messages of the wire, of F1AP in the aligned variant of X.691: cancels that are
//! read, and responses that are written and read. What is read is decoded into a tree, and the tree
//! is judged by the form that its message has.

mod cancel;
mod cursor;
mod forms;
mod pen;
mod response;
mod tree;
mod types;

use crate::fields::strictly_ascending;
use crate::refusal::Refusal;
use forms::Form;
use tree::{Criticality, Element, Frame, Item, Tree, Unknown, Value};

pub use cancel::read_cancel;
pub use response::{read_response, write_response};

/// Number 0, the transaction identifier and the length of the record or the answer; or a refusal's
/// number and everything else 0.
#[derive(Clone, Copy, Debug, Default, PartialEq, Eq)]
pub struct Message {
    pub number: u32,
    pub transaction: u32,
    pub length: usize,
}

impl From<Result<(u32, usize), Refusal>> for Message {
    fn from(outcome: Result<(u32, usize), Refusal>) -> Message {
        match outcome {
            Ok((transaction, length)) => Message { number: 0, transaction, length },
            Err(refusal) => Message { number: refusal.number(), ..Message::default() },
        }
    }
}

/// The tree of a message with which nothing is wrong, and which of these it is: refusals 13 to 16.
/// Of another message "only the outer frame is judged"; of these the lowest that applies is given,
/// wherever it applies.
fn decoded<'a, 'f>(message: &'a [u8], forms: &'f [Form]) -> Result<(&'f Form, Tree<'a>), Refusal> {
    let frame = Frame::decode(message).ok_or(Refusal::BadlyEncoded)?;
    let form = forms.iter().find(|form| frame.has(form)).ok_or(Refusal::OtherMessage)?;
    let tree = Tree::decode(form, frame.value).ok_or(Refusal::BadlyEncoded)?;
    if tree.unknown().any(|unknown| unknown.criticality == Criticality::Reject) {
        return Err(Refusal::UnknownElement);
    }
    if !tree.has_its_elements_in_order(form) {
        return Err(Refusal::ElementOrder);
    }
    Ok((form, tree))
}

impl<'a> Tree<'a> {
    /// What the known elements have in them.
    fn values(&self) -> impl Iterator<Item = &Value<'a>> {
        self.elements.iter().filter_map(|element| match element {
            Element::Known(_, value) => Some(value),
            Element::Unknown(_) => None,
        })
    }

    /// Everything that is not known in its place, at every depth.
    fn unknown(&self) -> impl Iterator<Item = &Unknown<'a>> {
        self.elements.iter().flat_map(|element| match element {
            Element::Known(_, value) => value.unknown(),
            Element::Unknown(unknown) => vec![unknown],
        })
    }

    /// Each known element at most once and behind those that come before it, with the mandatory
    /// ones; and in a list nothing but cells, since without its items it would be for every cell.
    fn has_its_elements_in_order(&self, form: &Form) -> bool {
        let places: Vec<usize> = self.elements.iter().filter_map(Element::place).collect();
        let is_there = |place: usize| places.contains(&place) || !form.elements[place].is_mandatory;
        strictly_ascending(&places)
            && (0..form.elements.len()).all(is_there)
            && self.values().flat_map(Value::items).all(|item| item.cell().is_some())
    }
}

impl Element<'_> {
    /// The place of a known element among the known ones.
    fn place(&self) -> Option<usize> {
        match self {
            Element::Known(place, _) => Some(*place),
            Element::Unknown(_) => None,
        }
    }
}

impl<'a> Value<'a> {
    fn items(&self) -> &[Item<'a>] {
        match self {
            Value::Cells(items) => items,
            _ => &[],
        }
    }

    fn unknown(&self) -> Vec<&Unknown<'a>> {
        match self {
            Value::Notification(notification) => notification.extensions.iter().collect(),
            _ => self.items().iter().flat_map(Item::unknown).collect(),
        }
    }
}

impl<'a> Item<'a> {
    fn unknown(&self) -> Vec<&Unknown<'a>> {
        match self {
            Item::Cell(cell) => cell.identity_extensions.iter().chain(&cell.extensions).collect(),
            Item::Unknown(unknown) => vec![unknown],
        }
    }
}

#[cfg(test)]
mod tests;
