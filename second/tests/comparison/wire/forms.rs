//! The messages that are read: where each stands among those of F1AP, and what is known in it.

use super::messages::*;

#[derive(Debug, PartialEq, Eq)]
pub struct Form {
    pub choice: u8,
    pub code: u16,
    /// Known elements in their order.
    pub elements: &'static [u16],
    /// So many of them, from the first on.
    pub mandatory: usize,
    /// What is known in its list.
    pub item: u16,
    /// An item has a count of broadcasts.
    pub is_counted: bool,
}

pub const CANCEL: Form = Form {
    choice: 0,
    code: 21,
    elements: &[TRANSACTION, REQUESTED, LIST, CANCEL_ALL, NOTIFICATION],
    mandatory: 2,
    item: ITEM,
    is_counted: false,
};

/// To a write-replace.
pub const COMPLETED: Form = Form {
    choice: 1,
    code: 20,
    elements: &[TRANSACTION, COMPLETED_LIST],
    mandatory: 1,
    item: COMPLETED_ITEM,
    is_counted: false,
};

/// To a cancel.
pub const CANCELLED: Form = Form {
    choice: 1,
    code: 21,
    elements: &[TRANSACTION, CANCELLED_LIST],
    mandatory: 1,
    item: CANCELLED_ITEM,
    is_counted: true,
};

impl Form {
    /// Its list of cells, the first that may be missing.
    pub fn list(&self) -> u16 {
        self.elements[self.mandatory]
    }
}

/// Known somewhere, or nowhere.
const IDS: [u16; 20] = [
    0,
    TRANSACTION - 1,
    TRANSACTION,
    TRANSACTION + 1,
    REQUESTED,
    LIST,
    ITEM,
    COMPLETED_LIST,
    COMPLETED_ITEM,
    CANCELLED_LIST,
    CANCELLED_ITEM,
    CANCEL_ALL,
    NOTIFICATION,
    DIAGNOSTICS,
    DEDICATED_LIST,
    DEDICATED_LIST + 1,
    NID,
    500,
    999,
    65_535,
];

/// What a list of fields is, by what is known in it.
#[derive(Clone, Copy, Debug, PartialEq, Eq)]
pub enum Place {
    Elements,
    Items,
    Extensions,
}

impl Place {
    pub fn knows(self, form: &Form, id: u16) -> bool {
        match self {
            Place::Elements => form.elements.contains(&id),
            Place::Items => form.item == id,
            Place::Extensions => false,
        }
    }

    /// Identifiers that are not known here, even if they are elsewhere.
    pub fn unknown(self, form: &Form) -> Vec<u16> {
        IDS.into_iter().filter(|id| !self.knows(form, *id)).collect()
    }

    /// Of each list of a message, in the order of their numbers.
    pub fn all(frame: &Frame) -> Vec<Place> {
        let within = |element: &Field| match &element.value {
            Value::Cells(items) => {
                let cells = items.iter().filter(|item| matches!(item.value, Value::Cell { .. }));
                [vec![Place::Items], vec![Place::Extensions; 2 * cells.count()]].concat()
            }
            Value::Notification { .. } => vec![Place::Extensions],
            _ => Vec::new(),
        };
        [vec![Place::Elements], frame.elements.iter().flat_map(within).collect()].concat()
    }
}
