//! What the messages are made of that are known here, as tables: where each stands among those of
//! F1AP, and its elements in their order.

use std::ops::RangeInclusive;

use crate::request::{CANCEL, WRITE_REPLACE};

// The alternatives of an F1AP-PDU, and the procedures.
const INITIATING_MESSAGE: u64 = 0;
const SUCCESSFUL_OUTCOME: u64 = 1;
pub(super) const CHOICE_EXTENSION: u64 = 3;
const WRITE_REPLACE_WARNING: u64 = 20;
const PWS_CANCEL: u64 = 21;

const TRANSACTION_ID: u64 = 78;
const NUMBER_OF_BROADCAST_REQUEST: u64 = 142;
const CELLS_BROADCAST_COMPLETED_LIST: u64 = 146;
const CELLS_BROADCAST_COMPLETED_ITEM: u64 = 147;
const BROADCAST_TO_BE_CANCELLED_LIST: u64 = 148;
const BROADCAST_TO_BE_CANCELLED_ITEM: u64 = 149;
const CELLS_BROADCAST_CANCELLED_LIST: u64 = 150;
const CELLS_BROADCAST_CANCELLED_ITEM: u64 = 151;
const CANCEL_ALL_WARNING_MESSAGES_INDICATOR: u64 = 157;
const NOTIFICATION_INFORMATION: u64 = 220;

// The values that numbers have, and the sizes of lists.
pub(super) const CHOICES: RangeInclusive<u64> = INITIATING_MESSAGE..=CHOICE_EXTENSION;
pub(super) const CODES: RangeInclusive<u64> = 0..=255;
pub(super) const IDS: RangeInclusive<u64> = 0..=65_535;
pub(super) const TRANSACTIONS: RangeInclusive<u64> = 0..=255;
pub(super) const COUNTS: RangeInclusive<u64> = 0..=65_535;
pub(super) const ELEMENTS: RangeInclusive<u64> = 0..=65_535;
pub(super) const EXTENSIONS: RangeInclusive<u64> = 1..=65_535;
pub(super) const CELLS: RangeInclusive<u64> = 1..=512;

pub(super) struct Form {
    pub choice: u64,
    /// The procedure code.
    pub code: u64,
    /// The kind of request that it is, or that it answers.
    pub kind: u8,
    /// In the order in which they come. Any other is unknown, even if F1AP knows it elsewhere.
    pub elements: &'static [Known],
}

/// An element that is known in a message.
pub(super) struct Known {
    pub id: u64,
    pub is_mandatory: bool,
    pub contents: Contents,
}

#[derive(Clone, Copy)]
pub(super) enum Contents {
    Transaction,
    Requested,
    Cells(Listed),
    CancelAll,
    Notification,
}

/// What the items of a list of cells are.
#[derive(Clone, Copy)]
pub(super) struct Listed {
    pub id: u64,
    /// Each has a count of broadcasts.
    pub is_counted: bool,
}

pub(super) const CANCEL_REQUEST: Form = Form {
    choice: INITIATING_MESSAGE,
    code: PWS_CANCEL,
    kind: CANCEL,
    elements: &[
        TRANSACTION,
        mandatory(NUMBER_OF_BROADCAST_REQUEST, Contents::Requested),
        cells(BROADCAST_TO_BE_CANCELLED_LIST, BROADCAST_TO_BE_CANCELLED_ITEM, false),
        optional(CANCEL_ALL_WARNING_MESSAGES_INDICATOR, Contents::CancelAll),
        optional(NOTIFICATION_INFORMATION, Contents::Notification),
    ],
};

/// "diagnostics and the dedicated delivery list count as unknown"
pub(super) const RESPONSES: [Form; 2] = [
    Form {
        choice: SUCCESSFUL_OUTCOME,
        code: WRITE_REPLACE_WARNING,
        kind: WRITE_REPLACE,
        elements: &[
            TRANSACTION,
            cells(CELLS_BROADCAST_COMPLETED_LIST, CELLS_BROADCAST_COMPLETED_ITEM, false),
        ],
    },
    Form {
        choice: SUCCESSFUL_OUTCOME,
        code: PWS_CANCEL,
        kind: CANCEL,
        elements: &[
            TRANSACTION,
            cells(CELLS_BROADCAST_CANCELLED_LIST, CELLS_BROADCAST_CANCELLED_ITEM, true),
        ],
    },
];

const TRANSACTION: Known = mandatory(TRANSACTION_ID, Contents::Transaction);

const fn mandatory(id: u64, contents: Contents) -> Known {
    Known { id, is_mandatory: true, contents }
}

const fn optional(id: u64, contents: Contents) -> Known {
    Known { id, is_mandatory: false, contents }
}

/// A list is never mandatory.
const fn cells(id: u64, item: u64, is_counted: bool) -> Known {
    optional(id, Contents::Cells(Listed { id: item, is_counted }))
}
