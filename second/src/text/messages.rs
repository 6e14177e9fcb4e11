//! A line's message from the wire.

use super::words::Words;
use crate::record::Record;
use crate::refusal::Refusal;
use crate::wire::{read_cancel, Message};

/// The record that the message in the rest of the line gives.
pub(super) fn from_wire(words: &mut Words) -> Result<Record, String> {
    let message = words.list(Words::octets)?.concat();
    let mut record = [0; Record::HEADER + Record::ITEM * Record::MOST_ITEMS];
    let Message { number, length, .. } = read_cancel(&message, &mut record);
    Record::parse(&record[..length])
        .map_err(|_| format!("The message is refused with {number}: {}.", reason(number)))
}

fn reason(number: u32) -> &'static str {
    [
        (Refusal::BadlyEncoded, "it is cut short or badly encoded"),
        (Refusal::OtherMessage, "it is another message than a PWS CANCEL REQUEST"),
        (Refusal::UnknownElement, "an element that is unknown is marked reject"),
        (Refusal::ElementOrder, "an element is missing, repeated or out of order"),
        (Refusal::CancelOfNothing, "it has neither cancel-all nor a notification"),
    ]
    .into_iter()
    .find(|(refusal, _)| refusal.number() == number)
    .expect("there is room for every record, so that no other refusal is left")
    .1
}
