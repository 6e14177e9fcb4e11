//! Responses that are read: what is theirs alone, besides what can be wrong with every message; and
//! what is read is written and read once more.

use second::Message;

use super::answers::{pairs, some_of};
use super::encoder::Twist;
use super::families::{CANCELS, RESPONSES};
use super::forms::Form;
use super::messages::*;
use super::readings::{above, Readings};
use crate::comparison::cases::{Cases, Compared};
use crate::comparison::compare::Difference;

const CRITICALITIES: [u8; 4] = [REJECT, IGNORE, NOTIFY, 3];

impl Cases<'_> {
    /// At least so many calls on responses, a third of them where they are written.
    pub fn run_responses(&mut self, calls: u64) -> Compared {
        let left = calls.saturating_sub(self.compare.calls);
        self.run_responses_written(calls - left + left / 3)?;
        self.run_responses_read(calls)
    }

    /// At least so many calls on responses that are read.
    pub fn run_responses_read(&mut self, calls: u64) -> Compared {
        self.others_messages()?;
        let mut readings = Readings { cases: self, family: &RESPONSES };
        [2, 3, 5].into_iter().try_for_each(|cells| readings.orders_of_cells(cells))?;
        readings.plmns_and_parts()?;
        readings.unknown_twice()?;
        readings.others_lists()?;
        readings.others_items()?;
        readings.each_wrong_once()?;
        readings.orders_of_cells(512)?;
        while readings.cases.compare.calls < calls {
            readings.round()?;
            readings.read_and_write()?;
        }
        Ok(())
    }

    /// The messages of one entry point, and what comes near to them, read by the other.
    fn others_messages(&mut self) -> Compared {
        for (of, by) in [(&CANCELS, &RESPONSES), (&RESPONSES, &CANCELS)] {
            let mut readings = Readings { cases: self, family: by };
            for frame in of.bases() {
                readings.read_as_meant(&frame)?;
                let message = frame.encode();
                for at in 0..message.len().min(40) {
                    let mut changed = message.clone();
                    changed[at] = readings.cases.random.other(changed[at]);
                    readings.read_message(&changed)?;
                }
            }
        }
        Ok(())
    }
}

/// The other response.
fn other(form: &Form) -> &'static Form {
    let mut forms = RESPONSES.forms.iter();
    forms.find(|it| *it != form).expect("there are two")
}

impl Readings<'_, '_> {
    /// Of so many cells each two changed with each other, and with the same cell.
    fn orders_of_cells(&mut self, count: u64) -> Compared {
        for mut frame in (self.family.whole)() {
            let first = frame.cells()[0].clone();
            let cells: Vec<Field> = (0..count).map(|k| above(&first, k)).collect();
            for (one, other) in pairs(&some_of(cells.len())) {
                *frame.cells() = cells.clone();
                frame.cells().swap(one, other);
                self.read_as_meant(&frame)?;
                *frame.cells() = cells.clone();
                frame.cells()[one] = cells[other].clone();
                self.read_as_meant(&frame)?;
            }
        }
        Ok(())
    }

    /// Two cells whose PLMNs ascend, descend or are the same, and so their 36 bits.
    fn plmns_and_parts(&mut self) -> Compared {
        for mut frame in (self.family.whole)() {
            let first = frame.cells()[0].clone();
            for by in [1 << 36, (1 << 36) - 1, (1 << 36) + 1, 1 << 35, 1 << 32, 1 << 31, 1, 0] {
                for order in [[0, by], [by, 0]] {
                    *frame.cells() = order.map(|it| above(&first, it)).to_vec();
                    self.read_as_meant(&frame)?;
                }
            }
        }
        Ok(())
    }

    /// Diagnostics, the dedicated list and one that is known nowhere, each two of them at each two
    /// places.
    fn unknown_twice(&mut self) -> Compared {
        for frame in (self.family.whole)() {
            for (one, two) in pairs(&[DIAGNOSTICS, DEDICATED_LIST, 999]) {
                for (at, then) in pairs(&[0, 1, 2]) {
                    for (mark, other_mark) in pairs(&CRITICALITIES) {
                        let mut frame = frame.clone();
                        frame.elements.insert(at, Field::unknown(one, mark, &[7]));
                        frame.elements.insert(then, Field::unknown(two, other_mark, &[0, 0xff]));
                        self.read_as_meant(&frame)?;
                    }
                }
            }
        }
        Ok(())
    }

    /// The other response's list, as it stands there, beside the own one and in its place; and each
    /// message under the other's code.
    fn others_lists(&mut self) -> Compared {
        let whole = (self.family.whole)();
        for (frame, others) in [(&whole[0], &whole[1]), (&whole[1], &whole[0])] {
            for criticality in CRITICALITIES {
                let list = Field { criticality, ..others.elements[1].clone() };
                let mut instead = frame.clone();
                instead.elements[1] = list.clone();
                self.read_as_meant(&instead)?;
                for at in 0..=frame.elements.len() {
                    let mut beside = frame.clone();
                    beside.elements.insert(at, list.clone());
                    self.read_as_meant(&beside)?;
                }
            }
        }
        for mut frame in self.family.bases() {
            frame.code = 41 - frame.code;
            self.read_as_meant(&frame)?;
            self.flipped_bits(&frame)?;
        }
        Ok(())
    }

    /// The other response's item, and a cancel's, with a cell in it as it stands there.
    fn others_items(&mut self) -> Compared {
        for frame in (self.family.whole)() {
            let own = self.family.form(&frame).expect("it is read");
            let ids = [other(own).item, ITEM, own.list(), other(own).list()];
            let marked = ids.into_iter().flat_map(|id| CRITICALITIES.map(|mark| (id, mark)));
            for ((id, criticality), at) in marked.flat_map(|it| [(it, 0), (it, 1)]) {
                let mut foreign = frame.clone();
                let item = &mut foreign.cells()[at];
                (item.id, item.criticality) = (id, criticality);
                self.read_as_meant(&foreign)?;
                let message = foreign.twisted(Twist::Count(1, |count| count - 1));
                self.read_message(&message)?;
            }
        }
        Ok(())
    }

    /// "an answer that the reader gives comes back whole when written and read once more"
    fn read_and_write(&mut self) -> Compared {
        for _ in 0..10 {
            let frame = (self.family.any)(&mut self.cases.random);
            let (given, answer) = self.given_by(&frame.encode())?;
            if given.number != 0 {
                continue;
            }
            let buffer = self.cases.buffer(2 * answer.len());
            let transaction = given.transaction as u8;
            let (done, written) =
                self.cases.compare.write_response(&answer, transaction, buffer)?;
            if done.number != 0 || self.given_by(&written[..done.length])? != (given, answer) {
                let call = (self.family.call)(frame.encode(), vec![0; given.length]);
                return Err(format!("what this gives does not come back whole:\n{call}\n"));
            }
        }
        Ok(())
    }

    /// What a message gives with room for it, and the bytes of that.
    fn given_by(&mut self, message: &[u8]) -> Result<(Message, Vec<u8>), Difference> {
        let buffer = self.cases.buffer(2 * message.len());
        let call = (self.family.call)(message.to_vec(), buffer);
        let (given, mut answer) = self.cases.compare.read_message(call)?;
        answer.truncate(given.length);
        Ok((given, answer))
    }
}
