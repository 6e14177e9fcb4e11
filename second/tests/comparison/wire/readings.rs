//! Messages that an entry point reads, with each thing that can be wrong once: then rounds of
//! seeded ones.

use std::slice::from_ref;

use second::Message;

use super::encoder::Twist;
use super::families::{Family, CANCELS};
use super::forms::Place;
use super::meaning::{meaning, Meaning};
use super::messages::*;
use super::twists::{NEVER, OTHER_COUNTS, OTHER_LENGTHS};
use crate::comparison::cases::{Cases, Compared};

impl Cases<'_> {
    /// At least so many calls on cancels from the wire.
    pub fn run_cancels(&mut self, calls: u64) -> Compared {
        let mut readings = Readings { cases: self, family: &CANCELS };
        readings.each_wrong_once()?;
        while readings.cases.compare.calls < calls {
            readings.round()?;
        }
        Ok(())
    }
}

pub struct Readings<'r, 'a> {
    pub cases: &'r mut Cases<'a>,
    pub family: &'static Family,
}

impl Readings<'_, '_> {
    /// What is long comes last, so that most faults show before it.
    pub fn each_wrong_once(&mut self) -> Compared {
        self.orders_of_elements()?;
        self.criticalities()?;
        self.unknown_everywhere()?;
        self.other_messages()?;
        for frame in self.family.bases() {
            self.set_bits(&frame)?;
            self.twisted_lengths(&frame)?;
            self.twisted_counts(&frame)?;
            self.cut_messages(&frame)?;
            self.flipped_bits(&frame)?;
        }
        self.rooms()?;
        self.lists_of_cells()?;
        self.long_messages()?;
        self.changed_bytes()
    }

    /// Reads into a buffer of so many bytes, and asks that it gives what was meant.
    pub fn read_into(&mut self, message: &[u8], meant: &Meaning, room: usize) -> Compared {
        let call = (self.family.call)(message.to_vec(), self.cases.buffer(room));
        let (returned, buffer) = self.cases.compare.read_message(call.clone())?;
        let refused = |number| (Message { number, ..Message::default() }, &[][..]);
        let (expected, written) = match meant {
            Ok((_, written)) if written.len() > room => refused(8),
            Ok((transaction, written)) => {
                let (transaction, length) = (*transaction, written.len());
                (Message { number: 0, transaction, length }, &written[..])
            }
            Err(number) => refused(*number),
        };
        if returned == expected && buffer.starts_with(written) {
            return Ok(());
        }
        Err(format!("what was meant is {expected:?}:\n{call}\n"))
    }

    /// Encodes as an encoder does, and reads into a buffer of exactly the room and of another size.
    pub fn read_as_meant(&mut self, frame: &Frame) -> Compared {
        let (message, meant) = (frame.encode(), meaning(self.family, frame));
        let exact = meant.as_ref().map_or(self.family.lengths.0, |(_, written)| written.len());
        let sizes = self.cases.sizes(exact);
        let another = self.cases.random.pick(&sizes);
        [sizes[0], another].into_iter().try_for_each(|room| self.read_into(&message, &meant, room))
    }

    /// Mostly with room for what there may be.
    pub fn read_message(&mut self, message: &[u8]) -> Compared {
        let cells = if self.cases.random.one_in(8) { 0 } else { message.len() / 13 };
        let (bare, cell) = self.family.lengths;
        let buffer = self.cases.buffer(bare + cell * cells.min(512));
        self.cases.compare.read_message((self.family.call)(message.to_vec(), buffer)).map(drop)
    }

    pub fn read_badly_encoded(&mut self, message: &[u8]) -> Compared {
        let room = self.cases.random.pick(&[0, self.family.lengths.0, 99]);
        self.read_into(message, &Err(13), room)
    }

    /// Each example into a buffer of every size up to a few more than it needs.
    fn rooms(&mut self) -> Compared {
        for example in (self.family.examples)() {
            let (message, meant) = (example.frame.encode(), meaning(self.family, &example.frame));
            let exact = meant.as_ref().map_or(0, |(_, written)| written.len());
            for room in (exact.saturating_sub(99)..exact + 5).chain([0, 1, 25, 26, 6000]) {
                self.read_into(&message, &meant, room)?;
            }
        }
        Ok(())
    }

    /// Every choice of the known elements in every order, and each once more at every place; with
    /// and without others between them.
    fn orders_of_elements(&mut self) -> Compared {
        for whole in (self.family.whole)() {
            for elements in orders(&whole.elements) {
                let unknown = |criticality| Field::unknown(999, criticality, &[7]);
                let others =
                    elements.iter().flat_map(|one| [unknown(IGNORE), one.clone(), unknown(NOTIFY)]);
                self.read_as_meant(&Frame { elements: others.collect(), ..whole.clone() })?;
                self.read_as_meant(&Frame { elements, ..whole.clone() })?;
            }
        }
        Ok(())
    }

    /// At and around each bound of the count, with the count as it is and another.
    fn lists_of_cells(&mut self) -> Compared {
        for mut frame in (self.family.whole)() {
            let first = frame.cells()[0].clone();
            for count in [0, 1, 2, 3, 127, 128, 255, 256, 257, 510, 511, 512, 513, 514, 768, 1024] {
                *frame.cells() = (0..count).map(|k| above(&first, k)).collect();
                self.read_as_meant(&frame)?;
                for other in OTHER_COUNTS {
                    self.read_message(&frame.twisted(Twist::Count(1, other)))?;
                }
            }
        }
        Ok(())
    }

    /// The frame and each field, known or not, with each value of the two bits.
    fn criticalities(&mut self) -> Compared {
        let bases = self.family.bases().into_iter();
        for (mut frame, criticality) in bases.flat_map(|it| [0, 1, 2, 3].map(|to| (it.clone(), to)))
        {
            for k in 0..Place::all(&frame).len() {
                for at in 0..frame.list(k).expect("it is numbered").len() {
                    let mut marked = frame.clone();
                    marked.list(k).expect("it is numbered")[at].criticality = criticality;
                    self.read_as_meant(&marked)?;
                }
            }
            frame.criticality = criticality;
            self.read_as_meant(&frame)?;
        }
        Ok(())
    }

    /// Of every criticality, at every place of every list, with every identifier that is unknown
    /// there and contents of every bounding length.
    fn unknown_everywhere(&mut self) -> Compared {
        for frame in [(self.family.whole)(), self.family.rich()].concat() {
            for (k, place) in Place::all(&frame).into_iter().enumerate() {
                for at in 0..=frame.clone().list(k).expect("it is numbered").len() {
                    self.unknown_at(&frame, k, at, place)?;
                }
            }
        }
        Ok(())
    }

    fn unknown_at(&mut self, frame: &Frame, k: usize, at: usize, place: Place) -> Compared {
        let form = self.family.form(frame).expect("it is read");
        let lengths = [0, 1, 2, 127, 128, 300].map(|length| (999, length));
        let ids = place.unknown(form).into_iter().map(|id| (id, 1));
        for (id, length) in ids.chain(lengths) {
            for criticality in 0..4 {
                let octets = self.cases.buffer(length);
                let mut frame = frame.clone();
                let list = frame.list(k).expect("it is numbered");
                list.insert(at, Field::unknown(id, criticality, &octets));
                self.read_as_meant(&frame)?;
            }
        }
        Ok(())
    }

    /// Every choice and many codes, of which the frame alone is judged, around contents of each
    /// kind.
    fn other_messages(&mut self) -> Compared {
        let own = (self.family.whole)().remove(0);
        let contents = [own.value(), vec![0], vec![0xff; 3], self.cases.buffer(130)];
        for choice in 0..4 {
            for code in [0, 1, 14, 19, 20, 21, 22, 42, 255, 256, 0x1400, 0x1515, 0x0115, 65_535] {
                if code > 255 && choice != 3 {
                    continue;
                }
                for criticality in 0..4 {
                    let frame = Frame { choice, code, criticality, ..own.clone() };
                    contents.iter().try_for_each(|it| self.frames_around(&frame, it))?;
                }
            }
        }
        Ok(())
    }

    /// A right frame, and what can be wrong with it.
    fn frames_around(&mut self, frame: &Frame, contents: &[u8]) -> Compared {
        let message = frame.around(contents, Twist::Nothing);
        match (self.family.form(frame), frame.criticality) {
            (_, 3) => return self.read_badly_encoded(&message),
            (Some(_), _) => self.read_message(&message)?,
            (None, _) => self.read_into(&message, &Err(14), 0)?,
        }
        if frame.criticality != REJECT {
            return Ok(());
        }
        let bits = (0..12).map(Twist::Bit);
        let lengths = NEVER.iter().chain(&OTHER_LENGTHS[..2]).map(|it| Twist::Length(0, *it));
        for twisted in bits.chain(lengths).map(|twist| frame.around(contents, twist)) {
            // Two bytes are the form of a length that is long enough.
            if twisted != message {
                self.read_badly_encoded(&twisted)?;
            }
        }
        self.read_badly_encoded(&[&message[..], &[0]].concat())?;
        let cut = self.cases.random.below(message.len());
        self.read_badly_encoded(&message[..cut])
    }
}

/// Some of these in any order, and all of them with one twice.
fn orders(all: &[Field]) -> Vec<Vec<Field>> {
    let mut chosen: Vec<Vec<Field>> = vec![vec![]];
    for done in 0.. {
        let Some(some) = chosen.get(done).cloned() else { break };
        let others = all.iter().filter(|other| !some.contains(other));
        chosen.extend(others.map(|other| [&some[..], from_ref(other)].concat()));
    }
    for (one, place) in all.iter().flat_map(|one| (0..=all.len()).map(move |at| (one, at))) {
        let mut repeated = all.to_vec();
        repeated.insert(place, one.clone());
        chosen.push(repeated);
    }
    chosen
}

/// The item whose cell is so far above this one's.
pub fn above(item: &Field, by: u64) -> Field {
    let mut item = item.clone();
    if let Value::Cell(cell) = &mut item.value {
        cell.identity += by;
    }
    item
}
