//! Messages of every form that there is, short enough to be changed everywhere.

use super::examples::CELLS;
use super::families::Family;
use super::forms::{Place, CANCEL, CANCELLED, COMPLETED};
use super::messages::*;

/// All five known elements.
pub fn whole_cancels() -> Vec<Frame> {
    let bare = [Field::transaction(7), Field::requested(0x0102), Field::cells(&CELLS)];
    let elements = [&bare[..], &[Field::cancel_all(), Field::notification(0x1234, 0x5678)]];
    vec![Frame::of(&CANCEL, elements.concat())]
}

/// A transaction and a list.
pub fn whole_responses() -> Vec<Frame> {
    let counted = [(CELLS[0], 0x0102), (CELLS[1], 0xff00)];
    vec![
        Frame::of(&COMPLETED, vec![Field::transaction(7), Field::completed(&CELLS)]),
        Frame::of(&CANCELLED, vec![Field::transaction(200), Field::cancelled(&counted)]),
    ]
}

impl Family {
    /// All there is, with an extension wherever one can be.
    pub fn rich(&self) -> Vec<Frame> {
        (self.whole)().into_iter().map(extended).collect()
    }

    /// The same with one cell alone.
    pub fn rich_in_one_cell(&self) -> Vec<Frame> {
        let one = |mut frame: Frame| {
            frame.cells().truncate(1);
            extended(frame)
        };
        (self.whole)().into_iter().map(one).collect()
    }

    /// One has long lengths.
    pub fn bases(&self) -> Vec<Frame> {
        let examples = (self.examples)().into_iter().map(|example| example.frame);
        let short = examples.filter(|frame| frame.encode().len() < 128);
        let longer = |mut frame: Frame| {
            frame.elements.insert(1, Field::unknown(999, IGNORE, &[0; 200]));
            frame
        };
        let of_rich = |frame: Frame| [frame.clone(), longer(frame.clone()), wrong(frame)];
        short.chain(self.rich().into_iter().flat_map(of_rich)).collect()
    }
}

fn extended(mut frame: Frame) -> Frame {
    for (k, place) in Place::all(&frame).into_iter().enumerate() {
        if place == Place::Extensions {
            let extension = Field::unknown(500 + k as u16, NOTIFY, &[k as u8, 0xff]);
            frame.list(k).expect("it is numbered").push(extension);
        }
    }
    frame
}

/// Refused with 15 and with 16 at every depth, from its first element on, so that whatever is badly
/// encoded comes behind.
fn wrong(mut frame: Frame) -> Frame {
    let again = frame.elements.clone();
    frame.elements.insert(0, Field::unknown(999, REJECT, &[7]));
    frame.elements.insert(2, again[again.len() - 1].clone());
    frame.elements.extend_from_slice(&again[1..]);
    let places = Place::all(&frame).into_iter().enumerate();
    let items = places.filter(|(_, place)| *place == Place::Items).map(|(k, _)| k);
    for k in items.collect::<Vec<_>>() {
        frame.list(k).expect("it is numbered").insert(1, Field::unknown(LIST, IGNORE, &[7]));
    }
    frame
}
