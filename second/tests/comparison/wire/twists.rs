//! Messages that no encoder writes: bits that are set, lengths and counts that say something else,
//! messages cut and longer, and bytes changed.

use super::encoder::{Form, Twist};
use super::forms::Place;
use super::meaning::LONGEST;
use super::messages::*;
use super::readings::Readings;
use crate::comparison::cases::Compared;

/// Forms of a length in which none is ever read.
pub(super) const NEVER: [Form; 10] = [
    Form::Long,
    Form::Empty,
    Form::Says(|_| 0),
    Form::Fragments(0),
    Form::Fragments(1),
    Form::Fragments(2),
    Form::Fragments(3),
    Form::Fragments(4),
    Form::Fragments(5),
    Form::Fragments(63),
];
pub(super) const OTHER_LENGTHS: [Form; 7] = [
    Form::Says(|length| length + 1),
    Form::Says(|length| length - 1),
    Form::Says(|length| length + 4),
    Form::Says(|_| 1),
    Form::Says(|_| 127),
    Form::Says(|_| 128),
    Form::Says(|_| LONGEST),
];
pub(super) const OTHER_COUNTS: [fn(u16) -> u16; 9] = [
    |count| count.wrapping_add(1),
    |count| count.wrapping_sub(1),
    |count| count ^ 256,
    |count| count.swap_bytes(),
    |_| 0,
    |_| 511,
    |_| 512,
    |_| 65_534,
    |_| 65_535,
];

impl Readings<'_, '_> {
    /// Each bit of padding and each extension bit.
    pub(super) fn set_bits(&mut self, frame: &Frame) -> Compared {
        let twists = (0..frame.spots().bits).map(Twist::Bit);
        twists.into_iter().try_for_each(|twist| self.read_badly_encoded(&frame.twisted(twist)))
    }

    pub(super) fn twisted_lengths(&mut self, frame: &Frame) -> Compared {
        let message = frame.encode();
        for k in 0..frame.spots().lengths {
            for form in NEVER {
                let twisted = frame.twisted(Twist::Length(k, form));
                // Two bytes are the form of a length that is long enough.
                if twisted != message {
                    self.read_badly_encoded(&twisted)?;
                }
            }
            for form in OTHER_LENGTHS {
                self.read_message(&frame.twisted(Twist::Length(k, form)))?;
            }
        }
        Ok(())
    }

    pub(super) fn twisted_counts(&mut self, frame: &Frame) -> Compared {
        for k in 0..frame.spots().counts {
            for other in OTHER_COUNTS {
                self.read_message(&frame.twisted(Twist::Count(k, other)))?;
            }
        }
        Ok(())
    }

    /// Cut at every byte, as it is and within a frame that says where it is cut; and with bytes
    /// behind its end, outside of the frame and inside.
    pub(super) fn cut_messages(&mut self, frame: &Frame) -> Compared {
        let message = frame.encode();
        let value = &frame.value()[..];
        for length in 0..message.len() {
            self.read_badly_encoded(&message[..length])?;
        }
        for length in 1..value.len() {
            self.read_badly_encoded(&frame.around(&value[..length], Twist::Nothing))?;
        }
        for behind in [&[0][..], &[0xff], &[0, 0], &[0; 13], &message] {
            self.read_badly_encoded(&[&message[..], behind].concat())?;
            let longer = [value, behind].concat();
            self.read_badly_encoded(&frame.around(&longer, Twist::Nothing))?;
        }
        Ok(())
    }

    pub(super) fn flipped_bits(&mut self, frame: &Frame) -> Compared {
        let message = frame.encode();
        for (at, bit) in (0..message.len()).flat_map(|at| (0..8).map(move |bit| (at, bit))) {
            let mut flipped = message.clone();
            flipped[at] ^= 1 << bit;
            self.read_message(&flipped)?;
        }
        Ok(())
    }

    /// Every other value of every byte of a message that has extensions everywhere.
    pub(super) fn changed_bytes(&mut self) -> Compared {
        for message in self.family.rich_in_one_cell().iter().map(Frame::encode) {
            for (at, by) in (0..message.len()).flat_map(|at| (1..=255).map(move |by| (at, by))) {
                let mut changed = message.clone();
                changed[at] ^= by;
                self.read_message(&changed)?;
            }
        }
        Ok(())
    }

    /// Around the longest that is not in fragments and far beyond it; and with more elements, and
    /// more extensions, than a byte counts.
    pub(super) fn long_messages(&mut self) -> Compared {
        for whole in (self.family.whole)() {
            let padded = |length: usize| {
                let mut frame = whole.clone();
                frame.elements.push(Field::unknown(999, IGNORE, &vec![7; length]));
                frame
            };
            let around = LONGEST - (padded(1000).encode().len() - 5 - 1000);
            for length in (around - 2..around + 3).chain([16_383, 16_384, 16_389, 32_768, 65_536]) {
                self.read_as_meant(&padded(length))?;
            }
            self.read_as_meant(&padded(200_000))?;
            for count in [254, 255, 256, 257, 258, 1000, 2000] {
                self.with_many(&whole, &vec![Field::unknown(999, NOTIFY, &[7]); count])?;
            }
        }
        Ok(())
    }

    /// In each list but that of the items.
    fn with_many(&mut self, frame: &Frame, many: &[Field]) -> Compared {
        for (k, place) in Place::all(frame).into_iter().enumerate() {
            if place != Place::Items {
                let mut frame = frame.clone();
                let list = frame.list(k).expect("it is numbered");
                list.splice(list.len().min(1)..list.len().min(1), many.iter().cloned());
                self.read_as_meant(&frame)?;
            }
        }
        Ok(())
    }
}
