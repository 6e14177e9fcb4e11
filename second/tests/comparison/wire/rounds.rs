//! Rounds of seeded messages: whole, of wrong elements, badly encoded, and of bytes without sense.

use super::any::insert;
use super::encoder::Twist;
use super::forms::Place;
use super::messages::*;
use super::readings::Readings;
use super::twists::{NEVER, OTHER_COUNTS, OTHER_LENGTHS};
use crate::comparison::cases::Compared;

impl Readings<'_, '_> {
    pub(super) fn round(&mut self) -> Compared {
        for _ in 0..20 {
            let frame = (self.family.any)(&mut self.cases.random);
            self.read_as_meant(&frame)?;
            self.wrong_elements(frame.clone())?;
            (0..4).try_for_each(|_| self.any_twist(&frame))?;
            (0..6).try_for_each(|_| self.damaged_message(&frame))?;
            self.senseless_message(&frame)?;
        }
        Ok(())
    }

    /// One to three things wrong with its elements, so that the lowest refusal is asked for.
    fn wrong_elements(&mut self, mut frame: Frame) -> Compared {
        let form = self.family.form(&frame).expect("it is read");
        let random = &mut self.cases.random;
        for _ in 0..1 + random.below(3) {
            let place = random.below(frame.elements.len() + 1);
            let other = random.below(frame.elements.len() + 1);
            let criticality = random.pick(&[REJECT, REJECT, IGNORE, NOTIFY, 3]);
            match random.below(7) {
                0 => insert(random, form, &mut frame, |_| true, criticality),
                1 => insert(random, form, &mut frame, |it| it == Place::Items, IGNORE),
                2 => insert(random, form, &mut frame, |it| it != Place::Items, criticality),
                _ if place.max(other) >= frame.elements.len() => frame.choice = 2,
                3 | 4 => drop(frame.elements.remove(place)),
                5 => frame.elements.swap(place, other),
                _ => frame.elements.insert(place, frame.elements[other].clone()),
            }
        }
        self.read_as_meant(&frame)
    }

    fn any_twist(&mut self, frame: &Frame) -> Compared {
        let spots = frame.spots();
        let random = &mut self.cases.random;
        let twist = match random.below(4) {
            0 => {
                let bit = Twist::Bit(random.below(spots.bits));
                return self.read_badly_encoded(&frame.twisted(bit));
            }
            1 => Twist::Count(random.below(spots.counts), random.pick(&OTHER_COUNTS)),
            2 => Twist::Length(random.below(spots.lengths), random.pick(&NEVER)),
            _ => Twist::Length(random.below(spots.lengths), random.pick(&OTHER_LENGTHS)),
        };
        self.read_message(&frame.twisted(twist))
    }

    /// A few bytes changed, added or left out.
    fn damaged_message(&mut self, frame: &Frame) -> Compared {
        let mut message = frame.encode();
        let random = &mut self.cases.random;
        for _ in 0..random.pick(&[1, 1, 1, 2, 3]) {
            let offset = random.below(message.len());
            let byte = random.pick(&[0, 0x40, 0x80, 0xc0, 0xff]);
            match random.below(6) {
                0 => message.insert(offset, byte),
                1 if message.len() > 1 => drop(message.remove(offset)),
                2 => message[offset] = byte,
                3 => message[offset] ^= 1 << random.below(8),
                _ => message[offset] = random.other(message[offset]),
            }
        }
        self.read_message(&message)
    }

    /// Bytes without sense, alone, within a right frame, and behind right elements.
    fn senseless_message(&mut self, frame: &Frame) -> Compared {
        let random = &mut self.cases.random;
        let length = 1 + random.below(60);
        let any = random.bytes(length);
        let small: Vec<u8> = any.iter().map(|byte| byte % 3).collect();
        let contents = frame.encode();
        let (cut, length) = (random.below(contents.len()), random.below(any.len()));
        self.read_message(&any)?;
        self.read_message(&frame.around(&any, Twist::Nothing))?;
        self.read_message(&frame.around(&[&[0, 0], &small[..]].concat(), Twist::Nothing))?;
        self.read_message(&[&contents[..cut], &any[..length]].concat())
    }
}
