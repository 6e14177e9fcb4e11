//! Answers of which responses are written, with each thing that can be wrong once: then rounds of
//! seeded ones. What is written is read back.

use second::Done;

use super::answers::*;
use super::families::RESPONSES;
use super::readings::Readings;
use crate::comparison::broken::with_byte;
use crate::comparison::call::Call;
use crate::comparison::cases::{Cases, Compared};

/// Cells at the bounds of a PLMN, of 36 bits and of what a cell is.
const BOUNDS: [u64; 10] = [
    0,
    1,
    (1 << 36) - 1,
    1 << 36,
    (1 << 36) + 1,
    1 << 59,
    (1 << 60) - 1,
    1 << 60,
    1 << 63,
    u64::MAX,
];

impl Cases<'_> {
    /// At least so many calls on responses that are written.
    pub fn run_responses_written(&mut self, calls: u64) -> Compared {
        self.transactions()?;
        self.headers_of_answers()?;
        self.lengths_of_answers()?;
        self.orders_of_rows()?;
        self.changed_answers()?;
        self.rooms_of_messages()?;
        self.bounds_of_rows()?;
        while self.compare.calls < calls {
            self.answer_round()?;
        }
        Ok(())
    }

    /// Writes into a buffer of so many bytes, and asks that it gives what the answer tells.
    fn write_into(&mut self, answer: &[u8], transaction: u8, room: usize) -> Compared {
        let buffer = self.buffer(room);
        let (done, message) = self.compare.write_response(answer, transaction, buffer)?;
        let meant = told_by(answer).map(|told| told.response(transaction).encode());
        let expected = match &meant {
            None => Done { number: 17, length: 0 },
            Some(written) if written.len() > room => Done { number: 8, length: 0 },
            Some(written) => Done { number: 0, length: written.len() },
        };
        let written = meant.as_ref().map_or(&[][..], |written| &written[..expected.length]);
        if done == expected && message.starts_with(written) {
            return Ok(());
        }
        let (answer, message) = (answer.to_vec(), vec![0; room]);
        let call = Call::WriteResponse { answer, transaction, message };
        Err(format!("what was meant is {expected:?}:\n{call}\n"))
    }

    /// Mostly with room for what there may be.
    fn write_answer(&mut self, answer: &[u8]) -> Compared {
        let room = if self.random.one_in(3) { 0 } else { 2 * answer.len() };
        let transaction = self.random.number() as u8;
        self.write_into(answer, transaction, room)
    }

    /// Into a buffer of exactly the room and of another size; and it reads back as what it was but
    /// for its text.
    fn write_and_read(&mut self, told: &Told) -> Compared {
        let transaction = self.random.number() as u8;
        let message = told.response(transaction).encode();
        let sizes = self.sizes(message.len());
        let another = self.random.pick(&sizes);
        for room in [sizes[0], another] {
            self.write_into(&bytes_of(told), transaction, room)?;
        }
        let bare = Told { identifier: 0, serial: 0, ..told.clone() };
        let meant = Ok((transaction.into(), bytes_of(&bare)));
        let room = HEADER + ROW * told.rows.len();
        Readings { cases: self, family: &RESPONSES }.read_into(&message, &meant, room)
    }

    /// Around each length of one and of two bytes, and around the most rows.
    fn bounds_of_rows(&mut self) -> Compared {
        for kind in [1, 2] {
            for rows in (0..40).chain([127, 128, 255, 256, 257, 510, 511, 512]) {
                let told = told(&mut self.random, kind, rows);
                self.write_and_read(&told)?;
            }
            for rows in [513, 514, 768, 1024, 4680] {
                let told = told(&mut self.random, kind, rows);
                self.write_answer(&bytes_of(&told))?;
            }
            for cell in BOUNDS {
                let alone = Told { rows: vec![(cell, 0)], ..Told::bare(kind) };
                let behind = Told { rows: vec![(0, 0), (5, 0), (cell, 0)], ..Told::bare(kind) };
                let before = Told { rows: vec![(cell, 0), (1 << 59 | 7, 0)], ..Told::bare(kind) };
                [alone, behind, before]
                    .iter()
                    .try_for_each(|it| self.write_answer(&bytes_of(it)))?;
            }
        }
        Ok(())
    }

    /// Every size up to a few more than the message, of a long one those around it.
    fn rooms_of_messages(&mut self) -> Compared {
        for (kind, rows) in [(1, 0), (2, 0), (1, 1), (2, 2), (1, 9), (2, 8), (1, 512), (2, 512)] {
            let told = told(&mut self.random, kind, rows);
            let answer = bytes_of(&told);
            let exact = told.response(0).encode().len();
            for room in (exact.saturating_sub(200)..exact + 5).chain([0, 1, answer.len(), 9000]) {
                self.write_into(&answer, 7, room)?;
                self.write_into(&answer[1..], 7, room)?;
            }
        }
        Ok(())
    }

    fn transactions(&mut self) -> Compared {
        for (kind, transaction) in
            [1, 2].into_iter().flat_map(|kind| (0..=255).map(move |it| (kind, it)))
        {
            let told = told(&mut self.random, kind, 1);
            self.write_into(&bytes_of(&told), transaction, 50)?;
        }
        Ok(())
    }

    /// Every byte in the place of each of the header's.
    fn headers_of_answers(&mut self) -> Compared {
        for (kind, rows) in [(1, 0), (2, 0), (1, 2), (2, 2)] {
            let answer = bytes_of(&told(&mut self.random, kind, rows));
            for (at, byte) in (0..HEADER).flat_map(|at| (0..=255).map(move |byte| (at, byte))) {
                self.write_answer(&with_byte(&answer, at, byte))?;
            }
        }
        Ok(())
    }

    /// Cut at every byte and longer, with every small count of rows and some that are large.
    fn lengths_of_answers(&mut self) -> Compared {
        for (kind, rows) in [(1, 0), (2, 1), (1, 3), (2, 4)] {
            let told = told(&mut self.random, kind, rows);
            let answer = [bytes_of(&told), vec![0; 2 * ROW]].concat();
            for length in 0..answer.len() {
                for count in [0, 1, 2, 3, 4, 5, 6, 256 + rows as u16, 512, 513, 65_535] {
                    let [high, low] = count.to_be_bytes();
                    let counted = with_byte(&with_byte(&answer, 10, high), 11, low);
                    self.write_answer(&counted[..length])?;
                }
            }
        }
        Ok(())
    }

    /// Each two rows changed with each other, and with the same cell.
    fn orders_of_rows(&mut self) -> Compared {
        for (kind, rows) in [(1, 2), (2, 2), (1, 5), (2, 6), (1, 512), (2, 512)] {
            let told = told(&mut self.random, kind, rows);
            for (one, other) in pairs(&some_of(rows)) {
                let mut changed = told.clone();
                changed.rows.swap(one, other);
                self.write_answer(&bytes_of(&changed))?;
                let mut changed = told.clone();
                changed.rows[one].0 = changed.rows[other].0;
                self.write_answer(&bytes_of(&changed))?;
            }
        }
        Ok(())
    }

    /// Each byte of the header and of each row once, to several values; of many rows in some.
    fn changed_answers(&mut self) -> Compared {
        for (kind, rows) in [(1, 1), (2, 1), (1, 3), (2, 3), (1, 40), (2, 40), (1, 512), (2, 512)] {
            let answer = bytes_of(&told(&mut self.random, kind, rows));
            let in_row = |row: usize| (0..ROW).map(move |at| HEADER + ROW * row + at);
            for at in (0..HEADER).chain(some_of(rows).into_iter().flat_map(in_row)) {
                let (byte, any) = (answer[at], self.random.other(answer[at]));
                for other in [any, byte.wrapping_add(1), byte.wrapping_sub(1), byte ^ 0x80, 0, 1] {
                    self.write_answer(&with_byte(&answer, at, other))?;
                }
            }
        }
        Ok(())
    }

    /// Seeded answers, with something wrong, and bytes without sense.
    fn answer_round(&mut self) -> Compared {
        for _ in 0..40 {
            let (kind, rows) = (self.random.pick(&[1, 2]), rows(&mut self.random));
            let told = told(&mut self.random, kind, rows);
            self.write_and_read(&told)?;
            (0..3).try_for_each(|_| self.wrong_answer(&told))?;
            let senseless = self.senseless(bytes_of(&told));
            self.write_answer(&senseless)?;
        }
        Ok(())
    }

    /// One thing wrong with a row, or with nothing.
    fn wrong_answer(&mut self, told: &Told) -> Compared {
        let mut answer = bytes_of(told);
        let random = &mut self.random;
        let row = HEADER + ROW * random.below(told.rows.len().max(1));
        let at = match random.below(6) {
            0 => random.below(answer.len()),
            1 => row + COUNT + random.below(2),
            2 => row + CONTENT + random.below(4),
            3 => 5,
            _ => row + random.below(COUNT),
        };
        if let Some(byte) = answer.get_mut(at) {
            *byte = random.pick(&[0, 1, 2, 3, 0x0f, 0x10, 0xff, byte.wrapping_add(1)]);
        }
        self.write_answer(&answer)
    }
}
