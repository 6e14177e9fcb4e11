//! A pen that writes the bits of an encoding, the most significant bit of each byte first.

#[derive(Default)]
pub(super) struct Pen {
    bytes: Vec<u8>,
    /// How many bits of the last byte are not written yet. They are 0.
    free: u32,
}

impl Pen {
    /// The encoding of what is written: the rest of its last byte is padding.
    pub fn written(write: impl FnOnce(&mut Pen)) -> Vec<u8> {
        let mut pen = Pen::default();
        write(&mut pen);
        pen.bytes
    }

    /// The lower bits of a number, so many of them.
    pub fn bits(&mut self, width: u32, number: u64) {
        (0..width).rev().for_each(|place| self.bit(number >> place & 1 == 1));
    }

    fn bit(&mut self, bit: bool) {
        if self.free == 0 {
            self.bytes.push(0);
            self.free = 8;
        }
        self.free -= 1;
        if let Some(last) = self.bytes.last_mut() {
            *last |= u8::from(bit) << self.free;
        }
    }

    /// Goes on to where a byte begins. What it passes over is padding.
    pub fn align(&mut self) {
        self.free = 0;
    }

    /// Bytes as they lie, behind padding.
    pub fn octets(&mut self, octets: &[u8]) {
        self.align();
        self.bytes.extend_from_slice(octets);
    }
}

#[cfg(test)]
mod tests {
    use super::super::cursor::Cursor;
    use super::*;

    #[test]
    fn bits_go_from_the_most_significant_on() {
        let written = Pen::written(|pen| {
            pen.bits(1, 1);
            pen.bits(0, 7);
            pen.bits(3, 0b1010);
            pen.bits(12, 0x345);
        });
        assert_eq!(written, [0b1010_0011, 0x45]);
    }

    #[test]
    fn padding_is_zero_and_less_than_a_byte() {
        for width in 0..=16 {
            let written = Pen::written(|pen| {
                pen.bits(width, u64::MAX);
                pen.align();
                pen.align();
                pen.octets(&[7, 9]);
                pen.bits(1, 1);
            });
            let mut cursor = Cursor::of(&written);
            assert_eq!(cursor.bits(width), Some((1 << width) - 1));
            assert_eq!(cursor.octets(2), Some(&[7, 9][..]), "behind {width}");
            assert_eq!((cursor.bit(), cursor.end()), (Some(true), Some(())));
        }
        assert_eq!(Pen::written(|_| ()), []);
    }
}
