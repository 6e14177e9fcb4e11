//! A cursor over the bits of an encoding, the most significant bit of each byte first.

/// Each step is `None` where the bits are no encoding of what it is asked for.
#[derive(Clone)]
pub(super) struct Cursor<'a> {
    bytes: &'a [u8],
    /// How many bits lie before it.
    position: usize,
}

impl<'a> Cursor<'a> {
    pub fn of(bytes: &'a [u8]) -> Self {
        Cursor { bytes, position: 0 }
    }

    pub fn bit(&mut self) -> Option<bool> {
        let byte = self.bytes.get(self.position / 8)?;
        let bit = byte >> (7 - self.position % 8) & 1;
        self.position += 1;
        Some(bit == 1)
    }

    /// A number of so many bits, at most 64.
    pub fn bits(&mut self, width: u32) -> Option<u64> {
        (0..width).try_fold(0, |number, _| Some(number << 1 | u64::from(self.bit()?)))
    }

    /// Goes on to where a byte begins. What it passes over is padding, and no bit of it is set.
    pub fn align(&mut self) -> Option<()> {
        while self.position % 8 != 0 {
            if self.bit()? {
                return None;
            }
        }
        Some(())
    }

    /// So many bytes as they lie, behind padding.
    pub fn octets(&mut self, length: usize) -> Option<&'a [u8]> {
        self.align()?;
        let octets = self.bytes.get(self.position / 8..)?.get(..length)?;
        self.position += 8 * length;
        Some(octets)
    }

    /// An encoding ends with the padding of its last byte.
    pub fn end(mut self) -> Option<()> {
        self.align()?;
        (self.position == 8 * self.bytes.len()).then_some(())
    }
}

#[cfg(test)]
mod tests {
    use super::*;

    #[test]
    fn bits_come_from_the_most_significant_on() {
        let mut cursor = Cursor::of(&[0b1010_0001, 0x23, 0x45]);
        assert_eq!((cursor.bit(), cursor.bit()), (Some(true), Some(false)));
        assert_eq!(cursor.bits(0), Some(0));
        assert_eq!(cursor.bits(10), Some(0b10_0001_0010));
        assert_eq!(cursor.bits(12), Some(0x345));
        assert_eq!((cursor.bit(), cursor.bits(1), cursor.bits(0)), (None, None, Some(0)));
    }

    #[test]
    fn what_is_passed_over_is_zero() {
        for byte in 0..=255 {
            let bytes = [byte, 7];
            for read in 0..=8 {
                let mut cursor = Cursor::of(&bytes);
                cursor.bits(read).unwrap();
                let is_zero = read == 0 || u32::from(byte) << read & 255 == 0;
                let octet = if read == 0 { byte } else { 7 };
                assert_eq!(cursor.clone().align().is_some(), is_zero, "{byte:08b} behind {read}");
                assert_eq!(cursor.octets(1), is_zero.then_some(&[octet][..]));
            }
        }
    }

    #[test]
    fn an_encoding_ends_with_its_last_byte() {
        let behind = |bytes: &[u8], read: u32| {
            let mut cursor = Cursor::of(bytes);
            cursor.bits(read).map(|_| cursor.end().is_some())
        };
        assert_eq!(behind(&[], 0), Some(true));
        assert_eq!(behind(&[0x80], 1), Some(true));
        assert_eq!(behind(&[0x81], 1), Some(false));
        assert_eq!(behind(&[0xff], 8), Some(true));
        assert_eq!(behind(&[0xff], 0), Some(false));
        assert_eq!(behind(&[0xff, 0], 8), Some(false));
    }

    #[test]
    fn octets_are_all_there_or_none_is_taken() {
        let mut cursor = Cursor::of(&[1, 2, 3]);
        assert_eq!(cursor.octets(4), None);
        assert_eq!(cursor.octets(usize::MAX), None);
        assert_eq!(cursor.octets(2), Some(&[1, 2][..]));
        assert_eq!(cursor.octets(0), Some(&[][..]));
        assert_eq!(cursor.octets(1), Some(&[3][..]));
        assert_eq!(cursor.octets(1), None);
    }
}
