//! How X.691's aligned variant encodes the types that F1AP's warning messages are made of: read
//! with a cursor, and written with a pen.

use std::ops::RangeInclusive;

use super::cursor::Cursor;
use super::pen::Pen;

/// How many bits there are, and whether they stand behind padding or where they happen to.
struct Room {
    width: u32,
    is_aligned: bool,
}

impl Room {
    /// Of a constrained whole number: of up to 255 values the fewest bits, where they happen to
    /// stand; of 256 an octet and of up to 65,536 two, behind padding.
    fn of_number(range: &RangeInclusive<u64>) -> Room {
        match range.end() - range.start() {
            last @ 0..=254 => Room { width: u64::BITS - last.leading_zeros(), is_aligned: false },
            255 => Room { width: 8, is_aligned: true },
            last => {
                assert!(last <= 65_535, "no type of these messages has more values");
                Room { width: 16, is_aligned: true }
            }
        }
    }

    /// Of a string of this size and no other, which has no length. Of bits or of octets, up to two
    /// octets stand where they happen to.
    fn of_string(width: u32) -> Room {
        Room { width, is_aligned: width > 16 }
    }
}

impl<'a> Cursor<'a> {
    fn room(&mut self, room: Room) -> Option<u64> {
        if room.is_aligned {
            self.align()?;
        }
        self.bits(room.width)
    }

    /// A constrained whole number. The bits may say more than there are values.
    pub fn whole_number(&mut self, range: RangeInclusive<u64>) -> Option<u64> {
        let above_least = self.room(Room::of_number(&range))?;
        Some(range.start() + above_least).filter(|number| range.contains(number))
    }

    /// The bit of a type that may be extended. Document 02 takes none that is.
    pub fn not_extended(&mut self) -> Option<()> {
        (!self.bit()?).then_some(())
    }

    pub fn bit_string(&mut self, size: u32) -> Option<u64> {
        self.room(Room::of_string(size))
    }

    /// As a number.
    pub fn octet_string(&mut self, size: u32) -> Option<u64> {
        self.room(Room::of_string(8 * size))
    }

    /// A length in the one form that it has. From 16,384 on that is in fragments, and document 02
    /// takes none.
    fn length(&mut self) -> Option<usize> {
        self.align()?;
        let length = match (self.bit()?, self.clone().bit()?) {
            (false, _) => self.bits(7)?,
            (true, false) => self.bits(15).filter(|length| *length > 127)?,
            (true, true) => return None,
        };
        usize::try_from(length).ok()
    }

    /// The octets of an open type. There is one at least, since what needs no bits is a zero octet.
    pub fn open_type(&mut self) -> Option<&'a [u8]> {
        let length = self.length().filter(|length| *length > 0)?;
        self.octets(length)
    }

    /// So many of one type as this size allows, back to back.
    pub fn sequence_of<T>(
        &mut self,
        size: RangeInclusive<u64>,
        mut one: impl FnMut(&mut Self) -> Option<T>,
    ) -> Option<Vec<T>> {
        let count = self.whole_number(size)?;
        (0..count).map(|_| one(self)).collect()
    }
}

impl Pen {
    fn room(&mut self, room: Room, number: u64) {
        if room.is_aligned {
            self.align();
        }
        self.bits(room.width, number);
    }

    /// A number of the range.
    pub fn whole_number(&mut self, range: RangeInclusive<u64>, number: u64) {
        self.room(Room::of_number(&range), number - range.start());
    }

    pub fn not_extended(&mut self) {
        self.bits(1, 0);
    }

    /// The lower bits of a number.
    pub fn bit_string(&mut self, size: u32, number: u64) {
        self.room(Room::of_string(size), number);
    }

    /// The lower octets of a number.
    pub fn octet_string(&mut self, size: u32, number: u64) {
        self.room(Room::of_string(8 * size), number);
    }

    /// "shortest lengths" are in one octet up to 127, and in two up to 16,383.
    fn length(&mut self, length: usize) {
        assert!(length < 1 << 14, "nothing that is written is as long as a fragment");
        self.align();
        match length {
            0..=127 => self.bits(8, length as u64),
            _ => self.bits(16, 1 << 15 | length as u64),
        }
    }

    /// An open type with these contents, which are an encoding of their own.
    pub fn open_type(&mut self, contents: &[u8]) {
        self.length(contents.len());
        self.octets(contents);
    }

    /// All of one type, back to back; as many as this size allows.
    pub fn sequence_of<T>(
        &mut self,
        size: RangeInclusive<u64>,
        all: &[T],
        mut one: impl FnMut(&mut Self, &T),
    ) {
        self.whole_number(size, all.len() as u64);
        all.iter().for_each(|it| one(self, it));
    }
}

/// The value whose encoding is all of these octets.
pub(super) fn whole<'a, T>(
    octets: &'a [u8],
    value: impl FnOnce(&mut Cursor<'a>) -> Option<T>,
) -> Option<T> {
    let mut cursor = Cursor::of(octets);
    let value = value(&mut cursor)?;
    cursor.end().map(|()| value)
}

#[cfg(test)]
mod tests {
    use super::*;

    #[test]
    fn a_whole_number_has_the_room_of_its_values() {
        let read = |octets: &[u8], range: RangeInclusive<u64>| {
            let mut cursor = Cursor::of(octets);
            assert_eq!(cursor.bits(1), Some(0));
            cursor.whole_number(range)
        };
        assert_eq!(read(&[0x7f], 9..=9), Some(9));
        assert_eq!(read(&[0x40], 0..=1), Some(1));
        assert_eq!((read(&[0x40], 0..=2), read(&[0x60], 0..=2)), (Some(2), None));
        assert_eq!((read(&[0x60], 0..=3), read(&[0x60], 5..=8)), (Some(3), Some(8)));
        assert_eq!(read(&[0x7f, 0x00], 0..=254), Some(254));
        assert_eq!(read(&[0x7f, 0x80], 0..=254), None);
        assert_eq!((read(&[0, 0xff], 0..=255), read(&[1, 0xff], 0..=255)), (Some(255), None));
        assert_eq!(read(&[0, 0x01, 0xff], 1..=512), Some(512));
        assert_eq!(read(&[0, 0x02, 0x00], 1..=512), None);
        assert_eq!(read(&[0, 0xff, 0xff], 0..=65_535), Some(65_535));
        assert_eq!((read(&[0, 0xff], 0..=65_535), read(&[0], 0..=255)), (None, None));
        let most = |octets: &[u8]| read(octets, 1..=65_535);
        assert_eq!((most(&[0, 0xff, 0xfe]), most(&[0, 0xff, 0xff])), (Some(65_535), None));
    }

    #[test]
    fn short_strings_stand_where_they_happen_to() {
        let behind_a_bit = |octets: &'static [u8]| {
            let mut cursor = Cursor::of(octets);
            cursor.bit();
            cursor
        };
        assert_eq!(behind_a_bit(&[0x09, 0x1a, 0x00]).bit_string(16), Some(0x1234));
        assert_eq!(behind_a_bit(&[0, 0x09, 0x1a]).bit_string(17), None);
        assert_eq!(behind_a_bit(&[0, 0x09, 0x1a, 0x80]).bit_string(17), Some(0x1235));
        assert_eq!(behind_a_bit(&[0x09, 0x1a, 0x00]).octet_string(2), Some(0x1234));
        assert_eq!(behind_a_bit(&[0, 1, 2, 3]).octet_string(3), Some(0x010203));
        assert_eq!(behind_a_bit(&[1, 1, 2, 3]).octet_string(3), None);
    }

    #[test]
    fn a_length_has_one_form() {
        let octets = |head: &[u8], length: usize| [head, &vec![7; length]].concat();
        let read = |octets: &[u8]| Cursor::of(octets).open_type().map(<[u8]>::len);
        for (head, length) in [
            (&[1][..], 1),
            (&[127], 127),
            (&[0x80, 128], 128),
            (&[0x9a, 0x1b], 6683),
            (&[0xbf, 0xff], 16_383),
        ] {
            assert_eq!(read(&octets(head, length)), Some(length));
            assert_eq!(read(&octets(head, length + 1)), Some(length));
            assert_eq!(read(&octets(head, length - 1)), None);
        }
        for head in [&[0][..], &[], &[0x80, 0], &[0x80, 1], &[0x80, 127], &[0x80], &[0xbf]] {
            assert_eq!(read(&octets(head, 0)), None, "{head:?}");
        }
        for head in [&[0x80, 1][..], &[0x80, 127], &[0xc0], &[0xc1], &[0xc4], &[0xff]] {
            assert_eq!(read(&octets(head, 70_000)), None, "{head:?}");
        }
    }

    #[test]
    fn a_sequence_is_as_long_as_its_count() {
        let read = |octets: &[u8]| {
            whole(octets, |cursor| cursor.sequence_of(1..=512, |one| one.bit_string(8)))
        };
        assert_eq!(read(&[0, 1, 7, 9]), Some(vec![7, 9]));
        assert_eq!(read(&[0, 1, 7]), None);
        assert_eq!(read(&[0, 1, 7, 9, 0]), None);
        assert_eq!(read(&[2, 0, 7]), None);
    }

    #[test]
    fn what_is_written_reads_back() {
        for range in [5..=5, 0..=2, 3..=257, 0..=255, 1..=512, 0..=65_535] {
            for number in [*range.start(), range.start() + (range.end() - range.start()) / 3]
                .into_iter()
                .chain([*range.end()])
            {
                let written = Pen::written(|pen| {
                    pen.not_extended();
                    pen.whole_number(range.clone(), number);
                    pen.octet_string(3, 0x010203);
                    pen.bit_string(16, 0xa5a5);
                    pen.bit_string(36, number);
                    pen.open_type(&vec![7; number as usize % 16_383 + 1]);
                });
                let read = whole(&written, |cursor| {
                    cursor.not_extended()?;
                    assert_eq!(cursor.whole_number(range.clone()), Some(number));
                    assert_eq!(cursor.octet_string(3), Some(0x010203));
                    assert_eq!(cursor.bit_string(16), Some(0xa5a5));
                    assert_eq!(cursor.bit_string(36), Some(number));
                    cursor.open_type()
                });
                assert_eq!(read, Some(&vec![7; number as usize % 16_383 + 1][..]));
            }
        }
        let list =
            Pen::written(|pen| pen.sequence_of(1..=512, &[7, 9], |pen, it| pen.bits(8, *it)));
        assert_eq!(list, [0, 1, 7, 9]);
    }

    #[test]
    fn what_is_extended_is_not_taken() {
        assert_eq!(whole(&[0], Cursor::not_extended), Some(()));
        assert_eq!(whole(&[0x80], Cursor::not_extended), None);
        assert_eq!(whole(&[0x40], Cursor::not_extended), None);
        assert_eq!(whole(&[], Cursor::not_extended), None);
    }
}
