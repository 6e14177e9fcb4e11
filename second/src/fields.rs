//! Big-endian fields, and the mark with its version that opens a table, a record and an answer.

/// Takes fields off the front of lent bytes; `None` where the bytes end before the field does.
pub(crate) struct Fields<'a> {
    rest: &'a [u8],
}

impl<'a> Fields<'a> {
    pub fn of(bytes: &'a [u8]) -> Self {
        Fields { rest: bytes }
    }

    /// The version behind the mark, and the fields behind the version; `None` without the mark.
    pub fn behind(mark: &[u8; 3], bytes: &'a [u8]) -> Option<(u16, Self)> {
        let mut fields = Fields::of(bytes);
        let marked = fields.array::<3>()? == *mark;
        let version = fields.u16()?;
        marked.then_some((version, fields))
    }

    fn array<const WIDTH: usize>(&mut self) -> Option<[u8; WIDTH]> {
        let (field, rest) = self.rest.split_first_chunk::<WIDTH>()?;
        self.rest = rest;
        Some(*field)
    }

    pub fn u8(&mut self) -> Option<u8> {
        self.array().map(u8::from_be_bytes)
    }

    pub fn u16(&mut self) -> Option<u16> {
        self.array().map(u16::from_be_bytes)
    }

    pub fn u24(&mut self) -> Option<u32> {
        self.number(3)
    }

    pub fn u32(&mut self) -> Option<u32> {
        self.array().map(u32::from_be_bytes)
    }

    pub fn u64(&mut self) -> Option<u64> {
        self.array().map(u64::from_be_bytes)
    }

    /// A number of so many bytes, at most 4.
    pub fn number(&mut self, width: usize) -> Option<u32> {
        let bytes = self.part(width)?;
        Some(bytes.iter().fold(0, |number, byte| number << 8 | u32::from(*byte)))
    }

    /// The next bytes as they lie.
    pub fn part(&mut self, length: usize) -> Option<&'a [u8]> {
        let (part, rest) = self.rest.split_at_checked(length)?;
        self.rest = rest;
        Some(part)
    }

    /// What lies behind the fields taken so far.
    pub fn rest(&self) -> &'a [u8] {
        self.rest
    }
}

/// Fields put one behind the other.
#[derive(Default)]
pub(crate) struct Written {
    bytes: Vec<u8>,
}

impl Written {
    pub fn behind(mark: &[u8; 3], version: u16) -> Self {
        Written::default().part(mark).u16(version)
    }

    pub fn part(mut self, bytes: &[u8]) -> Self {
        self.bytes.extend_from_slice(bytes);
        self
    }

    pub fn u8(self, value: u8) -> Self {
        self.part(&[value])
    }

    pub fn u16(self, value: u16) -> Self {
        self.part(&value.to_be_bytes())
    }

    /// The lower 24 bits of the value.
    pub fn u24(self, value: u32) -> Self {
        self.number(3, value)
    }

    pub fn u32(self, value: u32) -> Self {
        self.part(&value.to_be_bytes())
    }

    pub fn u64(self, value: u64) -> Self {
        self.part(&value.to_be_bytes())
    }

    /// The lower bytes of the value, so many of them and at most 4.
    pub fn number(self, width: usize, value: u32) -> Self {
        self.part(&value.to_be_bytes()[4 - width..])
    }

    /// Zero bytes up to the given length of the whole.
    pub fn zeros_to(mut self, length: usize) -> Self {
        self.bytes.resize(length, 0);
        self
    }

    pub fn bytes(self) -> Vec<u8> {
        self.bytes
    }
}

pub(crate) fn all_zero(bytes: &[u8]) -> bool {
    bytes.iter().all(|byte| *byte == 0)
}

/// Each value above the one before it.
pub(crate) fn strictly_ascending<T: PartialOrd>(values: &[T]) -> bool {
    values.windows(2).all(|pair| pair[0] < pair[1])
}

#[cfg(test)]
mod tests {
    use super::*;

    #[test]
    fn fields_come_back_as_written() {
        let bytes =
            Written::behind(b"PWX", 9).u8(1).u16(2).u24(3).u32(4).u64(5).zeros_to(25).bytes();
        let (version, mut fields) = Fields::behind(b"PWX", &bytes).unwrap();
        assert_eq!(version, 9);
        assert_eq!(fields.u8(), Some(1));
        assert_eq!(fields.u16(), Some(2));
        assert_eq!(fields.u24(), Some(3));
        assert_eq!(fields.u32(), Some(4));
        assert_eq!(fields.u64(), Some(5));
        assert_eq!(fields.rest(), [0, 0]);
        assert_eq!(fields.u24(), None);
        assert_eq!(fields.part(3), None);
        assert_eq!(fields.part(2), Some(&[0, 0][..]));
        assert_eq!(fields.part(0), Some(&[][..]));
    }

    #[test]
    fn a_number_has_the_width_that_it_is_given() {
        let bytes = Written::default().number(2, 0x0102_0304).number(4, 0x0506_0708).bytes();
        assert_eq!(bytes, [3, 4, 5, 6, 7, 8]);
        let mut fields = Fields::of(&bytes);
        assert_eq!((fields.number(2), fields.number(4)), (Some(0x0304), Some(0x0506_0708)));
        assert_eq!(fields.number(1), None);
    }

    #[test]
    fn a_mark_and_a_version_are_five_bytes() {
        let version = |bytes: &[u8]| Fields::behind(b"PWX", bytes).map(|(version, _)| version);
        assert_eq!(version(&[0x50, 0x57, 0x58, 0, 1]), Some(1));
        assert_eq!(version(&[0x50, 0x57, 0x58, 1, 2]), Some(258));
        assert_eq!(version(&[0x50, 0x57, 0x58, 0]), None);
        assert_eq!(version(&[0x50, 0x57, 0x59, 0, 1]), None);
    }
}
