//! A part of lent buffers: where it lies, and its bytes.

/// As C has it.
#[repr(C)]
#[derive(Clone, Copy, Debug, Default, PartialEq, Eq)]
pub struct Part {
    /// 0, or the refusal's number and everything else 0.
    pub number: u32,
    /// 0 for the first SIB message, 1 for the list of the additional ones.
    pub buffer: u32,
    pub start: usize,
    pub length: usize,
}

impl Part {
    pub fn refused(number: u32) -> Part {
        Part { number, ..Part::default() }
    }

    /// The bytes at the place that is told; none where it is outside of its buffer.
    pub fn bytes<'a>(&self, first: &'a [u8], more: &'a [u8]) -> &'a [u8] {
        let behind = [first, more].get(self.buffer as usize).and_then(|it| it.get(self.start..));
        behind.and_then(|behind| behind.get(..self.length)).unwrap_or_default()
    }
}

/// The second implementation's segment, of copies with a byte between them: so the end of the one
/// is not the start of the other.
pub fn segment(first: &[u8], more: &[u8], k: usize) -> Part {
    let lent = [first, &[0], more].concat();
    segment_of_lent(&lent[..first.len()], &lent[first.len() + 1..], k)
}

/// The second implementation's segment. Its address alone tells where it lies, so that neither a
/// copy nor the same bytes at another place pass for "the caller's own bytes".
pub fn segment_of_lent(first: &[u8], more: &[u8], k: usize) -> Part {
    let part = match second::segment(first, more, k) {
        Ok(part) => part,
        Err(refusal) => return Part::refused(refusal.number()),
    };
    let (buffer, start) = match (offset(part, first), offset(part, more)) {
        (Some(start), _) => (0, start),
        (None, Some(start)) => (1, start),
        (None, None) => panic!("the part lies in neither buffer"),
    };
    Part { number: 0, buffer, start, length: part.len() }
}

/// Where the part begins in the buffer, if it lies there.
fn offset(part: &[u8], buffer: &[u8]) -> Option<usize> {
    let offset = part.as_ptr().addr().checked_sub(buffer.as_ptr().addr())?;
    (offset + part.len() <= buffer.len()).then_some(offset)
}
