//! Document 02's texts that come in segments: "A long warning has a first SIB message and up to 63
//! more." The first one is a buffer of its own, whole; the additional ones stand in a list.

use std::iter::once;

use crate::fields::{Fields, Written};
use crate::refusal::{lay, Done, Refusal};

/// The additional segments in their order, each a part of the bytes that they were taken from.
struct List<'a> {
    segments: Vec<&'a [u8]>,
}

impl<'a> List<'a> {
    const MOST_SEGMENTS: usize = 63;

    /// The list that is exactly these bytes: refusal 10, then 11.
    fn parse(bytes: &'a [u8]) -> Result<List<'a>, Refusal> {
        let mut fields = Fields::of(bytes);
        let mut segments = Vec::new();
        // To the end, however many there are: "a part segment at its end included".
        while !fields.rest().is_empty() {
            segments.push(take(&mut fields).ok_or(Refusal::ListDamaged)?);
        }
        List::of(segments)
    }

    /// The list of the segments that these lengths cut the bytes into: refusal 10, then 11.
    fn cut(bytes: &'a [u8], lengths: &[u64]) -> Result<List<'a>, Refusal> {
        let mut fields = Fields::of(bytes);
        let segment = |length: &u64| fields.part(u16::try_from(*length).ok()?.into());
        let segments = lengths.iter().map(segment).collect::<Option<Vec<&[u8]>>>();
        let segments = segments.filter(|_| fields.rest().is_empty());
        List::of(segments.ok_or(Refusal::ListDamaged)?)
    }

    fn of(segments: Vec<&'a [u8]>) -> Result<List<'a>, Refusal> {
        if segments.len() > List::MOST_SEGMENTS {
            return Err(Refusal::TooManySegments);
        }
        Ok(List { segments })
    }

    /// "each behind a 2-byte length, back to back"
    fn encode(&self) -> Vec<u8> {
        let behind_length =
            |written: Written, segment: &&[u8]| written.u16(segment.len() as u16).part(segment);
        self.segments.iter().fold(Written::default(), behind_length).bytes()
    }
}

/// A segment behind its length; `None` where the bytes end within one of the two.
fn take<'a>(fields: &mut Fields<'a>) -> Option<&'a [u8]> {
    let length = fields.u16()?;
    fields.part(length.into())
}

/// "Asked for segment k, it hands back the caller's own bytes, from the first buffer for k = 0 and
/// from the second otherwise." Tests 10, 11, 12, whatever k is; the number that "a second call on
/// the same input gives" is the error's.
pub fn segment<'a>(first: &'a [u8], more: &'a [u8], k: usize) -> Result<&'a [u8], Refusal> {
    let list = List::parse(more)?;
    once(first).chain(list.segments).nth(k).ok_or(Refusal::NoSuchSegment)
}

/// "A writer packs a list from segment bytes and their lengths": bytes behind the list stay. Tests
/// 10, 11, 8.
pub fn pack(bytes: &[u8], lengths: &[u64], list: &mut [u8]) -> Done {
    List::cut(bytes, lengths).and_then(|segments| lay(&segments.encode(), list)).into()
}

#[cfg(test)]
mod tests {
    use super::*;

    /// Three additional segments: two bytes, none, one.
    const THREE: &[u8] = b"\x00\x02ab\x00\x00\x00\x01c";

    fn number(more: &[u8], k: usize) -> u32 {
        segment(b"first", more, k).map_or_else(Refusal::number, |_| 0)
    }

    /// What packing into a buffer of `room` bytes gives; a refusal must leave them.
    fn packed(bytes: &[u8], lengths: &[u64], room: usize) -> Result<Vec<u8>, u32> {
        let mut list = vec![0xa5; room];
        let Done { number, length } = pack(bytes, lengths, &mut list);
        assert!(list[length..].iter().all(|byte| *byte == 0xa5), "the rest was written");
        assert!(number == 0 || length == 0, "a refusal has a length");
        list.truncate(length);
        if number == 0 {
            Ok(list)
        } else {
            Err(number)
        }
    }

    #[test]
    fn each_segment_is_the_callers_own_bytes() {
        let first = b"first";
        assert!(std::ptr::eq(segment(first, THREE, 0).unwrap(), &first[..]));
        for (k, place) in [(1, 2..4), (2, 6..6), (3, 8..9)] {
            assert!(std::ptr::eq(segment(first, THREE, k).unwrap(), &THREE[place]), "segment {k}");
        }
        for k in [4, 5, 64, usize::MAX] {
            assert_eq!(segment(first, THREE, k), Err(Refusal::NoSuchSegment));
        }
    }

    #[test]
    fn an_empty_list_has_the_first_segment_alone() {
        assert_eq!(segment(b"first", b"", 0), Ok(&b"first"[..]));
        assert_eq!(segment(b"", b"", 0), Ok(&b""[..]));
        assert_eq!(segment(b"\x00\x09", b"", 0), Ok(&b"\x00\x09"[..]));
        assert_eq!(segment(b"first", b"", 1), Err(Refusal::NoSuchSegment));
    }

    #[test]
    fn a_list_cut_within_a_segment_is_damaged() {
        for length in 0..=THREE.len() {
            let expected = if [0, 4, 6, 9].contains(&length) { 0 } else { 10 };
            assert_eq!(number(&THREE[..length], 0), expected, "cut to {length} bytes");
        }
        assert_eq!(number(b"\xff\xff", 0), 10);
        assert_eq!(number(&[&[0xff; 2][..], &[0; 65_534]].concat(), 1), 10);
        assert_eq!(number(&[&[0xff; 2][..], &[0; 65_535]].concat(), 1), 0);
    }

    #[test]
    fn the_lowest_refusal_is_given_for_every_k() {
        for k in [0, 1, 63, 64, 65, usize::MAX] {
            let beyond = |count: usize| if k > count { 12 } else { 0 };
            assert_eq!(number(&[0; 2 * 62], k), beyond(62));
            assert_eq!(number(&[0; 2 * 63], k), beyond(63));
            assert_eq!(number(&[0; 2 * 64], k), 11);
            assert_eq!(number(&[0; 2 * 64 + 1], k), 10);
            assert_eq!(number(&[&[0; 2 * 64][..], b"\x00\x02a"].concat(), k), 10);
            assert_eq!(number(&[0; 200_000], k), 11);
        }
    }

    #[test]
    fn a_packed_list_reads_back() {
        assert_eq!(packed(b"abc", &[2, 0, 1], 9), Ok(THREE.to_vec()));
        assert_eq!(packed(b"abc", &[2, 0, 1], 30), Ok(THREE.to_vec()));
        assert_eq!(packed(b"", &[], 0), Ok(vec![]));
        assert_eq!(packed(b"", &[0; 63], 126), Ok(vec![0; 126]));
        let longest = packed(&[7; 65_535], &[65_535], 65_537).unwrap();
        assert_eq!(segment(b"", &longest, 1), Ok(&[7; 65_535][..]));
    }

    #[test]
    fn lengths_must_add_up_and_fit() {
        for lengths in [
            &[][..],
            &[2],
            &[2, 2],
            &[4, 0],
            &[u64::MAX, 4],
            &[1 << 63, 1 << 63, 3],
            &[65_536 + 3],
            &[3, 65_536],
            &[(1 << 32) + 3],
        ] {
            assert_eq!(packed(b"abc", lengths, 99), Err(10), "{lengths:?}");
        }
        assert_eq!(packed(&[0; 65_536], &[65_536], 65_538), Err(10));
        assert_eq!(packed(&[0; 65_536], &[65_535], 65_538), Err(10));
    }

    #[test]
    fn the_writer_refuses_10_then_11_then_8() {
        assert_eq!(packed(b"a", &[0; 64], 0), Err(10));
        assert_eq!(packed(b"", &[0; 64], 0), Err(11));
        assert_eq!(packed(b"", &[0; 64], 128), Err(11));
        assert_eq!(packed(b"", &[0; 63], 125), Err(8));
        assert_eq!(packed(b"abc", &[2, 0, 1], 8), Err(8));
        assert_eq!(packed(b"abc", &[2, 0], 0), Err(10));
    }
}
