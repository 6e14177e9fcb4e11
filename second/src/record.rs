//! The request record: reading it, writing it, and its items.

use crate::fields::{Fields, Written};
use crate::layout::Layout;
use crate::place::{Broadcasts, Seconds};
use crate::refusal::{lay, Done, Refusal};
use crate::request::Request;

const MARK: &[u8; 3] = b"PWR";

#[derive(Clone, Debug, PartialEq, Eq)]
pub struct Record {
    pub request: Request,
    pub items: Vec<u64>,
}

impl Record {
    /// The bytes in front of the items.
    pub const HEADER: usize = 26;
    pub const ITEM: usize = 8;
    pub const MOST_ITEMS: usize = 512;

    /// Refusals 3 to 7, the lowest that applies.
    pub fn parse(bytes: &[u8]) -> Result<Record, Refusal> {
        Record::parse_in(&Layout::CURRENT, bytes)
    }

    /// A record of this layout's version or an older one, each with its own largest period.
    pub fn parse_in(layout: &Layout, bytes: &[u8]) -> Result<Record, Refusal> {
        let (version, fields) = Fields::behind(MARK, bytes).ok_or(Refusal::RecordMark)?;
        let own = Layout::of_version(version)
            .filter(|own| own.version <= layout.version)
            .ok_or(Refusal::RecordMark)?;
        let (header, behind) = Header::take(fields).ok_or(Refusal::RecordMark)?;
        if header.count > Record::MOST_ITEMS || behind.len() != Record::ITEM * header.count {
            return Err(Refusal::RecordLength);
        }
        let items: Vec<u64> = (0..header.count).map(|k| item(bytes, k)).collect();
        if header.zero != 0 {
            return Err(Refusal::RecordField);
        }
        header.request.judge(&own, &items)?;
        Ok(Record { request: header.request, items })
    }

    pub fn encode(&self) -> Vec<u8> {
        self.encode_in(&Layout::CURRENT)
    }

    pub fn encode_in(&self, layout: &Layout) -> Vec<u8> {
        let request = &self.request;
        let written = Written::behind(MARK, layout.version)
            .u8(request.kind)
            .u8(request.flags)
            .u8(request.area)
            .u16(request.identifier)
            .u16(request.serial)
            .u32(request.content)
            .u32(request.period.0)
            .u16(request.requested.0)
            .u8(request.sib)
            .u8(0)
            .u16(self.items.len() as u16);
        self.items.iter().fold(written, |written, item| written.u64(*item)).bytes()
    }

    /// The length that a record's own n gives it; `None` where its first 26 bytes are not all
    /// there.
    pub fn framed_length(bytes: &[u8]) -> Option<usize> {
        let mut count = Fields::of(bytes.get(Record::HEADER - 2..)?);
        Some(Record::HEADER + Record::ITEM * usize::from(count.u16()?))
    }
}

struct Header {
    request: Request,
    zero: u8,
    count: usize,
}

impl Header {
    /// The header behind the mark, and the bytes behind the header.
    fn take(mut fields: Fields<'_>) -> Option<(Header, &[u8])> {
        let request = Request {
            kind: fields.u8()?,
            flags: fields.u8()?,
            area: fields.u8()?,
            identifier: fields.u16()?,
            serial: fields.u16()?,
            content: fields.u32()?,
            period: Seconds(fields.u32()?),
            requested: Broadcasts(fields.u16()?),
            sib: fields.u8()?,
        };
        let header = Header { request, zero: fields.u8()?, count: fields.u16()?.into() };
        Some((header, fields.rest()))
    }
}

/// What the reader hands back: the fields and the count of items, all 0 if refused.
#[derive(Clone, Copy, Debug, Default, PartialEq, Eq)]
pub struct Reading {
    pub number: u32,
    pub request: Request,
    pub items: usize,
}

pub fn read(record: &[u8]) -> Reading {
    match Record::parse(record) {
        Ok(Record { request, items }) => Reading { number: 0, request, items: items.len() },
        Err(refusal) => Reading { number: refusal.number(), ..Reading::default() },
    }
}

/// Tests 4 (n only), 5, 6, 7, 8.
pub fn write(request: Request, items: &[u64], record: &mut [u8]) -> Done {
    written(request, items, record).into()
}

/// The length of the record that is written.
pub(crate) fn written(
    request: Request,
    items: &[u64],
    record: &mut [u8],
) -> Result<usize, Refusal> {
    if items.len() > Record::MOST_ITEMS {
        return Err(Refusal::RecordLength);
    }
    request.judge(&Layout::CURRENT, items)?;
    lay(&Record { request, items: items.to_vec() }.encode(), record)
}

/// The k-th item of any bytes, counted from 0; 0 where they end before the item does.
pub fn item(record: &[u8], k: usize) -> u64 {
    k.checked_mul(Record::ITEM)
        .and_then(|offset| offset.checked_add(Record::HEADER))
        .and_then(|start| record.get(start..))
        .and_then(|behind| Fields::of(behind).u64())
        .unwrap_or(0)
}

#[cfg(test)]
mod tests {
    use super::*;
    use crate::request::*;

    fn start(area: u8) -> Request {
        let (period, requested) = (Seconds(2), Broadcasts(3));
        let (identifier, serial, content) = (4370, 16, 7);
        Request {
            kind: WRITE_REPLACE,
            flags: 0,
            area,
            identifier,
            serial,
            content,
            period,
            requested,
            sib: 8,
        }
    }

    fn number(request: Request, items: &[u64]) -> u32 {
        let mut record = vec![0; Record::HEADER + Record::ITEM * items.len()];
        let number = write(request, items, &mut record).number;
        let read = read(&Record { request, items: items.to_vec() }.encode()).number;
        assert_eq!(number, read, "the reader and the writer differ on {request:?}");
        number
    }

    #[test]
    fn a_written_record_reads_back() {
        let mut record = [0xa5; 45];
        assert_eq!(write(start(IN_CELLS), &[7, 9], &mut record), Done { number: 0, length: 42 });
        assert_eq!(read(&record[..42]), Reading { number: 0, request: start(IN_CELLS), items: 2 });
        assert_eq!((item(&record, 0), item(&record, 1), item(&record, 2)), (7, 9, 0));
        assert_eq!(record[42..], [0xa5; 3]);
    }

    #[test]
    fn an_item_is_judged_by_its_area_at_and_above_its_largest() {
        for (area, largest) in [(1, (1 << 60) - 1), (2, (1 << 48) - 1), (3, (1 << 24) - 1)] {
            assert_eq!(number(start(area), &[0, largest]), 0);
            assert_eq!(number(start(area), &[0, largest + 1]), 6);
        }
    }

    #[test]
    fn an_area_stands_exactly_with_items() {
        assert_eq!(number(start(NO_AREA), &[]), 0);
        assert_eq!(number(start(NO_AREA), &[1]), 5);
        assert_eq!(number(start(IN_CELLS), &[]), 5);
        assert_eq!(number(start(4), &[]), 5);
        assert_eq!(number(start(4), &[1]), 5);
    }

    #[test]
    fn a_kind_has_its_flags_and_areas() {
        let bare = |kind, flags, area| Request { kind, flags, area, ..Request::default() };
        for kind in [0, 6, 255] {
            assert_eq!(number(bare(kind, 0, 0), &[]), 5);
        }
        for kind in [RESTART, FAILURE, SECOND] {
            assert_eq!(number(bare(kind, 0, 0), &[]), 0);
            assert_eq!(number(bare(kind, 1, 0), &[]), 5);
            assert_eq!(number(bare(kind, 0, IN_CELLS), &[1]), if kind == SECOND { 5 } else { 0 });
            assert_eq!(number(bare(kind, 0, IN_TRACKING_AREAS), &[1]), 5);
        }
        for flags in 0..=255 {
            let expected = match flags {
                0 => 7,
                2 | 4 | 6 => 0,
                _ => 5,
            };
            assert_eq!(number(bare(CANCEL, flags, 0), &[]), expected, "flags {flags}");
        }
    }

    #[test]
    fn the_lowest_refusal_of_a_cancel_is_given() {
        let nothing = Request { kind: CANCEL, requested: Broadcasts(9), ..Request::default() };
        assert_eq!(number(nothing, &[]), 7);
        assert_eq!(number(Request { identifier: 1, ..nothing }, &[]), 5);
        assert_eq!(number(Request { serial: 1, flags: CANCEL_ALL, ..nothing }, &[]), 5);
        assert_eq!(
            number(Request { serial: 1, flags: CANCEL_ALL | NOTIFICATION, ..nothing }, &[]),
            0
        );
        assert_eq!(number(Request { area: IN_CELLS, ..nothing }, &[1 << 60]), 6);
    }

    #[test]
    fn a_record_is_framed_by_its_own_n() {
        let whole = Record { request: start(IN_CELLS), items: vec![1, 2] }.encode();
        assert_eq!(Record::framed_length(&whole), Some(42));
        assert_eq!(Record::framed_length(&whole[..26]), Some(42));
        assert_eq!(Record::framed_length(&whole[..25]), None);
        assert_eq!(read(&whole[..25]).number, 3);
        assert_eq!(read(&whole[..41]).number, 4);
        assert_eq!(read(&[&whole[..], &[0]].concat()).number, 4);
    }

    #[test]
    fn an_item_is_taken_from_any_bytes() {
        assert_eq!(item(&[], 0), 0);
        assert_eq!(item(&[1; 33], 0), 0);
        assert_eq!(item(&[1; 34], 0), 0x0101_0101_0101_0101);
        assert_eq!(item(&[1; 34], usize::MAX), 0);
        assert_eq!(item(&[1; 34], usize::MAX / 8), 0);
    }
}
