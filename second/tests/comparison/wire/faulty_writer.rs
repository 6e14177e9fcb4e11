//! A writer of responses of its own, byte by byte, that can be told to have one fault.

use second::Done;

use super::answers::{CONTENT, COUNT, HEADER, ROW};
use super::broken::Fault;

struct Writer {
    fault: Fault,
    kind: u8,
    rows: Vec<Row>,
}

#[derive(Clone, Copy)]
struct Row {
    cell: u64,
    count: u16,
    content: u32,
}

pub fn write(fault: Fault, answer: &[u8], transaction: u8, message: &mut [u8]) -> Done {
    let writer = Writer::of(fault, answer);
    let is_given = writer.as_ref().is_some_and(Writer::is_given);
    let written = writer.map_or_else(Vec::new, |writer| writer.message(transaction));
    let room = match fault {
        Fault::ExactMessage => written.len() + 1,
        Fault::MessageMissesAByte => written.len().saturating_sub(1),
        Fault::RoomOfAnAnswer => written.len().max(answer.len()),
        _ => written.len(),
    };
    let is_short = message.len() < room || fault == Fault::EightFirst && message.is_empty();
    let length = written.len().min(message.len());
    if !(is_given || is_short && fault == Fault::EightFirst) {
        return Done { number: 17, length: 0 };
    }
    if is_short {
        if fault == Fault::BegunWithoutRoom {
            message[..length].copy_from_slice(&written[..length]);
        }
        let length = if fault == Fault::LengthWithoutRoom { written.len() } else { 0 };
        return Done { number: 8, length };
    }
    message[..length].copy_from_slice(&written[..length]);
    if length < message.len() && fault == Fault::RestIsCleared {
        message[length] = 0;
    }
    Done { number: 0, length }
}

fn number(bytes: &[u8]) -> u64 {
    bytes.iter().fold(0, |number, byte| number << 8 | u64::from(*byte))
}

impl Writer {
    /// `None` of bytes that are no answer of a start or a cancel, by their header and their length.
    fn of(fault: Fault, answer: &[u8]) -> Option<Writer> {
        let (header, rows) = answer.split_at_checked(HEADER)?;
        let version = number(&header[3..5]);
        let kind = match header[5] {
            1 => 1,
            2 => 2,
            3 if fault == Fault::KindOfARestart => 2,
            _ if fault == Fault::AnyKind => 2,
            _ => return None,
        };
        let count = number(&header[10..12]) as usize;
        let most = match fault {
            Fault::MostRows511 => 511,
            Fault::MostRows513 => 513,
            _ => 512,
        };
        let is_right = (header[..3] == *b"PWA" || fault == Fault::AnyMark)
            && (version == 1
                || fault == Fault::AnyVersion
                || fault == Fault::VersionInAByte && version & 255 == 1)
            && (header[6..10] == [0; 4] || fault != Fault::ZeroText)
            && (rows.len() >= ROW * count || fault == Fault::ShorterAnswer)
            && (rows.len() <= ROW * count || fault == Fault::LongerAnswer)
            && (1 - usize::from(fault != Fault::NoRows)..=most).contains(&count);
        let rows = rows.chunks_exact(ROW).take(count).map(|row| Row::of(fault, row)).collect();
        is_right.then_some(Writer { fault, kind, rows })
    }

    fn has(&self, fault: Fault) -> bool {
        self.fault == fault
    }

    fn is_given(&self) -> bool {
        let cells: Vec<u64> = self.rows.iter().map(|row| row.cell).collect();
        let mut pairs = cells.windows(2).map(|pair| (pair[0], pair[1]));
        let ascends = match self.fault {
            Fault::EqualRows => pairs.all(|(one, next)| one <= next),
            Fault::AnyRows => pairs.all(|(one, next)| one != next),
            Fault::FirstRows => pairs.next().is_none_or(|(one, next)| one < next),
            Fault::RowsByParts => pairs.all(|(one, next)| (one as u32) < next as u32),
            _ => pairs.all(|(one, next)| one < next),
        };
        ascends && self.rows.iter().enumerate().all(|(k, row)| self.is_row(k, row))
    }

    fn is_row(&self, k: usize, row: &Row) -> bool {
        let largest = match self.fault {
            Fault::LargeCell => 1 << 60,
            Fault::LargeLastCell if k > 0 => u64::MAX,
            Fault::LargestCell => (1 << 60) - 2,
            _ => (1 << 60) - 1,
        };
        let is_content = match self.fault {
            Fault::AnyContent => true,
            Fault::ContentInTwoBytes => row.content & 0xffff == 0,
            _ => row.content == 0,
        };
        let is_count = match self.kind {
            1 => row.count == 0 || self.has(Fault::AnyCountOfAStart),
            _ => row.count == 0 || !self.has(Fault::CountOfACancel),
        };
        row.cell <= largest && is_content && is_count
    }

    fn message(&self, transaction: u8) -> Vec<u8> {
        let transaction = if self.has(Fault::NoTransactionWritten) { 0 } else { transaction };
        let extension = u8::from(self.has(Fault::SignedTransaction) && transaction > 127) << 7;
        let mark = if self.has(Fault::Ignored) { 0x40 } else { 0 };
        let has_list = !self.rows.is_empty() || self.has(Fault::EmptyList);
        let told = 1 + u8::from(has_list || self.has(Fault::TwoElements));
        let mut value = vec![0, 0, told];
        value.extend(self.field(78, mark, &[extension, transaction]));
        if has_list {
            value.extend(self.field(self.list(), mark, &self.items()));
        }
        let choice = match self.fault {
            Fault::Ngap => 0x20,
            Fault::Initiating => 0,
            _ => 0x40,
        };
        let code = 19 + if self.has(Fault::Codes) { 3 - self.kind } else { self.kind };
        [vec![choice, code, 0], self.lengthened(&value)].concat()
    }

    fn list(&self) -> u8 {
        if (self.kind == 1) == self.has(Fault::Lists) {
            150
        } else {
            146
        }
    }

    fn field(&self, id: u8, mark: u8, contents: &[u8]) -> Vec<u8> {
        [vec![0, id, mark], self.lengthened(contents)].concat()
    }

    fn lengthened(&self, contents: &[u8]) -> Vec<u8> {
        let length = contents.len();
        let is_short = match self.fault {
            Fault::LongLengths => false,
            Fault::LengthsOfAByte => length < 256,
            _ => length < 128,
        };
        let long = 0x8000 | length as u16;
        let head = if is_short { vec![length as u8] } else { long.to_be_bytes().to_vec() };
        [&head[..], contents].concat()
    }

    fn items(&self) -> Vec<u8> {
        let rows = self.rows.len() as u16;
        let count = match self.fault {
            Fault::CountOfRows => rows,
            Fault::RowsOfAByte => rows.wrapping_sub(1) % 256,
            _ => rows.wrapping_sub(1),
        };
        let id = self.list() + u8::from(!self.has(Fault::ItemsAreLists));
        let mark = if self.has(Fault::IgnoredItems) { 0x40 } else { 0 };
        let items = self.rows.iter().flat_map(|row| self.field(id, mark, &self.item(row)));
        count.to_be_bytes().into_iter().chain(items).collect()
    }

    fn item(&self, row: &Row) -> Vec<u8> {
        let mut plmn = ((row.cell >> 36) as u32).to_be_bytes();
        let part = match self.fault {
            Fault::PartAtTheEnd => row.cell & 0xf_ffff_ffff,
            Fault::NarrowPart => (row.cell & 0xffff_ffff) << 4,
            _ => (row.cell & 0xf_ffff_ffff) << 4,
        };
        let mut part = part.to_be_bytes();
        let mut count = row.count.to_be_bytes();
        match self.fault {
            Fault::PlmnBytes => plmn[1..].reverse(),
            Fault::CountBytes => count.reverse(),
            _ => {}
        }
        let is_counted = match self.fault {
            Fault::CountsOfStarts => true,
            Fault::NoCountsOfCancels => false,
            _ => self.kind == 2,
        };
        if is_counted && self.has(Fault::UnalignedCount) {
            part[7] |= count[0] >> 4;
            count = (row.count << 4).to_be_bytes();
        }
        let count = if is_counted { &count[..] } else { &[] };
        [&[0], &plmn[1..], &part[3..], count].concat()
    }
}

impl Row {
    fn of(fault: Fault, row: &[u8]) -> Row {
        let (count, content) = match fault {
            Fault::ContentBefore => (&row[12..], &row[COUNT..12]),
            _ => (&row[COUNT..CONTENT], &row[CONTENT..]),
        };
        let (count, content) = (number(count) as u16, number(content) as u32);
        Row { cell: number(&row[..COUNT]), count, content }
    }
}
