//! What the reader with a fault writes: a record or an answer.

use second::request::{CANCEL_ALL, IN_CELLS, NOTIFICATION};
use second::{write, Broadcasts, Message, Record};

use super::answers::{bytes_of, Told};
use super::broken::Fault;
use super::families::{CANCELS, RESPONSES};
use super::faulty::{read, Found, Reader};

pub fn read_cancel(fault: Fault, message: &[u8], record: &mut [u8]) -> Message {
    let (mut reader, refused) = read(fault, CANCELS.forms, message);
    let (number, written) = match refused {
        0 => reader.record(),
        _ => (refused, Vec::new()),
    };
    reader.laid(number, &written, record)
}

pub fn read_response(fault: Fault, message: &[u8], answer: &mut [u8]) -> Message {
    let (mut reader, refused) = read(fault, RESPONSES.forms, message);
    let descends = !reader.ascends();
    let (number, written) = match refused {
        16 if descends && reader.has(Fault::SeventeenBeforeSixteen) => (17, Vec::new()),
        0 if descends => (17, reader.answer()),
        0 => (0, reader.answer()),
        _ => (refused, Vec::new()),
    };
    reader.laid(number, &written, answer)
}

impl Reader {
    /// Lays what is written, unless the message is refused already.
    fn laid(&self, refused: u32, written: &[u8], buffer: &mut [u8]) -> Message {
        let room = match self.fault {
            Fault::ExactHasNoRoom => written.len() + 1,
            Fault::MissesAByte => written.len() - usize::from(!written.is_empty()),
            _ => written.len(),
        };
        let is_short = buffer.len() < room;
        let number = match self.fault {
            Fault::EightBeforeThirteen if refused == 13 && buffer.is_empty() => 8,
            Fault::EightBeforeSeven if refused == 7 && is_short => 8,
            Fault::EightBeforeSeventeen if refused == 17 && is_short => 8,
            _ if refused == 0 && is_short => 8,
            _ => refused,
        };
        let length = written.len().min(buffer.len());
        if number == 0 {
            buffer[..length].copy_from_slice(&written[..length]);
            let behind = buffer.get_mut(length).filter(|_| self.has(Fault::ClearsTheRest));
            behind.into_iter().for_each(|byte| *byte = 0);
        } else if self.has(Fault::RefusalClears) {
            buffer.fill(0);
        }
        let is_told = number == 0 || self.has(Fault::RefusalHasTransaction);
        let has_length = number == 0 || number == 8 && self.has(Fault::RefusalHasLength);
        Message {
            number,
            transaction: if is_told { self.found.transaction } else { 0 },
            length: if has_length { length } else { 0 },
        }
    }

    /// 0 or 7, and the record, which is there in either case.
    fn record(&mut self) -> (u32, Vec<u8>) {
        self.spoil_cells();
        let Found { request, cells, .. } = &mut self.found;
        match self.fault {
            Fault::ZeroRequested => request.requested = Broadcasts(0),
            Fault::SwappedRequested => request.requested.0 = request.requested.0.swap_bytes(),
            Fault::AllDropsText if request.flags == CANCEL_ALL | NOTIFICATION => {
                request.flags = CANCEL_ALL;
                (request.identifier, request.serial) = (0, 0);
            }
            _ => {}
        }
        let cells: Vec<u64> = cells.iter().map(|(cell, _)| *cell).collect();
        let mut record = vec![0; Record::HEADER + Record::ITEM * cells.len()];
        let number = write(*request, &cells, &mut record).number;
        match self.fault {
            Fault::OldVersion => record[4] = 1,
            Fault::AnyList => record[7] = IN_CELLS,
            _ => {}
        }
        (number, record)
    }

    fn spoil_cells(&mut self) {
        let cells = &mut self.found.cells;
        match self.fault {
            Fault::SortedCells => cells.sort_unstable(),
            Fault::RepeatedCells => cells.dedup_by_key(|(cell, _)| *cell),
            _ => {}
        }
    }

    fn ascends(&mut self) -> bool {
        self.spoil_cells();
        let fault = self.fault;
        let mut pairs = self.found.cells.windows(2).map(|pair| (pair[0].0, pair[1].0));
        match fault {
            Fault::EqualCells => pairs.all(|(one, next)| one <= next),
            Fault::AnyCells => pairs.all(|(one, next)| one != next),
            Fault::FirstPair => pairs.next().is_none_or(|(one, next)| one < next),
            Fault::LastPair => pairs.next_back().is_none_or(|(one, next)| one < next),
            Fault::OrderOfParts => pairs.all(|(one, next)| one << 28 < next << 28),
            Fault::OrderOfPlmns => pairs.all(|(one, next)| one >> 36 <= next >> 36),
            _ => pairs.all(|(one, next)| one < next),
        }
    }

    fn answer(&self) -> Vec<u8> {
        let Found { transaction, cells, .. } = &self.found;
        let is_start = self.form.code == 20;
        let kind = match self.fault {
            Fault::KindOfAList if cells.is_empty() => 1,
            Fault::KindOfACancel => 2,
            Fault::CodeIsTheKind => self.form.code as u8,
            _ if is_start => 1,
            _ => 2,
        };
        let count = |count: u16| match self.fault {
            Fault::NoCounts => 0,
            Fault::SwappedCounts => count.swap_bytes(),
            Fault::CountOfAStart if is_start => 1,
            _ => count,
        };
        let rows = cells.iter().map(|(cell, told)| (*cell, count(*told))).collect();
        let mut bytes = bytes_of(&Told { rows, ..Told::bare(kind) });
        match self.fault {
            Fault::AnswerHasText => bytes[7] = *transaction as u8,
            Fault::RowsInAByte => bytes[10] = 0,
            Fault::LaterAnswer => bytes[4] = 2,
            Fault::ContentFirst => {
                bytes[12..].chunks_mut(14).for_each(|row| row[8..].rotate_left(2));
            }
            _ => {}
        }
        bytes
    }
}
