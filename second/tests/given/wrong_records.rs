//! Records that break one rule each, by name, with the refusal that the documents give them.

use second::request::*;
use second::{CellIdentity, Head, Layout, Record, Seconds, SIB_KINDS};

use super::random::Random;
use super::records::{areas_of, encoded, in_area, of_kind, KINDS};

/// Not those that there are, whole or in one of their bytes.
const VERSIONS: [u16; 8] = [0, 3, 255, 0x0100, 0x0101, 0x0102, 0x0200, 0xff02];
/// Too large in each version, and some of them small in their lower bits.
const PERIODS: [u32; 7] = [131_072, 131_074, 262_143, 1 << 24, (1 << 24) + 2, 1 << 31, u32::MAX];
/// Too large in version 1 alone.
const LONG_PERIODS: [u32; 6] = [4096, 4097, 65_535, 65_536, 65_538, 131_071];

/// A breakage on otherwise valid input.
pub struct Wrong {
    pub name: String,
    pub number: u32,
    pub bytes: Vec<u8>,
}

/// Makes records on the heads of a table and collects their breakages.
pub struct WrongRecords<'a> {
    random: &'a mut Random,
    heads: &'a [Head],
    wrongs: Vec<Wrong>,
}

impl WrongRecords<'_> {
    pub fn all(random: &mut Random, heads: &[Head]) -> Vec<Wrong> {
        let mut records = WrongRecords { random, heads, wrongs: Vec::new() };
        records.break_marks();
        records.break_lengths();
        records.break_kinds_and_flags();
        records.break_areas();
        records.break_zero_fields();
        records.break_starts();
        records.break_items();
        records.break_cancels();
        records.wrongs
    }

    fn push(&mut self, name: String, number: u32, bytes: Vec<u8>) {
        self.wrongs.push(Wrong { name, number, bytes });
    }

    fn any(&mut self) -> Record {
        let kind = self.random.pick(&KINDS);
        of_kind(self.random, self.heads, kind)
    }

    /// A valid record of a kind with the given bytes laid over it.
    fn push_over(
        &mut self,
        name: String,
        number: u32,
        record: &Record,
        offset: usize,
        over: &[u8],
    ) {
        let mut bytes = encoded(self.random, record);
        bytes[offset..offset + over.len()].copy_from_slice(over);
        self.push(name, number, bytes);
    }

    fn break_marks(&mut self) {
        for offset in 0..3 {
            let record = self.any();
            let other = self.random.other(record.encode()[offset]);
            self.push_over(format!("byte {offset} of the mark"), 3, &record, offset, &[other]);
        }
        for version in VERSIONS {
            let record = self.any();
            self.push_over(format!("version {version}"), 3, &record, 3, &version.to_be_bytes());
        }
        for length in [0, 1, 4, 5, 24, 25] {
            let record = self.any();
            let bytes = encoded(self.random, &record)[..length].to_vec();
            self.push(format!("cut to {length} bytes"), 3, bytes);
        }
    }

    fn break_lengths(&mut self) {
        for kind in KINDS {
            let record = of_kind(self.random, self.heads, kind);
            let (whole, n) = (record.encode(), record.items.len() as u16);
            self.push_over(
                format!("kind {kind}, n one more"),
                4,
                &record,
                24,
                &(n + 1).to_be_bytes(),
            );
            self.push_over(format!("kind {kind}, n 65535"), 4, &record, 24, &[255, 255]);
            let longer = [&whole[..], &[0]].concat();
            self.push(format!("kind {kind}, one byte longer"), 4, longer);
            let item_longer = [&whole[..], &[0; 8]].concat();
            self.push(format!("kind {kind}, one item longer"), 4, item_longer);
        }
        for kind in [WRITE_REPLACE, CANCEL, RESTART, FAILURE] {
            let record = in_area(self.random, self.heads, kind, IN_CELLS);
            let (whole, n) = (record.encode(), record.items.len() as u16);
            self.push_over(
                format!("kind {kind}, n one less"),
                4,
                &record,
                24,
                &(n - 1).to_be_bytes(),
            );
            self.push(
                format!("kind {kind}, one byte shorter"),
                4,
                whole[..whole.len() - 1].to_vec(),
            );
            self.push(format!("kind {kind}, cut behind 26"), 4, whole[..Record::HEADER].to_vec());
            let items = vec![record.items[0]; Record::MOST_ITEMS + 1];
            self.push(format!("kind {kind}, 513 items"), 4, Record { items, ..record }.encode());
        }
    }

    fn break_kinds_and_flags(&mut self) {
        for kind in [0, 6, 7, 255] {
            let record = self.any();
            self.push_over(format!("kind {kind}"), 5, &record, 5, &[kind]);
        }
        for kind in KINDS {
            let allowed = match kind {
                WRITE_REPLACE => CONCURRENT,
                CANCEL => CANCEL_ALL | NOTIFICATION,
                _ => 0,
            };
            for flag in (0..8).map(|bit| 1 << bit).filter(|flag| flag & allowed == 0) {
                let record = of_kind(self.random, self.heads, kind);
                let flags = record.request.flags | flag;
                self.push_over(format!("kind {kind}, flag {flag}"), 5, &record, 6, &[flags]);
            }
        }
    }

    fn break_areas(&mut self) {
        for kind in KINDS {
            let bare = in_area(self.random, self.heads, kind, NO_AREA);
            for area in [IN_CELLS, IN_TRACKING_AREAS, IN_EMERGENCY_AREAS, 4, 255] {
                let name = format!("kind {kind}, area {area} without items");
                self.push_over(name, 5, &bare, 7, &[area]);
            }
            for area in
                (0..=4).chain([255]).filter(|area| *area == 0 || !areas_of(kind).contains(area))
            {
                let mut record = in_area(self.random, self.heads, kind, NO_AREA);
                record.request.area = area;
                record.items = vec![self.random.pick(&[0, 1, 5])];
                self.push(format!("kind {kind}, area {area} with an item"), 5, record.encode());
            }
        }
    }

    /// Each byte of each field that is zero for its kind, among them the record's own zero byte.
    fn break_zero_fields(&mut self) {
        let all: Vec<usize> = (8..24).collect();
        let [start, cancel] = [&[23][..], &[12, 13, 14, 15, 16, 17, 18, 19, 22, 23]];
        let cancel_all = [&[8, 9, 10, 11], cancel].concat();
        for (kind, flags, zeros) in [
            (WRITE_REPLACE, None, start),
            (CANCEL, Some(NOTIFICATION), cancel),
            (CANCEL, Some(CANCEL_ALL | NOTIFICATION), cancel),
            (CANCEL, Some(CANCEL_ALL), &cancel_all),
            (CANCEL, Some(0), &cancel_all),
            (RESTART, None, &all),
            (FAILURE, None, &all),
            (SECOND, None, &all),
        ] {
            for offset in zeros {
                let mut record = of_kind(self.random, self.heads, kind);
                record.request.flags = flags.unwrap_or(record.request.flags);
                if flags.is_some_and(|flags| flags & NOTIFICATION == 0) {
                    (record.request.identifier, record.request.serial) = (0, 0);
                }
                let name = format!("kind {kind}, flags {flags:?}, byte {offset} not zero");
                let other = self.random.other(0);
                self.push_over(name, 5, &record, *offset, &[other]);
            }
        }
    }

    fn break_starts(&mut self) {
        let old_alone = LONG_PERIODS.map(|period| (Layout::VERSION_1, period));
        let each = PERIODS.into_iter().flat_map(|period| {
            [Layout::VERSION_1, Layout::VERSION_2].map(|layout| (layout, period))
        });
        for (layout, period) in old_alone.into_iter().chain(each) {
            for sib in SIB_KINDS {
                let mut record = of_kind(self.random, self.heads, WRITE_REPLACE);
                (record.request.period, record.request.sib) = (Seconds(period), sib);
                let name = format!("version {}, period {period}, SIB kind {sib}", layout.version);
                self.push(name, 6, record.encode_in(&layout));
            }
        }
        for sib in [0, 1, 5, 9, 255] {
            let mut record = of_kind(self.random, self.heads, WRITE_REPLACE);
            record.request.sib = sib;
            self.push(format!("SIB kind {sib}"), 6, record.encode());
        }
    }

    fn break_items(&mut self) {
        for kind in [WRITE_REPLACE, CANCEL, RESTART, FAILURE] {
            for area in areas_of(kind).iter().filter(|area| **area != NO_AREA) {
                let limit = limit(*area);
                for item in [limit, limit + 1, limit << 1, 1 << 63, u64::MAX] {
                    let mut record = in_area(self.random, self.heads, kind, *area);
                    let last = record.items.len() - 1;
                    let place = self.random.below(record.items.len());
                    let k = self.random.pick(&[0, last, place]);
                    record.items[k] = item;
                    let name = format!("kind {kind}, area {area}, item {item:x}");
                    self.push(name, 6, record.encode());
                }
            }
        }
    }

    fn break_cancels(&mut self) {
        for area in [NO_AREA, IN_CELLS, IN_TRACKING_AREAS, IN_EMERGENCY_AREAS] {
            let mut record = in_area(self.random, self.heads, CANCEL, area);
            (record.request.flags, record.request.identifier, record.request.serial) = (0, 0, 0);
            self.push(format!("cancel of nothing, area {area}"), 7, record.encode());
            if area != NO_AREA {
                record.items[0] = limit(area);
                self.push(
                    format!("cancel of nothing, area {area}, item too large"),
                    6,
                    record.encode(),
                );
            }
        }
    }
}

/// The least item that is too large.
fn limit(area: u8) -> u64 {
    match area {
        IN_CELLS => CellIdentity::LARGEST + 1,
        IN_TRACKING_AREAS => 1 << 48,
        _ => 1 << 24,
    }
}
