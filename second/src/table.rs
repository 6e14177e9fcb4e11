//! The table, and building an empty one from cell heads.

use std::ops::RangeInclusive;

use crate::cell::{Cell, CellIdentity, Head};
use crate::fields::{strictly_ascending, Fields, Written};
use crate::layout::Layout;
use crate::refusal::{lay, Done, Refusal};

const MARK: &[u8; 3] = b"PWT";

#[derive(Clone, Debug, PartialEq, Eq)]
pub struct Table {
    pub cells: Vec<Cell>,
}

impl Table {
    pub const HEADER: usize = 16;
    pub const CELLS: RangeInclusive<usize> = 1..=512;

    pub fn parse(bytes: &[u8]) -> Result<Table, Refusal> {
        Table::parse_in(&Layout::CURRENT, bytes)
    }

    /// A table of this layout's version.
    pub fn parse_in(layout: &Layout, bytes: &[u8]) -> Result<Table, Refusal> {
        match Fields::behind(MARK, bytes) {
            Some((version, fields)) if version == layout.version => {
                Table::behind_mark(layout, fields).ok_or(Refusal::Table)
            }
            _ => Err(Refusal::TableMark),
        }
    }

    fn behind_mark(layout: &Layout, mut fields: Fields) -> Option<Table> {
        let count = usize::from(fields.u16()?);
        let places = usize::from(fields.u8()?);
        let zero = fields.u64()?;
        let cells = fields.rest();
        let framed = Table::CELLS.contains(&count)
            && places == Cell::PLACES
            && zero == 0
            && cells.len() == count * layout.cell();
        if !framed {
            return None;
        }
        let cells = cells.chunks(layout.cell()).map(|part| Cell::parse(layout, part));
        let cells = cells.collect::<Option<Vec<Cell>>>()?;
        strictly_ascending(&identities(cells.iter().map(|cell| &cell.head)))
            .then_some(Table { cells })
    }

    pub fn encode(&self) -> Vec<u8> {
        self.encode_in(&Layout::CURRENT)
    }

    pub fn encode_in(&self, layout: &Layout) -> Vec<u8> {
        let written = Written::behind(MARK, layout.version)
            .u16(self.cells.len() as u16)
            .u8(Cell::PLACES as u8)
            .zeros_to(Table::HEADER);
        self.cells.iter().fold(written, |written, cell| written.part(&cell.encode(layout))).bytes()
    }

    /// Each cell's own part of a table's bytes.
    pub(crate) fn parts_mut<'a>(
        layout: &Layout,
        bytes: &'a mut [u8],
    ) -> impl Iterator<Item = &'a mut [u8]> {
        bytes[Table::HEADER..].chunks_mut(layout.cell())
    }
}

fn identities<'a>(heads: impl Iterator<Item = &'a Head>) -> Vec<CellIdentity> {
    heads.map(|head| head.identity).collect()
}

/// The heads that back to back make these bytes.
fn parse_heads(bytes: &[u8]) -> Option<Vec<Head>> {
    let count = bytes.len() / Head::LENGTH;
    if bytes.len() != count * Head::LENGTH || !Table::CELLS.contains(&count) {
        return None;
    }
    let heads = bytes.chunks(Head::LENGTH).map(Head::parse).collect::<Option<Vec<Head>>>()?;
    strictly_ascending(&identities(heads.iter())).then_some(heads)
}

/// "Building: from cell heads back to back, N x 24 bytes, an empty table is written at the start
/// of a buffer; bytes beyond it stay." Tests 9, then 8.
pub fn build(heads: &[u8], table: &mut [u8]) -> Done {
    parse_heads(heads)
        .ok_or(Refusal::Heads)
        .map(|heads| Table { cells: heads.into_iter().map(Cell::empty).collect() })
        .and_then(|empty| lay(&empty.encode(), table))
        .into()
}

#[cfg(test)]
mod tests {
    use super::*;

    fn heads(count: u64) -> Vec<u8> {
        let identity = |part| CellIdentity::from_number(part).unwrap();
        (0..count)
            .flat_map(|part| Head { identity: identity(part), code: 1, areas: vec![] }.encode())
            .collect()
    }

    #[test]
    fn bytes_beyond_a_built_table_stay() {
        let mut table = vec![0xa5; 16 + 120 * 2 + 3];
        assert_eq!(build(&heads(2), &mut table), Done { number: 0, length: 256 });
        assert_eq!(table[..16], *b"PWT\x00\x02\x00\x02\x04\x00\x00\x00\x00\x00\x00\x00\x00");
        assert_eq!(table[256..], [0xa5; 3]);
        let parsed = Table::parse(&table[..256]).unwrap();
        assert_eq!(parsed.encode(), table[..256]);
    }

    #[test]
    fn heads_are_refused_before_room() {
        let refused = |heads: &[u8], room: usize| {
            let mut table = vec![0xa5; room];
            let done = build(heads, &mut table);
            assert!(done.number == 0 || table.iter().all(|byte| *byte == 0xa5));
            done.number
        };
        assert_eq!(refused(&heads(1), 136), 0);
        assert_eq!(refused(&heads(1), 135), 8);
        assert_eq!(refused(&heads(512), 16 + 120 * 512), 0);
        assert_eq!(refused(&heads(513), 16 + 120 * 513), 9);
        assert_eq!(refused(&[], 0), 9);
        assert_eq!(refused(&heads(1)[..23], 0), 9);
        let twice = [heads(1), heads(1)].concat();
        assert_eq!(refused(&twice, 256), 9);
    }

    #[test]
    fn a_header_is_sixteen_bytes_that_all_count() {
        let heads = parse_heads(&heads(1)).unwrap();
        let empty = Table { cells: heads.into_iter().map(Cell::empty).collect() };
        for layout in [Layout::VERSION_1, Layout::VERSION_2] {
            let number =
                |bytes: &[u8]| Table::parse_in(&layout, bytes).map_or_else(Refusal::number, |_| 0);
            let table = empty.encode_in(&layout);
            assert_eq!(number(&table), 0);
            for offset in 0..Table::HEADER {
                // 3 makes each version the other one.
                for change in [1, 3] {
                    let mut wrong = table.clone();
                    wrong[offset] ^= change;
                    assert_eq!(number(&wrong), if offset < 5 { 1 } else { 2 }, "byte {offset}");
                }
            }
            assert_eq!(number(&table[..4]), 1);
            assert_eq!(number(&table[..5]), 2);
            assert_eq!(number(&table[..table.len() - 1]), 2);
            assert_eq!(number(&[&table[..], &[0]].concat()), 2);
        }
    }
}
