//! Tables and heads that break one rule each, by name, with the refusal that the documents give.

use second::{Cell, Head, Layout, Table};

use super::tables::table_in;
use super::wrong_places::{full, spoils};
use crate::given::heads::heads;
use crate::given::random::Random;
use crate::given::wrong_records::Wrong;

/// Collects breakages of a legal table of a few cells, or of its heads.
pub struct WrongTables<'a> {
    layout: Layout,
    random: &'a mut Random,
    wrongs: Vec<Wrong>,
}

impl WrongTables<'_> {
    /// Tables that a unit of this layout's version, or a converter from it, refuses.
    pub fn all(layout: Layout, random: &mut Random) -> Vec<Wrong> {
        let mut tables = WrongTables { layout, random, wrongs: Vec::new() };
        tables.break_versions();
        tables.break_header();
        tables.break_lengths();
        tables.break_heads();
        tables.break_live_places();
        tables.break_other_places();
        tables.wrongs
    }

    /// Heads back to back that break one rule each.
    pub fn all_heads(random: &mut Random) -> Vec<Wrong> {
        let mut tables = WrongTables { layout: Layout::CURRENT, random, wrongs: Vec::new() };
        tables.break_heads();
        for wrong in &mut tables.wrongs {
            let parts = wrong.bytes[Table::HEADER..].chunks(Cell::LENGTH);
            wrong.bytes = parts.flat_map(|part| part[..Head::LENGTH].to_vec()).collect();
        }
        for count in [0, 513, 514, 1024] {
            let heads = heads(tables.random, count);
            tables.push(format!("{count} heads"), heads.iter().flat_map(Head::encode).collect());
        }
        for count in [1, 2, 512] {
            let whole: Vec<u8> =
                heads(tables.random, count).iter().flat_map(Head::encode).collect();
            tables.push(format!("{count} heads, a byte less"), whole[1..].to_vec());
            tables.push(format!("{count} heads, a byte more"), [&whole[..], &[0]].concat());
        }
        tables.wrongs.iter_mut().for_each(|wrong| wrong.number = 9);
        tables.wrongs
    }

    fn push(&mut self, name: String, bytes: Vec<u8>) {
        self.wrongs.push(Wrong { name, number: 2, bytes });
    }

    /// A legal table of 2 to 6 cells, and one of its cells but the last.
    fn legal(&mut self) -> (Table, usize) {
        let count = 2 + self.random.below(5);
        let heads = heads(self.random, count);
        (table_in(&self.layout, self.random, &heads), self.random.below(count - 1))
    }

    fn legal_bytes(&mut self) -> Vec<u8> {
        self.legal().0.encode_in(&self.layout)
    }

    /// The other version's.
    fn other(&self) -> Layout {
        match self.layout {
            Layout::VERSION_1 => Layout::VERSION_2,
            _ => Layout::VERSION_1,
        }
    }

    /// A legal table with one byte changed.
    fn push_byte(&mut self, name: String, number: u32, offset: usize, byte: u8) {
        let mut bytes = self.legal_bytes();
        bytes[offset] = byte;
        self.wrongs.push(Wrong { name, number, bytes });
    }

    fn break_versions(&mut self) {
        for offset in 0..5 {
            let byte = self.legal_bytes()[offset];
            let other = self.random.other(byte);
            self.push_byte(format!("byte {offset} of mark and version"), 1, offset, other);
        }
        for version in [0, 1, 2, 3, 255] {
            if u16::from(version) != self.layout.version {
                self.push_byte(format!("version {version}"), 1, 4, version);
            }
        }
        let heads = heads(self.random, 2);
        let mut whole = table_in(&Layout::VERSION_1, self.random, &heads).encode_in(&self.other());
        let bytes = whole.clone();
        self.wrongs.push(Wrong { name: "the other version".into(), number: 1, bytes });
        whole[3..5].copy_from_slice(&self.layout.version.to_be_bytes());
        self.push("the other version behind this one's number".into(), whole);
        let mut resized = self.legal_bytes();
        let count = (resized.len() - Table::HEADER) / self.layout.cell();
        resized.resize(self.other().table(count), 0);
        self.push("as long as in the other version".into(), resized);
    }

    fn break_header(&mut self) {
        for places in [0, 3, 5, 255] {
            self.push_byte(format!("{places} places per cell"), 2, 7, places);
        }
        for offset in 8..Table::HEADER {
            let other = self.random.other(0);
            self.push_byte(format!("byte {offset} not zero"), 2, offset, other);
        }
        self.push_byte("N 256 more".into(), 2, 5, 1);
        for difference in [-1, 1] {
            let mut bytes = self.legal_bytes();
            bytes[6] = bytes[6].wrapping_add_signed(difference);
            self.push(format!("N off by {difference}"), bytes);
        }
    }

    fn break_lengths(&mut self) {
        let cell = [self.layout, self.other()].map(|layout| layout.table(1));
        for length in [0, 1, 4, 5, 6, 15, 16, 17, cell[0] - 1, cell[0], cell[1]] {
            let bytes = self.legal_bytes()[..length].to_vec();
            let number = if length < 5 { 1 } else { 2 };
            self.wrongs.push(Wrong { name: format!("cut to {length} bytes"), number, bytes });
        }
        let whole = self.legal_bytes();
        self.push("a byte less".into(), whole[..whole.len() - 1].to_vec());
        self.push("a byte more".into(), [&whole[..], &[0]].concat());
        self.push("a cell more".into(), [whole, vec![0; self.layout.cell()]].concat());
        self.push("no cells".into(), Table { cells: vec![] }.encode_in(&self.layout));
        let heads = heads(self.random, *Table::CELLS.end() + 1);
        let too_many = table_in(&self.layout, self.random, &heads).encode_in(&self.layout);
        self.push("513 cells".into(), too_many);
    }

    fn break_heads(&mut self) {
        let areas: [(&str, &[u32]); 5] = [
            ("equal areas", &[5, 5]),
            ("descending areas", &[1, 9, 5]),
            ("zero areas", &[0, 0]),
            ("last area not above", &[1, 2, 9, 9]),
            ("five areas", &[1, 2, 3, 4, 5]),
        ];
        for (name, areas) in areas {
            let (mut table, cell) = self.legal();
            table.cells[cell].head.areas = areas[..areas.len().min(Head::MOST_AREAS)].to_vec();
            let mut bytes = table.encode_in(&self.layout);
            bytes[self.layout.table(cell) + 11] = areas.len() as u8;
            self.push(name.into(), bytes);
        }
        for offset in 15..Head::LENGTH {
            let (mut table, cell) = self.legal();
            table.cells[cell].head.areas = vec![0xffffff; 1];
            let mut bytes = table.encode_in(&self.layout);
            bytes[self.layout.table(cell) + offset] = self.random.other(0);
            self.push(format!("byte {offset} of the filling not zero"), bytes);
        }
        for byte in [0x10, 0x20, 0x40, 0x80, 0xff] {
            let (table, _) = self.legal();
            let last = self.layout.table(table.cells.len() - 1);
            let mut bytes = table.encode_in(&self.layout);
            bytes[last] |= byte;
            self.push(format!("NR CGI with {byte:x} above 60 bits"), bytes);
        }
        let (mut swapped, cell) = self.legal();
        swapped.cells.swap(cell, cell + 1);
        self.push("cells not ascending".into(), swapped.encode_in(&self.layout));
        let (mut equal, cell) = self.legal();
        equal.cells[cell].head.identity = equal.cells[cell + 1].head.identity;
        self.push("cells with one identity".into(), equal.encode_in(&self.layout));
    }

    fn break_live_places(&mut self) {
        for index in 0..Cell::PLACES {
            for (name, spoil) in spoils(&self.layout) {
                let (mut table, cell) = self.legal();
                table.cells[cell].places = full();
                spoil(&mut table.cells[cell].places[index], &self.layout);
                self.push(format!("place {index}: {name}"), table.encode_in(&self.layout));
            }
            // Live and the two zero bytes are a place's last.
            for (last, byte) in [(3, 0), (3, 2), (3, 255), (2, 1), (1, 1), (2, 128)] {
                let (mut table, cell) = self.legal();
                table.cells[cell].places = full();
                let mut bytes = table.encode_in(&self.layout);
                bytes[self.place(cell, index + 1) - last] = byte;
                self.push(format!("place {index}: byte {last} from its end is {byte}"), bytes);
            }
        }
    }

    fn break_other_places(&mut self) {
        for (first, other) in [(0, 1), (0, 2), (0, 3), (1, 2), (1, 3), (2, 3)] {
            let (mut table, cell) = self.legal();
            table.cells[cell].places = full();
            table.cells[cell].places[other].serial = full()[first].serial;
            self.push(
                format!("places {first} and {other} with one text"),
                table.encode_in(&self.layout),
            );
        }
        for index in 0..Cell::PLACES - 1 {
            let (mut table, cell) = self.legal();
            table.cells[cell].places = full();
            let mut bytes = table.encode_in(&self.layout);
            bytes[self.place(cell, index)..self.place(cell, index + 1)].fill(0);
            self.push(format!("place {index} free ahead of a live one"), bytes);
        }
        for offset in 0..self.layout.place() {
            let (mut table, cell) = self.legal();
            let live = self.random.below(Cell::PLACES);
            table.cells[cell].places = full()[..live].to_vec();
            let free = live + self.random.below(Cell::PLACES - live);
            let mut bytes = table.encode_in(&self.layout);
            bytes[self.place(cell, free) + offset] = self.random.other(0);
            self.push(format!("free place {free} with byte {offset} not zero"), bytes);
        }
    }

    /// Where a place begins, or the one before it ends.
    fn place(&self, cell: usize, index: usize) -> usize {
        self.layout.table(cell) + Head::LENGTH + index * self.layout.place()
    }
}
