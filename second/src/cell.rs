//! A cell: its identity, its head and its live places.

use crate::fields::{all_zero, strictly_ascending, Fields, Written};
use crate::layout::Layout;
use crate::place::Place;

/// NR CGI: "24-bit PLMN, then 36 bits". The order of identities is the order of their numbers.
#[derive(Clone, Copy, Debug, PartialEq, Eq, PartialOrd, Ord)]
pub struct CellIdentity {
    plmn: u32,
    part: u64,
}

impl CellIdentity {
    pub const PLMN_WIDTH: u32 = 24;
    pub const PART_WIDTH: u32 = 36;
    pub const LARGEST: u64 = (1 << (Self::PLMN_WIDTH + Self::PART_WIDTH)) - 1;

    /// `None` from 2^60 on.
    pub fn from_number(number: u64) -> Option<Self> {
        let plmn = u32::try_from(number >> Self::PART_WIDTH).ok()?;
        let part = number & ((1 << Self::PART_WIDTH) - 1);
        (number <= Self::LARGEST).then_some(CellIdentity { plmn, part })
    }

    pub fn number(self) -> u64 {
        u64::from(self.plmn) << Self::PART_WIDTH | self.part
    }

    pub fn plmn(self) -> u32 {
        self.plmn
    }
}

#[derive(Clone, Debug, PartialEq, Eq)]
pub struct Head {
    pub identity: CellIdentity,
    /// Tracking area code.
    pub code: u32,
    /// The used emergency area identifiers.
    pub areas: Vec<u32>,
}

impl Head {
    pub const LENGTH: usize = 24;
    pub const LARGEST_CODE: u32 = (1 << 24) - 1;
    /// The largest emergency area identifier.
    pub const LARGEST_AREA: u32 = (1 << 24) - 1;
    /// The largest tracking area as an item: "PLMN x 2^24 + code".
    pub const LARGEST_TRACKING_AREA: u64 = (1 << 48) - 1;
    pub const MOST_AREAS: usize = 4;

    /// "PLMN x 2^24 + code"
    pub fn tracking_area(&self) -> u64 {
        (u64::from(self.identity.plmn()) << 24) + u64::from(self.code)
    }

    /// `None` if the 24 bytes break a rule of a head.
    pub(crate) fn parse(bytes: &[u8]) -> Option<Head> {
        let mut fields = Fields::of(bytes);
        let identity = CellIdentity::from_number(fields.u64()?)?;
        let code = fields.u24()?;
        let used = usize::from(fields.u8()?);
        let listed = (0..Self::MOST_AREAS).map(|_| fields.u24()).collect::<Option<Vec<u32>>>()?;
        let (areas, filling) = listed.split_at_checked(used)?;
        let filled = filling.iter().all(|area| *area == 0);
        let legal = fields.rest().is_empty() && filled && strictly_ascending(areas);
        legal.then(|| Head { identity, code, areas: areas.to_vec() })
    }

    pub fn encode(&self) -> Vec<u8> {
        let written = Written::default()
            .u64(self.identity.number())
            .u24(self.code)
            .u8(self.areas.len() as u8);
        let written = self.areas.iter().fold(written, |written, area| written.u24(*area));
        written.zeros_to(Self::LENGTH).bytes()
    }
}

#[derive(Clone, Debug, PartialEq, Eq)]
pub struct Cell {
    pub head: Head,
    /// The live places in their order; the free ones behind them are not kept.
    pub places: Vec<Place>,
}

impl Cell {
    pub const PLACES: usize = 4;
    pub const LENGTH: usize = Layout::CURRENT.cell();

    pub fn empty(head: Head) -> Cell {
        Cell { head, places: Vec::new() }
    }

    /// `None` if the bytes break a rule of a cell.
    pub(crate) fn parse(layout: &Layout, bytes: &[u8]) -> Option<Cell> {
        let (head, places) = bytes.split_at_checked(Head::LENGTH)?;
        Some(Cell { head: Head::parse(head)?, places: parse_places(layout, places)? })
    }

    pub(crate) fn encode(&self, layout: &Layout) -> Vec<u8> {
        let written = Written::default().part(&self.head.encode());
        let places =
            self.places.iter().fold(written, |written, place| written.part(&place.encode(layout)));
        places.zeros_to(layout.cell()).bytes()
    }

    pub fn is_full(&self) -> bool {
        self.places.len() == Self::PLACES
    }

    pub fn runs(&self, text: (u16, u16)) -> bool {
        self.places.iter().any(|place| place.text() == text)
    }
}

/// "A free place is all zero. Live places come first. No two live places of a cell have the same
/// identifier and serial number."
fn parse_places(layout: &Layout, bytes: &[u8]) -> Option<Vec<Place>> {
    let parts: Vec<&[u8]> = bytes.chunks(layout.place()).collect();
    let live = parts.iter().take_while(|part| !all_zero(part)).count();
    if parts[live..].iter().any(|part| !all_zero(part)) {
        return None;
    }
    let places = parts[..live].iter().map(|part| Place::parse(layout, part));
    let places = places.collect::<Option<Vec<Place>>>()?;
    let mut texts: Vec<(u16, u16)> = places.iter().map(Place::text).collect();
    texts.sort_unstable();
    strictly_ascending(&texts).then_some(places)
}

#[cfg(test)]
mod tests {
    use super::*;
    use crate::place::{Broadcasts, Seconds};

    fn head(areas: &[u32]) -> Head {
        let identity = CellIdentity::from_number(0x00f110000000010).unwrap();
        Head { identity, code: 1, areas: areas.to_vec() }
    }

    fn place(serial: u16) -> Place {
        let (period, requested) = (Seconds(2), Broadcasts(3));
        let (sent, wait) = (Broadcasts(0), Seconds(0));
        Place { identifier: 4370, serial, content: 7, period, requested, sent, wait, sib: 8 }
    }

    #[test]
    fn an_identity_is_its_plmn_and_its_part() {
        let identity = CellIdentity::from_number(0x00f110000000010).unwrap();
        assert_eq!((identity.plmn(), identity.number()), (0x00f110, 0x00f110000000010));
        assert!(CellIdentity::from_number(CellIdentity::LARGEST).is_some());
        assert!(CellIdentity::from_number(1 << 60).is_none());
        assert!(CellIdentity::from_number(u64::MAX).is_none());
    }

    #[test]
    fn used_areas_come_first_and_ascend() {
        for areas in [&[][..], &[0], &[0, 1], &[5, 9], &[1, 2, 3, 0xffffff]] {
            assert_eq!(Head::parse(&head(areas).encode()), Some(head(areas)));
        }
        for areas in [&[5, 5][..], &[9, 5], &[0, 0], &[1, 2, 3, 0], &[1, 2, 3, 4, 5]] {
            assert_eq!(Head::parse(&head(areas).encode()), None, "{areas:?}");
        }
        let mut filled = head(&[5, 9]).encode();
        filled[23] = 1;
        assert_eq!(Head::parse(&filled), None);
    }

    #[test]
    fn live_places_come_first_and_differ() {
        for layout in [Layout::VERSION_1, Layout::VERSION_2] {
            let parsed = |bytes: &[u8]| Cell::parse(&layout, bytes);
            let full = Cell { head: head(&[5]), places: (0..4).map(place).collect() };
            assert_eq!(parsed(&full.encode(&layout)), Some(full.clone()));
            let mut gap = full.encode(&layout);
            gap[Head::LENGTH + layout.place()..][..layout.place()].fill(0);
            assert_eq!(parsed(&gap), None);
            let twice = Cell { head: head(&[5]), places: vec![place(1), place(2), place(1)] };
            assert_eq!(parsed(&twice.encode(&layout)), None);
            let mut stray = Cell::empty(head(&[5])).encode(&layout);
            stray[layout.cell() - 1] = 1;
            assert_eq!(parsed(&stray), None);
        }
    }
}
