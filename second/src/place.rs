//! A live place: a text that a cell broadcasts.

use std::ops::RangeInclusive;

use crate::fields::{Fields, Written};
use crate::layout::Layout;

/// A count of seconds. It has a type of its own because it "never stands where a count of
/// broadcasts is meant".
#[derive(Clone, Copy, Debug, Default, PartialEq, Eq, PartialOrd, Ord)]
pub struct Seconds(pub u32);

/// A count of broadcasts, requested or sent.
#[derive(Clone, Copy, Debug, Default, PartialEq, Eq, PartialOrd, Ord)]
pub struct Broadcasts(pub u16);

/// The SIB kind of an earthquake primary, an ETWS notice.
pub const EARTHQUAKE_PRIMARY: u8 = 6;
pub const SIB_KINDS: RangeInclusive<u8> = EARTHQUAKE_PRIMARY..=8;

const LIVE: u8 = 1;

#[derive(Clone, Debug, PartialEq, Eq)]
pub struct Place {
    pub identifier: u16,
    pub serial: u16,
    pub content: u32,
    pub period: Seconds,
    /// 0 runs until stopped.
    pub requested: Broadcasts,
    pub sent: Broadcasts,
    pub wait: Seconds,
    pub sib: u8,
}

impl Place {
    /// Identifier and serial number, by which a text is told from another.
    pub fn text(&self) -> (u16, u16) {
        (self.identifier, self.serial)
    }

    /// The live place in these bytes; `None` if they break a rule of a live place.
    pub(crate) fn parse(layout: &Layout, bytes: &[u8]) -> Option<Place> {
        let mut fields = Fields::of(bytes);
        let place = Place {
            identifier: fields.u16()?,
            serial: fields.u16()?,
            content: fields.u32()?,
            period: Seconds(fields.number(layout.seconds_width)?),
            requested: Broadcasts(fields.u16()?),
            sent: Broadcasts(fields.u16()?),
            wait: Seconds(fields.number(layout.seconds_width)?),
            sib: fields.u8()?,
        };
        let live = fields.u8()? == LIVE && fields.rest() == [0, 0];
        (live && place.is_legal(layout)).then_some(place)
    }

    /// "A live place has: period at most 4095", or what the layout has as its limit; "period 0 only
    /// with requested 1; wait below the larger of period and 1; sent below requested unless
    /// requested is 0."
    fn is_legal(&self, layout: &Layout) -> bool {
        let endless = self.requested == Broadcasts(0);
        SIB_KINDS.contains(&self.sib)
            && self.period <= layout.largest_period
            && (self.period > Seconds(0) || self.requested == Broadcasts(1))
            && self.wait < self.period.max(Seconds(1))
            && (endless || self.sent < self.requested)
    }

    pub(crate) fn encode(&self, layout: &Layout) -> Vec<u8> {
        Written::default()
            .u16(self.identifier)
            .u16(self.serial)
            .u32(self.content)
            .number(layout.seconds_width, self.period.0)
            .u16(self.requested.0)
            .u16(self.sent.0)
            .number(layout.seconds_width, self.wait.0)
            .u8(self.sib)
            .u8(LIVE)
            .zeros_to(layout.place())
            .bytes()
    }
}

#[cfg(test)]
mod tests {
    use super::*;

    fn place(period: u32, requested: u16, sent: u16, wait: u32) -> Place {
        Place {
            identifier: 4370,
            serial: 16,
            content: 7,
            period: Seconds(period),
            requested: Broadcasts(requested),
            sent: Broadcasts(sent),
            wait: Seconds(wait),
            sib: 8,
        }
    }

    const BOTH: [Layout; 2] = [Layout::VERSION_1, Layout::VERSION_2];

    #[test]
    fn each_bound_of_a_live_place_is_tried_at_below_and_above() {
        for layout in BOTH {
            let largest = layout.largest_period.0;
            let legal = |period, requested, sent, wait| {
                place(period, requested, sent, wait).is_legal(&layout)
            };
            assert!(legal(largest, 2, 1, largest - 1));
            assert!(!legal(largest + 1, 2, 1, 0));
            assert!(!legal(largest, 2, 1, largest));
            assert!(!legal(largest, 2, 2, 0));
            assert!(legal(1, 0, 65_535, 0));
            assert!(!legal(1, 0, 65_535, 1));
            assert!(legal(0, 1, 0, 0));
            assert!(!legal(0, 1, 0, 1));
            assert!(!legal(0, 0, 0, 0));
            assert!(!legal(0, 2, 0, 0));
        }
    }

    #[test]
    fn a_live_place_may_be_all_zero_but_for_its_rules() {
        for layout in BOTH {
            let mut bytes = place(0, 1, 0, 0).encode(&layout);
            bytes[..8].fill(0);
            assert_eq!(Place::parse(&layout, &bytes).unwrap().text(), (0, 0));
        }
    }

    #[test]
    fn live_is_1_and_the_last_bytes_are_zero() {
        for (layout, sib) in BOTH.into_iter().zip([16, 20]) {
            let legal = place(2, 3, 1, 0).encode(&layout);
            assert_eq!(Place::parse(&layout, &legal), Some(place(2, 3, 1, 0)));
            for (offset, value) in [(0, 5), (0, 9), (1, 0), (1, 2), (2, 1), (3, 1)] {
                let mut bytes = legal.clone();
                bytes[sib + offset] = value;
                assert_eq!(Place::parse(&layout, &bytes), None, "byte {} = {value}", sib + offset);
            }
        }
    }

    #[test]
    fn the_fields_of_version_2_stand_where_document_02_has_them() {
        let bytes = place(0x1_0203, 0x0405, 0x0102, 0x1_0002).encode(&Layout::VERSION_2);
        assert_eq!(bytes[..12], *b"\x11\x12\x00\x10\x00\x00\x00\x07\x00\x01\x02\x03");
        assert_eq!(bytes[12..], *b"\x04\x05\x01\x02\x00\x01\x00\x02\x08\x01\x00\x00");
    }
}
