//! Which cells a request reaches.

use std::collections::BTreeSet;

use crate::cell::Head;
use crate::record::Record;
use crate::request::{IN_CELLS, IN_EMERGENCY_AREAS, IN_TRACKING_AREAS};

/// The items of an accepted record as a set, since "Item order and repeats change nothing".
pub enum Area {
    All,
    Cells(BTreeSet<u64>),
    TrackingAreas(BTreeSet<u64>),
    EmergencyAreas(BTreeSet<u64>),
}

impl Area {
    pub fn of(record: &Record) -> Area {
        let items = record.items.iter().copied().collect();
        match record.request.area {
            IN_CELLS => Area::Cells(items),
            IN_TRACKING_AREAS => Area::TrackingAreas(items),
            IN_EMERGENCY_AREAS => Area::EmergencyAreas(items),
            _ => Area::All,
        }
    }

    pub fn reaches(&self, head: &Head) -> bool {
        match self {
            Area::All => true,
            Area::Cells(items) => items.contains(&head.identity.number()),
            Area::TrackingAreas(items) => items.contains(&head.tracking_area()),
            Area::EmergencyAreas(items) => {
                head.areas.iter().any(|area| items.contains(&u64::from(*area)))
            }
        }
    }
}

#[cfg(test)]
mod tests {
    use super::*;
    use crate::cell::CellIdentity;
    use crate::request::Request;

    fn reaches(area: u8, items: &[u64], areas: &[u32]) -> bool {
        let identity = CellIdentity::from_number(0x00f110000000010).unwrap();
        let head = Head { identity, code: 2, areas: areas.to_vec() };
        let request = Request { area, ..Request::default() };
        Area::of(&Record { request, items: items.to_vec() }).reaches(&head)
    }

    #[test]
    fn an_area_reaches_by_its_kind_of_item() {
        assert!(reaches(0, &[], &[]));
        assert!(reaches(1, &[9, 0x00f110000000010, 9], &[]));
        assert!(!reaches(1, &[0x00f110000000011], &[]));
        assert!(reaches(2, &[0x00f110000002], &[]));
        assert!(!reaches(2, &[0x00f111000002, 2], &[]));
        assert!(reaches(3, &[9], &[5, 9]));
        assert!(!reaches(3, &[6], &[5, 9]));
    }

    #[test]
    fn the_filling_of_a_head_matches_nothing() {
        assert!(!reaches(3, &[0], &[]));
        assert!(!reaches(3, &[0], &[5, 9]));
        assert!(reaches(3, &[0], &[0, 9]));
    }
}
