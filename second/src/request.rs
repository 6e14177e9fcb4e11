//! A request's fields, and which of them document 01 allows together.

use std::ops::RangeInclusive;

use crate::cell::{CellIdentity, Head};
use crate::layout::Layout;
use crate::place::{Broadcasts, Seconds, SIB_KINDS};
use crate::refusal::Refusal;

pub const WRITE_REPLACE: u8 = 1;
pub const CANCEL: u8 = 2;
pub const RESTART: u8 = 3;
pub const FAILURE: u8 = 4;
pub const SECOND: u8 = 5;

pub const CONCURRENT: u8 = 1;
pub const CANCEL_ALL: u8 = 2;
pub const NOTIFICATION: u8 = 4;

pub const NO_AREA: u8 = 0;
pub const IN_CELLS: u8 = 1;
pub const IN_TRACKING_AREAS: u8 = 2;
pub const IN_EMERGENCY_AREAS: u8 = 3;

/// The fields as they stand in a record, of any value: the writer is given them unjudged.
#[derive(Clone, Copy, Debug, Default, PartialEq, Eq)]
pub struct Request {
    pub kind: u8,
    pub flags: u8,
    pub area: u8,
    pub identifier: u16,
    pub serial: u16,
    pub content: u32,
    pub period: Seconds,
    pub requested: Broadcasts,
    pub sib: u8,
}

impl Request {
    pub fn has(&self, flag: u8) -> bool {
        self.flags & flag != 0
    }

    /// Refusals 5 to 7 in a record of this layout's version, the lowest that applies.
    pub(crate) fn judge(&self, layout: &Layout, items: &[u64]) -> Result<(), Refusal> {
        let listed = !items.is_empty();
        let allowed = self.flags & !self.allowed_flags() == 0
            && self.allowed_areas().contains(&self.area)
            && (self.area != NO_AREA) == listed
            && self.carried() == Some(*self);
        if !allowed {
            return Err(Refusal::RecordField);
        }
        if !self.values_fit(layout) || items.iter().any(|item| *item > self.largest_item()) {
            return Err(Refusal::RecordValue);
        }
        if self.kind == CANCEL && !self.has(CANCEL_ALL | NOTIFICATION) {
            return Err(Refusal::CancelOfNothing);
        }
        Ok(())
    }

    fn allowed_flags(&self) -> u8 {
        match self.kind {
            WRITE_REPLACE => CONCURRENT,
            CANCEL => CANCEL_ALL | NOTIFICATION,
            _ => 0,
        }
    }

    fn allowed_areas(&self) -> RangeInclusive<u8> {
        match self.kind {
            WRITE_REPLACE | CANCEL => NO_AREA..=IN_EMERGENCY_AREAS,
            RESTART | FAILURE => NO_AREA..=IN_CELLS,
            _ => NO_AREA..=NO_AREA,
        }
    }

    /// The request with "Fields that are zero" for its kind at zero; `None` of an unknown kind.
    fn carried(&self) -> Option<Request> {
        let Request { kind, flags, area, requested, .. } = *self;
        let bare = Request { kind, flags, area, ..Request::default() };
        match kind {
            WRITE_REPLACE => Some(*self),
            CANCEL if self.has(NOTIFICATION) => Some(Request {
                identifier: self.identifier,
                serial: self.serial,
                requested,
                ..bare
            }),
            CANCEL => Some(Request { requested, ..bare }),
            RESTART | FAILURE | SECOND => Some(bare),
            _ => None,
        }
    }

    fn values_fit(&self, layout: &Layout) -> bool {
        let fits = self.period <= layout.largest_period && SIB_KINDS.contains(&self.sib);
        self.kind != WRITE_REPLACE || fits
    }

    fn largest_item(&self) -> u64 {
        match self.area {
            IN_CELLS => CellIdentity::LARGEST,
            IN_TRACKING_AREAS => Head::LARGEST_TRACKING_AREA,
            _ => Head::LARGEST_AREA.into(),
        }
    }
}
