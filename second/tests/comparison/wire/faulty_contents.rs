//! What the reader with a fault makes of contents: of elements, items and extensions.

use second::request::{CANCEL_ALL, IN_CELLS, NOTIFICATION};
use second::Broadcasts;

use super::broken::Fault;
use super::faulty::{byte, pair, take, Field, Place, Reader};
use super::messages::{self, DEDICATED_LIST, DIAGNOSTICS, NID, REJECT};

impl Reader {
    pub(super) fn contents(&mut self, id: u16, rest: &mut &[u8]) -> Option<()> {
        match id {
            messages::TRANSACTION => {
                let head = byte(rest)?;
                self.asked(head & 0x80 == 0, Fault::TransactionExtension)?;
                self.asked(head & 0x7f == 0, Fault::TransactionPadding)?;
                self.found.transaction = byte(rest)?.into();
            }
            messages::REQUESTED => self.found.request.requested = Broadcasts(pair(rest)?),
            messages::CANCEL_ALL => {
                let head = byte(rest)?;
                self.asked(head & 0x80 == 0, Fault::AllExtension)?;
                self.asked(head & 0x7f == 0, Fault::AllPadding)?;
                self.found.request.flags |= CANCEL_ALL;
            }
            messages::NOTIFICATION => self.text(rest)?,
            _ => self.cells(rest)?,
        }
        Some(())
    }

    fn text(&mut self, rest: &mut &[u8]) -> Option<()> {
        let bytes = take(rest, 5)?;
        let bits = bytes.iter().fold(0, |bits, byte| bits << 8 | u64::from(*byte));
        self.asked(bits >> 39 == 0, Fault::TextExtension)?;
        self.asked(bits & 0x3f == 0, Fault::TextPadding)?;
        let behind = if self.has(Fault::TextIsAligned) { 0 } else { 6 };
        let request = &mut self.found.request;
        request.flags |= NOTIFICATION;
        (request.identifier, request.serial) =
            ((bits >> (16 + behind)) as u16, (bits >> behind) as u16);
        if self.has(Fault::NoTextDepth) && bits >> 38 & 1 == 1 {
            *rest = &[];
            return Some(());
        }
        self.extensions(bits >> 38 & 1 == 1, rest, Place::TextExtension)
    }

    fn cells(&mut self, rest: &mut &[u8]) -> Option<()> {
        let count = u32::from(pair(rest)?);
        let most = match self.fault {
            Fault::Most511 => 511,
            Fault::Most513 => 513,
            _ => 512,
        };
        (count < most).then_some(())?;
        let items = match self.fault {
            Fault::CountAsItStands => count,
            Fault::ItemsInAByte => (count + 1) % 256,
            _ => count + 1,
        };
        self.found.request.area = IN_CELLS;
        for _ in 0..items {
            if rest.is_empty() && self.has(Fault::CutCells) {
                break;
            }
            self.item(rest)?;
        }
        if self.has(Fault::BehindCells) {
            *rest = &[];
        }
        Some(())
    }

    fn item(&mut self, rest: &mut &[u8]) -> Option<()> {
        let field = self.field(rest, Place::Item)?;
        let is_list = field.id == self.form.list() && self.has(Fault::ElementIsAnItem);
        let is_others = self.forms.iter().any(|form| form.item == field.id);
        if field.id == self.form.item || is_list || is_others && self.has(Fault::OtherItem) {
            let is_judged = self.has(Fault::ItemsCriticality3);
            (field.criticality < 3 || !is_judged).then_some(())?;
            return self.cell(field.value);
        }
        self.asked(field.criticality < 3, Fault::ItemCriticality3)?;
        let number = match (self.fault, field.criticality) {
            (Fault::ItemIs16, _) => 16,
            (Fault::ItemIs15, _) | (_, REJECT) => 15,
            (Fault::ItemIsSkipped, _) => return Some(()),
            (Fault::ItemIsLookedInto, _) => return self.cell(field.value),
            _ => 16,
        };
        self.found.problems.push(number);
        Some(())
    }

    pub(super) fn cell(&mut self, value: &[u8]) -> Option<()> {
        let mut rest = value;
        let head = byte(&mut rest)?;
        let is_passed = self.has(Fault::PaddingOfTheLastCell) && !self.found.cells.is_empty();
        self.asked(head & 0x80 == 0, Fault::CellExtension)?;
        self.asked(head & 0x20 == 0, Fault::IdentityExtension)?;
        self.asked(head & 0x0f == 0 || is_passed, Fault::CellPadding)?;
        let bytes = take(&mut rest, 8)?;
        let bits = bytes.iter().fold(0, |bits, byte| bits << 8 | u64::from(*byte));
        self.asked(bits & 0x0f == 0 || is_passed, Fault::IdentityPadding)?;
        let plmn = match self.fault {
            Fault::PlmnSwapped => u64::from_le_bytes([bytes[0], bytes[1], bytes[2], 0, 0, 0, 0, 0]),
            _ => bits >> 40,
        };
        let part = match self.fault {
            Fault::NarrowCell => bits >> 4 & 0xffff_ffff,
            Fault::WideCell => bits & 0xff_ffff_ffff,
            _ => bits >> 4 & 0xf_ffff_ffff,
        };
        let count = self.behind_identity(head, &mut rest)?;
        self.found.cells.push((plmn << 36 | part, count));
        self.asked(rest.is_empty(), Fault::BehindCell)
    }

    /// The count, where the items have one, with the extensions before and behind it.
    fn behind_identity(&mut self, head: u8, rest: &mut &[u8]) -> Option<u16> {
        let is_counted = self.form.is_counted;
        let mut count = 0;
        if is_counted && self.has(Fault::CountFirst) {
            count = pair(rest)?;
        }
        self.extensions(head & 0x10 != 0, rest, Place::IdentityExtension)?;
        if is_counted && !self.has(Fault::CountFirst) && !self.has(Fault::CountLast) {
            count = pair(rest)?;
        }
        self.extensions(head & 0x40 != 0, rest, Place::CellExtension)?;
        if is_counted && self.has(Fault::CountLast) {
            count = pair(rest)?;
        }
        Some(count)
    }

    fn extensions(&mut self, present: bool, rest: &mut &[u8], place: Place) -> Option<()> {
        if !present {
            return Some(());
        }
        match self.fault {
            Fault::NoExtensions => return None,
            Fault::NoDepth => *rest = &[],
            _ => {}
        }
        if rest.is_empty() && self.has(Fault::NoDepth) {
            return Some(());
        }
        let mut left = u32::from(pair(rest)?) + 1;
        left = if self.has(Fault::ExtensionsInAByte) { left % 256 } else { left };
        for k in 0..left {
            let field = self.field(rest, place)?;
            if k == 0 || !self.has(Fault::FirstExtension) {
                self.unknown(&field, place)?;
            }
        }
        Some(())
    }

    pub(super) fn unknown(&mut self, field: &Field, place: Place) -> Option<()> {
        self.asked(field.criticality < 3, Fault::UnknownCriticality3)?;
        let is_extension = place != Place::Element;
        let is_passed = match self.fault {
            Fault::RejectIsSkipped => true,
            Fault::NoCellDepth => place == Place::CellExtension,
            Fault::NoIdentityDepth => place == Place::IdentityExtension,
            Fault::NidIsKnown => place == Place::CellExtension && field.id == NID,
            Fault::ElementIsAnExtension => is_extension && self.form.elements.contains(&field.id),
            Fault::DiagnosticsAreKnown => !is_extension && field.id == DIAGNOSTICS,
            Fault::DedicatedIsKnown => !is_extension && field.id == DEDICATED_LIST,
            _ => false,
        };
        let is_notify = field.criticality == 2 && self.has(Fault::NotifyIsReject);
        if field.criticality == REJECT && !is_passed || is_notify {
            self.found.problems.push(15);
        }
        if !is_extension {
            let is_repeat = self.found.unknown.contains(&field.id);
            let is_early = self.found.known.len() < self.form.elements.len();
            let is_wrong = match self.fault {
                Fault::UnknownTwice => is_repeat,
                Fault::DiagnosticsTwice => is_repeat && field.id == DIAGNOSTICS,
                Fault::DiagnosticsLast => is_early && field.id == DIAGNOSTICS,
                _ => false,
            };
            if is_wrong {
                self.found.problems.push(16);
            }
            self.found.unknown.push(field.id);
            self.found.ended = self.has(Fault::UnknownEnds);
        }
        Some(())
    }
}
