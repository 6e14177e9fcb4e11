//! A reader of its own, byte by byte, that can be told to have one fault. Without one it agrees with
//! the sound one, so that what is found is the fault.

use second::request::CANCEL;
use second::Request;

use super::broken::Fault;
use super::forms::Form;

/// What was found before something is written.
#[derive(Clone, Default)]
pub struct Found {
    pub transaction: u32,
    pub request: Request,
    /// With counts, which are 0 where there are none.
    pub cells: Vec<(u64, u16)>,
    /// Refusals 15 and 16 in the order in which they were met.
    pub problems: Vec<u32>,
    /// Places of known elements, and identifiers of unknown ones.
    pub known: Vec<usize>,
    pub unknown: Vec<u16>,
    /// An unknown element has ended the elements.
    pub ended: bool,
}

pub struct Reader {
    pub fault: Fault,
    pub forms: &'static [Form],
    /// The one that is read.
    pub form: &'static Form,
    pub found: Found,
}

#[derive(Clone, Copy, PartialEq, Eq)]
pub enum Place {
    Element,
    Item,
    TextExtension,
    CellExtension,
    IdentityExtension,
}

pub struct Field<'a> {
    pub id: u16,
    pub criticality: u8,
    pub value: &'a [u8],
}

pub fn take<'a>(rest: &mut &'a [u8], length: usize) -> Option<&'a [u8]> {
    let (part, behind) = rest.split_at_checked(length)?;
    *rest = behind;
    Some(part)
}

pub fn byte(rest: &mut &[u8]) -> Option<u8> {
    take(rest, 1).map(|part| part[0])
}

pub fn pair(rest: &mut &[u8]) -> Option<u16> {
    take(rest, 2).map(|part| u16::from_be_bytes([part[0], part[1]]))
}

/// What is found in a message, and its refusal up to 16.
pub fn read(fault: Fault, forms: &'static [Form], message: &[u8]) -> (Reader, u32) {
    let request = Request { kind: CANCEL, ..Request::default() };
    let found = Found { request, ..Found::default() };
    let mut reader = Reader { fault, forms, form: &forms[0], found };
    let number = match reader.frame(message) {
        Some(0) => reader.judgement(),
        Some(other) => other,
        None => reader.badly_encoded(),
    };
    (reader, number)
}

impl Reader {
    pub fn has(&self, fault: Fault) -> bool {
        self.fault == fault
    }

    /// `None` where it is not so, unless this is what the fault passes over.
    pub fn asked(&self, is_so: bool, fault: Fault) -> Option<()> {
        (is_so || self.has(fault)).then_some(())
    }

    fn badly_encoded(&self) -> u32 {
        let problems = &self.found.problems;
        match self.fault {
            Fault::FifteenFirst if problems.contains(&15) => 15,
            Fault::SixteenFirst if problems.contains(&16) => 16,
            Fault::FirstProblem => problems.first().copied().unwrap_or(13),
            _ => 13,
        }
    }

    fn judgement(&mut self) -> u32 {
        let may_be_missing = match self.fault {
            Fault::NoTransaction => Some(0),
            Fault::NoRequested => Some(1),
            _ => None,
        };
        let asked = self.form.mandatory + usize::from(self.has(Fault::ListIsMandatory));
        let is_missing =
            |place| !self.found.known.contains(&place) && may_be_missing != Some(place);
        if (0..asked).any(is_missing) {
            self.found.problems.push(16);
        }
        let problems = &self.found.problems;
        let is_nothing = self.found.request.flags == 0;
        match self.fault {
            Fault::FirstProblem => problems.first().copied().unwrap_or(0),
            Fault::SixteenBeforeFifteen => problems.iter().copied().max().unwrap_or(0),
            Fault::SevenBeforeSixteen if is_nothing && problems.contains(&16) => 7,
            _ => problems.iter().copied().min().unwrap_or(0),
        }
    }

    /// 0 or 14; `None` where it is badly encoded.
    fn frame(&mut self, message: &[u8]) -> Option<u32> {
        let mut rest = message;
        let head = byte(&mut rest)?;
        self.asked(head & 0x3f == 0, Fault::ChoicePadding)?;
        let is_long = head >> 6 == 3 && !self.has(Fault::ChoiceExtensionOfAByte);
        let code = if is_long { pair(&mut rest)? } else { byte(&mut rest)?.into() };
        let form = self.forms.iter().find(|form| self.takes(form, head >> 6, code));
        if form.is_none() && self.has(Fault::FourteenFirst) {
            return Some(14);
        }
        self.form = form.unwrap_or(self.form);
        let marks = byte(&mut rest)?;
        self.asked(marks & 0x3f == 0, Fault::FramePadding)?;
        self.asked(marks >> 6 < 3, Fault::FrameCriticality3)?;
        let must_reject = self.has(Fault::FrameMustReject);
        (marks >> 6 == 0 || !must_reject).then_some(())?;
        let length = self.length(&mut rest)?;
        self.asked(length > 0, Fault::EmptyFrame)?;
        let value = take(&mut rest, length)?;
        self.asked(rest.is_empty(), Fault::BehindMessage)?;
        if form.is_some() || self.has(Fault::OthersAreJudged) {
            self.elements(value)?;
        }
        Some(if form.is_some() { 0 } else { 14 })
    }

    fn takes(&self, form: &Form, choice: u8, code: u16) -> bool {
        let is_long = choice == 3 && self.has(Fault::CodeOfTwoBytes);
        let is_choice = choice == form.choice || self.has(Fault::AnyChoice) || is_long;
        let is_code = code == form.code || self.has(Fault::AnyCode);
        is_choice && (is_code || is_long && code & 255 == form.code)
    }

    fn length(&self, rest: &mut &[u8]) -> Option<usize> {
        let first = usize::from(byte(rest)?);
        if first < 128 {
            return Some(first);
        }
        let length = (first & 0x3f) << 8 | usize::from(byte(rest)?);
        self.asked(length > 127, Fault::LongForm)?;
        self.asked(first < 192, Fault::Fragment)?;
        Some(length)
    }

    fn elements(&mut self, mut rest: &[u8]) -> Option<()> {
        let head = byte(&mut rest)?;
        self.asked(head & 0x80 == 0, Fault::ValueExtension)?;
        self.asked(head & 0x7f == 0, Fault::ValuePadding)?;
        let mut left = pair(&mut rest)?;
        (left > 0 || !self.has(Fault::NoElements)).then_some(())?;
        left = if self.has(Fault::ElementsInAByte) { left % 256 } else { left };
        let uncounted = self.has(Fault::UncountedElements);
        while if uncounted { !rest.is_empty() } else { left > 0 } {
            if rest.is_empty() && self.has(Fault::CutElements) || self.found.ended {
                return Some(());
            }
            self.element(&mut rest)?;
            left = left.wrapping_sub(1);
        }
        self.asked(rest.is_empty(), Fault::BehindElements)
    }

    pub fn field<'a>(&self, rest: &mut &'a [u8], place: Place) -> Option<Field<'a>> {
        let id = pair(rest)?;
        let marks = byte(rest)?;
        let is_known = match place {
            Place::Element => self.form.elements.contains(&id),
            Place::Item => id == self.form.item,
            _ => false,
        };
        let (padding, empty) = match place {
            Place::Element => (Fault::ElementPadding, Fault::EmptyElement),
            Place::Item => (Fault::ItemPadding, Fault::EmptyItem),
            _ => (Fault::ExtensionPadding, Fault::EmptyExtension),
        };
        let unpadded = marks & 0x3f == 0 || !is_known && self.has(Fault::UnknownPadding);
        self.asked(unpadded, padding)?;
        let length = self.length(rest)?;
        self.asked(length > 0, empty)?;
        Some(Field { id, criticality: marks >> 6, value: take(rest, length)? })
    }

    fn element(&mut self, rest: &mut &[u8]) -> Option<()> {
        let field = self.field(rest, Place::Element)?;
        let place = self.form.elements.iter().position(|id| *id == field.id);
        let is_item = field.id == self.form.item && self.has(Fault::ItemIsAnElement);
        let other = self.forms.iter().find(|form| form.list() == field.id);
        match (place, other) {
            (Some(place), _) => self.known(place, &field),
            (None, Some(form)) if self.has(Fault::OtherList) => {
                let own = std::mem::replace(&mut self.form, form);
                self.known(own.mandatory, &field)?;
                self.form = own;
                Some(())
            }
            (None, _) if is_item => self.cell(field.value),
            (None, _) => self.unknown(&field, Place::Element),
        }
    }

    fn known(&mut self, place: usize, field: &Field) -> Option<()> {
        match (self.fault, field.criticality) {
            (Fault::KnownCriticality3, 3) => return None,
            (Fault::KnownMustReject, 1..) => self.found.problems.push(15),
            (Fault::KnownIsIgnored, 1) => return Some(()),
            (Fault::UnknownHasOrder, _) if !self.found.unknown.is_empty() => {
                self.found.problems.push(16)
            }
            _ => {}
        }
        let is_repeat = self.found.known.contains(&place);
        let is_late = self.found.known.iter().any(|known| *known > place);
        let may_be_late = self.has(Fault::AnyOrder) || self.has(Fault::TextBeforeAll) && place == 3;
        if is_repeat && !self.has(Fault::Repeats) || is_late && !may_be_late {
            self.found.problems.push(16);
        }
        self.found.known.push(place);
        if is_repeat && self.has(Fault::RepeatsUnjudged) {
            return Some(());
        }
        let mut rest = field.value;
        self.contents(field.id, &mut rest)?;
        self.asked(rest.is_empty(), Fault::BehindContents)
    }
}
