//! The first implementation behind its C surface.
//!
//! Each buffer is lent to C as a copy between guards and at a changing alignment, so that a write
//! outside of it, or into one lent for reading, is noticed.

use std::cell::Cell;

use second::{Done, Message, Reading, Request};

use crate::comparison::entry_points::entry_points;
use crate::comparison::part::Part;
use crate::surface::in_c::C;
use crate::surface::{linked, Element, Lender, Lent, Library, Surface};

#[link(name = "pws", kind = "static")]
extern "C" {}

/// The first implementation.
pub fn library() -> Library<Guards> {
    Library { surface: entry_points!(linked "pws"), lender: Guards::default() }
}

/// So many elements on each side.
const GUARD: usize = 64;
const GUARD_BYTE: u8 = 0xc3;

/// Lends copies between guards.
#[derive(Default)]
pub struct Guards {
    /// Changes the alignment from buffer to buffer.
    turn: Cell<usize>,
}

impl Guards {
    /// No element where there is none to lend, so that the pointer is dangling.
    fn copy<T: Element>(&self, buffer: &[T]) -> (Vec<T>, usize) {
        if buffer.is_empty() {
            return (Vec::new(), 0);
        }
        self.turn.set((self.turn.get() + 1) % 8);
        let start = GUARD + self.turn.get();
        let mut elements = vec![T::from(GUARD_BYTE); start + buffer.len() + GUARD];
        elements[start..start + buffer.len()].copy_from_slice(buffer);
        (elements, start)
    }
}

impl Lender for Guards {
    fn for_reading<T: Element>(&self, buffer: &[T]) -> impl Lent<T> {
        let (elements, start) = self.copy(buffer);
        let back =
            move |left: &[T]| assert_eq!(left, buffer, "a buffer lent for reading was written");
        Guarded { elements, start, length: buffer.len(), back }
    }

    fn for_writing<T: Element>(&self, buffer: &mut [T]) -> impl Lent<T> {
        let (elements, start) = self.copy(buffer);
        let length = buffer.len();
        Guarded { elements, start, length, back: |left: &[T]| buffer.copy_from_slice(left) }
    }
}

/// A copy of a buffer between guards, and what is done with it after the call.
struct Guarded<T, B> {
    elements: Vec<T>,
    start: usize,
    length: usize,
    back: B,
}

// SAFETY: the copy is nobody else's; the pointer of an empty Vec is dangling and not null.
unsafe impl<T: Element, B: FnOnce(&[T])> Lent<T> for Guarded<T, B> {
    fn pointer(&mut self) -> *mut T {
        self.elements[self.start..].as_mut_ptr()
    }

    fn length(&self) -> usize {
        self.length
    }

    /// Once the guards are seen to stand.
    fn give_back(self) {
        let (before, behind) = self.elements.split_at(self.start);
        let (left, after) = behind.split_at(self.length);
        let stands = before.iter().chain(after).all(|guard| *guard == T::from(GUARD_BYTE));
        assert!(stands, "elements outside of a lent buffer were written");
        (self.back)(left);
    }
}
