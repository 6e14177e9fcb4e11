//! The three implementations behind one C surface, so that each is called in the same way.

use second::{Done, Message, Reading, Request};

use crate::comparison::entry_points::entry_points;
use crate::comparison::part::Part;
use crate::second_c;
use crate::surface::in_c::C;
use crate::surface::{linked, Element, Lender, Lent, Library, Surface};

pub struct Implementation {
    pub name: &'static str,
    /// What its functions' names begin with.
    pub prefix: &'static str,
    pub unit: Library<AsTheyAre>,
}

impl Implementation {
    const fn of(name: &'static str, prefix: &'static str, surface: Surface) -> Implementation {
        Implementation { name, prefix, unit: Library { surface, lender: AsTheyAre } }
    }
}

pub static OURS: Implementation = Implementation::of("ours", "pws", entry_points!(linked "pws"));
pub static PEER: Implementation = Implementation::of("peer", "peer", entry_points!(linked "peer"));
pub static SECOND: Implementation = Implementation::of("second", "second", second_c::SURFACE);

pub fn by_name(name: &str) -> Option<&'static Implementation> {
    [&OURS, &PEER, &SECOND].into_iter().find(|implementation| implementation.name == name)
}

/// Lends buffers as they are.
pub struct AsTheyAre;

impl Lender for AsTheyAre {
    #[inline]
    fn for_reading<T: Element>(&self, buffer: &[T]) -> impl Lent<T> {
        buffer
    }

    #[inline]
    fn for_writing<T: Element>(&self, buffer: &mut [T]) -> impl Lent<T> {
        buffer
    }
}

// SAFETY: a slice's pointer is never null and good for the slice's length.
unsafe impl<T> Lent<T> for &[T] {
    #[inline]
    fn pointer(&mut self) -> *mut T {
        self.as_ptr().cast_mut()
    }

    #[inline]
    fn length(&self) -> usize {
        self.len()
    }

    #[inline]
    fn give_back(self) {}
}

// SAFETY: the same, and an exclusive slice overlaps no other.
unsafe impl<T> Lent<T> for &mut [T] {
    #[inline]
    fn pointer(&mut self) -> *mut T {
        self.as_mut_ptr()
    }

    #[inline]
    fn length(&self) -> usize {
        self.len()
    }

    #[inline]
    fn give_back(self) {}
}

extern "C" {
    fn floor_read(bytes: *const u8, length: usize) -> u64;
}

/// One plain read of all bytes.
pub fn floor(bytes: &[u8]) -> u64 {
    // SAFETY: the pointer is good for its length.
    unsafe { floor_read(bytes.as_ptr(), bytes.len()) }
}
