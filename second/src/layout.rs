//! What the version of a table or a record decides: how wide its counts of seconds are in a place,
//! and which period is the largest. Everything else is the same in each version.

use crate::cell::{Cell, Head};
use crate::place::Seconds;
use crate::table::Table;

#[derive(Clone, Copy, Debug, PartialEq, Eq)]
pub struct Layout {
    pub version: u16,
    /// The bytes of a place's period, and of its wait. A record has 4 in each version.
    pub seconds_width: usize,
    pub largest_period: Seconds,
}

impl Layout {
    pub const VERSION_1: Layout =
        Layout { version: 1, seconds_width: 2, largest_period: Seconds(4095) };
    pub const VERSION_2: Layout =
        Layout { version: 2, seconds_width: 4, largest_period: Seconds(131_071) };
    /// What is built, applied to and written.
    pub const CURRENT: Layout = Layout::VERSION_2;

    /// The bytes of a place's other fields.
    const OTHER_FIELDS: usize = 16;

    /// `None` of a version that there is not.
    pub(crate) fn of_version(version: u16) -> Option<Layout> {
        [Layout::VERSION_1, Layout::VERSION_2].into_iter().find(|layout| layout.version == version)
    }

    pub const fn place(&self) -> usize {
        Layout::OTHER_FIELDS + 2 * self.seconds_width
    }

    pub const fn cell(&self) -> usize {
        Head::LENGTH + Cell::PLACES * self.place()
    }

    pub const fn table(&self, cells: usize) -> usize {
        Table::HEADER + cells * self.cell()
    }
}

#[cfg(test)]
mod tests {
    use super::*;

    #[test]
    fn lengths_are_those_of_the_documents() {
        let lengths = |layout: Layout| (layout.place(), layout.cell(), layout.table(2));
        assert_eq!(lengths(Layout::VERSION_1), (20, 104, 16 + 104 * 2));
        assert_eq!(lengths(Layout::VERSION_2), (24, 120, 16 + 120 * 2));
    }

    #[test]
    fn there_are_two_versions() {
        let known: Vec<u16> =
            (0..=u16::MAX).filter(|version| Layout::of_version(*version).is_some()).collect();
        assert_eq!(known, [1, 2]);
    }
}
