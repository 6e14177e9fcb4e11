//! Converting a version 1 table into the version that is applied to.

use crate::layout::Layout;
use crate::refusal::{lay, Done};
use crate::table::Table;

/// Lays the old table at the start of a second buffer in the current version, every field of it
/// carried; the bytes behind it stay. Tests 1 (anything but version 1), 2 by version 1's rules,
/// then 8.
pub fn convert(old: &[u8], table: &mut [u8]) -> Done {
    Table::parse_in(&Layout::VERSION_1, old)
        .and_then(|carried| lay(&carried.encode(), table))
        .into()
}
