//! Seeded inputs: heads, records that are accepted, and records that break one rule each.

pub mod heads;
pub mod random;
pub mod records;
pub mod wrong_records;
