//! Two units compared call by call, on given inputs.

pub mod broken;
pub mod broken_conversions;
mod broken_packings;
mod broken_periods;
mod broken_primaries;
pub mod broken_segments;
pub mod call;
pub mod cases;
pub mod compare;
mod conversions;
pub mod entry_points;
pub mod lists;
pub mod part;
mod periods;
mod promises;
pub mod reorder;
pub mod runs;
pub mod segments;
pub mod spoiled;
mod starts;
pub mod tables;
#[cfg(test)]
mod tests;
mod texts;
pub mod unit;
pub mod wire;
mod wrong_places;
pub mod wrong_tables;
