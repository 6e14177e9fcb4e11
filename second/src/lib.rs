//! A second implementation of document 01 and of document 02's texts in segments, earthquake
//! primaries, periods above an hour, cancels from the wire and answers on it, written from the
//! documents alone, so that the first one can be compared with it. Bytes are decoded into cells,
//! places, requests and rows, the rules work on these, and what changed is encoded again.

#![forbid(unsafe_code)]

mod answer;
mod apply;
mod area;
mod cell;
mod conversion;
mod fault;
mod fields;
mod layout;
mod order;
mod place;
mod record;
mod refusal;
mod report;
pub mod request;
mod segments;
mod table;
pub mod text;
mod wire;

pub use answer::{Answer, Row};
pub use apply::{apply, apply_in};
pub use area::Area;
pub use cell::{Cell, CellIdentity, Head};
pub use conversion::convert;
pub use fault::{status, Fault};
pub use layout::Layout;
pub use place::{Broadcasts, Place, Seconds, EARTHQUAKE_PRIMARY, SIB_KINDS};
pub use record::{item, read, write, Reading, Record};
pub use refusal::{Done, Refusal};
pub use report::report;
pub use request::Request;
pub use segments::{pack, segment};
pub use table::{build, Table};
pub use wire::{read_cancel, read_response, write_response, Message};
