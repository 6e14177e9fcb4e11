//! The kinds of calls on two units, and the single faults that each must find.

use super::broken::broken_units;
use super::broken_conversions::broken_in_conversions;
use super::broken_segments::broken_in_segments;
use super::cases::{Cases, Compared};
use super::compare::Compare;
use super::unit::{Functions, Unit};
use super::wire::broken::{
    broken_in_cancels, broken_in_responses_read, broken_in_responses_written,
};
use crate::given::random::Random;

pub type Named<'a> = (&'a str, &'a dyn Unit);

/// One kind of calls on two units.
#[derive(Clone, Copy)]
pub struct Run {
    /// What it adds to the name of a comparison.
    pub of: &'static str,
    /// As many as show that two units agree.
    pub calls: u64,
    /// Makes at least so many calls.
    make: fn(&mut Cases, u64) -> Compared,
    /// Units with one fault each, by name.
    pub broken: fn() -> Vec<(&'static str, Functions)>,
    /// Faults that it finds though both units have them: they break a promise of every call, what
    /// is converted does not run as what it was, or what is read from the wire or written to it is
    /// not what was meant.
    pub found_in_both: &'static [&'static str],
}

impl Run {
    /// How many calls were made, and the first difference if there is one.
    pub fn compared(&self, units: [Named; 2], seed: u64, calls: u64) -> (u64, Compared) {
        let mut cases = Cases { compare: Compare::new(units), random: Random::new(seed) };
        let outcome = (self.make)(&mut cases, calls);
        (cases.compare.calls, outcome)
    }
}

pub const DOCUMENT_01: Run = Run {
    of: "",
    calls: 300_000,
    make: |cases, calls| cases.run(calls),
    broken: broken_units,
    found_in_both: &[
        "an unmatched list is no list",
        "a code matches in every PLMN",
        "the byte behind the answer is zeroed",
        "a refusal clears the answer",
        "a full cell fails the request",
        "a refused reading has its fields",
        "the record's rest is cleared",
    ],
};

pub const SEGMENTS: Run = Run {
    of: ", segments",
    calls: 60_000,
    make: |cases, calls| cases.run_segments(calls),
    broken: broken_in_segments,
    found_in_both: &[
        "a length is little-endian",
        "the neighbour is read",
        "a part lies in the other buffer",
        "the first one is behind a length",
        "a refused part has a place",
        "a packed length is little-endian",
        "the byte behind the list is zeroed",
        "a refusal clears the list",
    ],
};

pub const CONVERSIONS: Run = Run {
    of: ", conversions",
    calls: 60_000,
    make: |cases, calls| cases.run_conversions(calls),
    broken: broken_in_conversions,
    found_in_both: &[
        "a converted text has sent nothing",
        "a converted wait is a second less",
        "a version 2 table is converted too",
        "the old table has the new limit",
        "the byte behind the converted table is zeroed",
        "a refusal clears the table",
        "a broadcast waits a second too few",
        "places close up in the wrong order",
    ],
};

pub const CANCELS: Run = Run {
    of: ", cancels from the wire",
    calls: 250_000,
    make: |cases, calls| cases.run_cancels(calls),
    broken: broken_in_cancels,
    found_in_both: &[
        "the padding of the choice is not judged",
        "a short length in two bytes is read",
        "the first problem is given",
        "an unknown element ends the elements",
        "an item of another kind is skipped",
        "a known element must be marked reject",
        "the record has version 1",
        "the byte behind what was written is zeroed",
        "a refused message clears the buffer",
        "a refused message has its transaction",
    ],
};

/// Written and read. A fault is looked for in one of the two runs below.
pub const RESPONSES: Run = Run {
    of: ", responses on the wire",
    calls: 300_000,
    make: |cases, calls| cases.run_responses(calls),
    broken: Vec::new,
    found_in_both: &[],
};

pub const RESPONSES_READ: Run = Run {
    of: ", responses read",
    calls: 200_000,
    make: |cases, calls| cases.run_responses_read(calls),
    broken: broken_in_responses_read,
    found_in_both: &[
        "the padding of the transaction is not judged",
        "the first problem is given",
        "an item of another kind is skipped",
        "the other response's list is known",
        "diagnostics are known",
        "equal cells are read",
        "every response is to a cancel",
        "a count stands behind the extensions of its item",
        "a start has a count",
        "content stands before the count",
        "an answer that is read has an identifier",
        "the byte behind what was written is zeroed",
        "a refused message clears the buffer",
        "a refused message has its transaction",
    ],
};

pub const RESPONSES_WRITTEN: Run = Run {
    of: ", responses written",
    calls: 100_000,
    make: |cases, calls| cases.run_responses_written(calls),
    broken: broken_in_responses_written,
    found_in_both: &[
        "an answer's version is not judged",
        "rows with equal cells are written",
        "a cell of 2^60 is written",
        "a start's counts are not judged",
        "every length is in two bytes",
        "a list with no rows is written",
        "the count of rows stands as it is",
        "a count is not aligned",
        "content stands before the count in what is written",
        "the byte behind the message is zeroed",
        "a message is begun without room",
        "a message without room has its length",
    ],
};

/// As many calls as that takes.
pub const LARGEST_PERIOD: Run = Run {
    of: ", the largest period",
    calls: 0,
    make: |cases, _| cases.run_largest_period(),
    broken: Vec::new,
    found_in_both: &[],
};
