//! A workload's call made many times in a row, on buffers that are the same for all.
//!
//! Applying changes its table. So a batch has as many copies of the table as calls, all restored
//! before the batch and outside of the time taken; that leaves them warm, and the same for all.

use std::hint::black_box;
use std::time::Instant;

use crate::comparison::call::Call;
use crate::comparison::unit::Unit;
use crate::implementations::Implementation;

/// The bytes that the calls of a batch go over together, or one table where that is more: few
/// enough for a cache close to the core, enough for the clock's own time not to count.
const BYTES: usize = 32 * 1024;
const MOST_CALLS: usize = 512;
/// Each copy of a table starts at such a multiple, so that all lie alike.
const LINE: usize = 64;

pub struct Batch {
    calls: usize,
    stride: usize,
    /// Copies of the table; unused by calls without one.
    tables: Lined,
    saved: Vec<u8>,
    /// What is written: an answer, a table, a record, a list or a message.
    out: Vec<u8>,
    call: Call,
}

/// Bytes from the start of a cache line on.
struct Lined {
    bytes: Vec<u8>,
    start: usize,
}

impl Lined {
    fn of(length: usize) -> Lined {
        let bytes = vec![0; length + LINE];
        let start = bytes.as_ptr().align_offset(LINE);
        Lined { bytes, start }
    }

    fn bytes(&mut self, length: usize) -> &mut [u8] {
        &mut self.bytes[self.start..self.start + length]
    }
}

impl Batch {
    pub fn of(call: &Call) -> Batch {
        let written = call.written().pop();
        let out = written.map_or(Vec::new(), |(_, buffer)| buffer.to_vec());
        let (table, bytes) = match call {
            Call::Apply { table, .. } => (table.clone(), table.len()),
            Call::Read { record } | Call::Item { record, .. } => (vec![], record.len()),
            Call::Segment { more, .. } => (vec![], more.len()),
            Call::ReadCancel { message, .. } | Call::ReadResponse { message, .. } => {
                (vec![], message.len())
            }
            _ => (vec![], out.len()),
        };
        let calls = (BYTES / bytes).clamp(1, MOST_CALLS);
        let stride = table.len().next_multiple_of(LINE);
        let mut saved = vec![0; stride * calls];
        for copy in saved.chunks_mut(stride.max(1)) {
            copy[..table.len()].copy_from_slice(&table);
        }
        let tables = Lined::of(saved.len());
        Batch { calls, stride, tables, saved, out, call: call.clone() }
    }

    /// Nanoseconds of one call.
    pub fn time(&mut self, implementation: &Implementation) -> f64 {
        self.restore();
        let begin = Instant::now();
        self.make(black_box(implementation), self.calls);
        begin.elapsed().as_nanos() as f64 / self.calls as f64
    }

    /// One call alone, for its instructions to be counted.
    pub fn once(&mut self, implementation: &Implementation) {
        self.restore();
        self.make(implementation, 1);
    }

    fn restore(&mut self) {
        self.tables.bytes(self.saved.len()).copy_from_slice(&self.saved);
    }

    fn make(&mut self, implementation: &Implementation, calls: usize) {
        let (unit, out) = (&implementation.unit, &mut self.out[..]);
        match &self.call {
            Call::Apply { table, record, .. } => {
                let length = table.len();
                let copies = self.tables.bytes(self.stride * calls).chunks_mut(self.stride);
                copies.for_each(|copy| kept(unit.apply(&mut copy[..length], record, out)));
            }
            Call::Build { heads, .. } => repeat(calls, || unit.build(heads, out)),
            Call::Convert { old, .. } => repeat(calls, || unit.convert(old, out)),
            Call::Read { record } => repeat(calls, || unit.read(record)),
            Call::Write { request, items, .. } => {
                repeat(calls, || unit.write(*request, items, out))
            }
            Call::Item { record, k } => repeat(calls, || unit.item(record, *k)),
            Call::Segment { first, more, k } => repeat(calls, || unit.segment(first, more, *k)),
            Call::Pack { bytes, lengths, .. } => repeat(calls, || unit.pack(bytes, lengths, out)),
            Call::ReadCancel { message, .. } => repeat(calls, || unit.read_cancel(message, out)),
            Call::WriteResponse { answer, transaction, .. } => {
                repeat(calls, || unit.write_response(answer, *transaction, out))
            }
            Call::ReadResponse { message, .. } => {
                repeat(calls, || unit.read_response(message, out))
            }
        }
    }
}

fn repeat<T>(calls: usize, mut call: impl FnMut() -> T) {
    (0..calls).for_each(|_| kept(call()));
}

/// What is returned is not left out of the call.
fn kept<T>(returned: T) {
    black_box(returned);
}
