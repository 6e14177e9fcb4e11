//! The floor: a plain read of a table's bytes, beside a second over the same table. Judging alone
//! has to read every byte, so nothing that judges can be faster.

use std::hint::black_box;
use std::time::{Duration, Instant};

use crate::batch::Batch;
use crate::comparison::call::Call;
use crate::implementations::{floor, OURS};
use crate::rounds::Times;
use crate::workloads::{full_second, MOST_CELLS};

/// Reads in a row, for the clock's own time not to count.
const READS: usize = 8;

fn time_floor(bytes: &[u8]) -> f64 {
    let begin = Instant::now();
    for _ in 0..READS {
        black_box(floor(black_box(bytes)));
    }
    begin.elapsed().as_nanos() as f64 / READS as f64
}

pub fn print(long: Duration) {
    let call = full_second(MOST_CELLS);
    let Call::Apply { table, .. } = &call else { return };
    let mut batch = Batch::of(&call);
    let (mut reads, mut seconds) = (Vec::new(), Vec::new());
    let begin = Instant::now();
    while begin.elapsed() < long {
        reads.push(time_floor(table));
        seconds.push(batch.time(&OURS));
    }
    let (read, second) = (Times::of(reads), Times::of(seconds));
    let (length, ns, times) = (table.len(), read.best, second.best / read.best);
    let (median_ns, median_times) = (read.median, second.median / read.median);
    println!("\nfloor: {length} bytes read once in {ns:.0} ns (median {median_ns:.0})");
    print!("a second over {MOST_CELLS} full cells, none due, takes {times:.1} times that ");
    println!("(median {median_times:.1})");
}
