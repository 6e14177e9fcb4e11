//! Rounds of one workload: in each round every implementation makes the same batch, in turn, so that what
//! else the machine does falls on all alike.

use std::time::{Duration, Instant};

use crate::batch::Batch;
use crate::comparison::call::Call;
use crate::implementations::Implementation;

/// Rounds that only warm caches and branch tables.
const WARMING: usize = 3;
const FEWEST: usize = 15;

/// Nanoseconds of one call.
#[derive(Clone, Copy)]
pub struct Times {
    pub best: f64,
    pub median: f64,
}

impl Times {
    pub fn of(mut rounds: Vec<f64>) -> Times {
        rounds.sort_by(f64::total_cmp);
        Times { best: rounds[0], median: rounds[rounds.len() / 2] }
    }
}

/// The times of each implementation, in rounds that take so long together.
pub fn times<const COUNT: usize>(
    call: &Call,
    implementations: [&Implementation; COUNT],
    long: Duration,
) -> [Times; COUNT] {
    let mut batch = Batch::of(call);
    let mut rounds = [(); COUNT].map(|()| Vec::new());
    let begin = Instant::now();
    for round in 0.. {
        if round >= WARMING + FEWEST && begin.elapsed() > long {
            break;
        }
        for turn in 0..COUNT {
            // Who comes first changes from round to round.
            let which = (round + turn) % COUNT;
            let time = batch.time(implementations[which]);
            if round >= WARMING {
                rounds[which].push(time);
            }
        }
    }
    rounds.map(Times::of)
}
