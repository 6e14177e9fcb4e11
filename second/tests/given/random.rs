//! Numbers from a seed, so that a run can be had again.

use std::env;
use std::io::{stderr, Write};
use std::time::{SystemTime, UNIX_EPOCH};

/// splitmix64.
pub struct Random {
    state: u64,
}

impl Random {
    pub fn new(seed: u64) -> Random {
        Random { state: seed }
    }

    pub fn number(&mut self) -> u64 {
        self.state = self.state.wrapping_add(0x9e37_79b9_7f4a_7c15);
        let mixed = (self.state ^ (self.state >> 30)).wrapping_mul(0xbf58_476d_1ce4_e5b9);
        let mixed = (mixed ^ (mixed >> 27)).wrapping_mul(0x94d0_49bb_1331_11eb);
        mixed ^ (mixed >> 31)
    }

    /// 0 to bound - 1.
    pub fn below(&mut self, bound: usize) -> usize {
        (self.number() % bound as u64) as usize
    }

    pub fn one_in(&mut self, bound: usize) -> bool {
        self.below(bound) == 0
    }

    pub fn pick<T: Copy>(&mut self, from: &[T]) -> T {
        from[self.below(from.len())]
    }

    /// Mostly one of the given numbers, else any below 2^width.
    pub fn pick_or_any(&mut self, from: &[u64], width: u32) -> u64 {
        if self.one_in(4) {
            self.number() >> (u64::BITS - width)
        } else {
            self.pick(from)
        }
    }

    pub fn bytes(&mut self, length: usize) -> Vec<u8> {
        let mut bytes = Vec::with_capacity(length + 8);
        while bytes.len() < length {
            bytes.extend(self.number().to_be_bytes());
        }
        bytes.truncate(length);
        bytes
    }

    /// Another value for a byte.
    pub fn other(&mut self, byte: u8) -> u8 {
        byte ^ (1 + self.below(255)) as u8
    }
}

/// The seed of the environment variable SEED, else one from the clock; printed, past the capture
/// of a test's output, so that every run can be had again.
pub fn seed(test: &str) -> u64 {
    let clock =
        || SystemTime::now().duration_since(UNIX_EPOCH).map_or(0, |now| now.as_nanos() as u64);
    let seed = match env::var("SEED") {
        Ok(seed) => seed.parse().expect("SEED is a decimal number"),
        Err(_) => clock(),
    };
    say(&format!("{test}: SEED={seed}"));
    seed
}

/// Prints past the capture of a test's output.
pub fn say(line: &str) {
    // One write, so that lines of tests that run at once don't mix.
    stderr().write_all(format!("{line}\n").as_bytes()).expect("standard error is open");
}
