//! Nothing is timed before all three are seen to leave the same: on seeded inputs, the same that
//! second's tests compare with, and on every workload.

use crate::comparison::cases::Cases;
use crate::comparison::compare::{Compare, Difference};
use crate::given::random::Random;
use crate::implementations::{Implementation, OURS, PEER, SECOND};
use crate::workloads::Workload;

const SEED: u64 = 1;
const CALLS: u64 = 30_000;
/// What lies at a bound alone takes some 13,000.
const CALLS_ON_SEGMENTS: u64 = 20_000;
/// Most of them on tables once they are converted.
const CALLS_ON_CONVERSIONS: u64 = 20_000;
/// Each thing that can be wrong with a message alone takes some 46,000.
const CALLS_ON_CANCELS: u64 = 60_000;
/// And some 105,000 with two of them and the answers that they are written from.
const CALLS_ON_RESPONSES: u64 = 130_000;

/// The calls compared, or the first difference.
pub fn check(workloads: &[Workload]) -> Result<u64, Difference> {
    Ok(pair(&PEER, workloads)? + pair(&SECOND, workloads)?)
}

fn pair(other: &Implementation, workloads: &[Workload]) -> Result<u64, Difference> {
    let compare = Compare::new([(OURS.name, &OURS.unit), (other.name, &other.unit)]);
    let mut cases = Cases { compare, random: Random::new(SEED) };
    cases.run(CALLS)?;
    cases.run_largest_period()?;
    cases.run_segments(cases.compare.calls + CALLS_ON_SEGMENTS)?;
    cases.run_conversions(cases.compare.calls + CALLS_ON_CONVERSIONS)?;
    cases.run_cancels(cases.compare.calls + CALLS_ON_CANCELS)?;
    cases.run_responses(cases.compare.calls + CALLS_ON_RESPONSES)?;
    for workload in workloads {
        cases.compare.call(workload.call.clone())?;
    }
    Ok(cases.compare.calls)
}
