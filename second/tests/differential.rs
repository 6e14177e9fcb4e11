//! The second implementation against the first one behind its C surface, call by call; and the
//! comparison against itself, so that it is known to find what it should.
//!
//! SEED has a run again. REPLAY names a file that holds a difference as printed, and makes its call
//! again. TRACE names a file that always holds the last call, for a unit that ends the process.

mod comparison;
mod given;
#[cfg(pws)]
mod pws;
#[cfg(pws)]
mod surface;

use comparison::call::Call;
use comparison::compare::Difference;
use comparison::reorder::{reorder, Reordered};
use comparison::runs::*;
use comparison::unit::{Functions, Unit, SOUND};
use comparison::wire::broken::FAULTLESS;
use given::random::{say, seed, Random};

/// A single fault must show within so many calls.
const CALLS_TO_FIND_A_FAULT: u64 = 30_000;
const SEQUENCES: usize = 2_000;

fn keeps_demand_3(unit: &dyn Unit, seed: u64) -> Result<Reordered, Difference> {
    let mut random = Random::new(seed);
    let mut sum = Reordered::default();
    for _ in 0..SEQUENCES {
        let one = reorder(unit, &mut random)?;
        sum = Reordered { calls: sum.calls + one.calls, moved: sum.moved + one.moved };
    }
    Ok(sum)
}

fn assert_agrees(name: &str, run: Run, unit: &dyn Unit) {
    let name = &format!("{name}{}", run.of);
    let seed = seed(name);
    let (calls, outcome) = run.compared([("second", &SOUND), (name, unit)], seed, run.calls);
    say(&format!("{name}: {calls} calls compared"));
    if let Err(difference) = outcome {
        panic!("{difference}");
    }
}

fn assert_keeps_demand_3(name: &str, unit: &dyn Unit) {
    let outcome = keeps_demand_3(unit, seed(&format!("{name}, demand 3")));
    let Reordered { calls, moved } = outcome.unwrap_or_else(|difference| panic!("{difference}"));
    say(&format!("{name}, demand 3: {calls} calls, {moved} orders other than the given one"));
    assert!(moved > SEQUENCES, "too few orders were tried");
}

#[test]
fn second_agrees_with_itself() {
    assert_agrees("second", DOCUMENT_01, &SOUND);
}

#[test]
fn segments_of_second_agree_with_itself() {
    assert_agrees("second", SEGMENTS, &SOUND);
}

#[test]
fn conversions_of_second_agree_with_itself() {
    assert_agrees("second", CONVERSIONS, &SOUND);
}

#[test]
fn cancels_from_the_wire_of_second_agree_with_itself() {
    assert_agrees("second", CANCELS, &SOUND);
}

#[test]
fn responses_on_the_wire_of_second_agree_with_itself() {
    assert_agrees("second", RESPONSES, &SOUND);
}

#[test]
fn the_largest_period_is_the_same_in_second() {
    assert_agrees("second", LARGEST_PERIOD, &SOUND);
}

#[test]
fn second_keeps_demand_3() {
    assert_keeps_demand_3("second", &SOUND);
}

#[cfg(pws)]
#[test]
fn the_c_library_agrees_with_second() {
    assert_agrees("libpws.a", DOCUMENT_01, &pws::library());
}

#[cfg(pws)]
#[test]
fn segments_of_the_c_library_agree_with_second() {
    assert_agrees("libpws.a", SEGMENTS, &pws::library());
}

#[cfg(pws)]
#[test]
fn conversions_of_the_c_library_agree_with_second() {
    assert_agrees("libpws.a", CONVERSIONS, &pws::library());
}

#[cfg(pws)]
#[test]
fn cancels_from_the_wire_of_the_c_library_agree_with_second() {
    assert_agrees("libpws.a", CANCELS, &pws::library());
}

#[cfg(pws)]
#[test]
fn responses_on_the_wire_of_the_c_library_agree_with_second() {
    assert_agrees("libpws.a", RESPONSES, &pws::library());
}

#[cfg(pws)]
#[test]
fn the_largest_period_is_the_same_in_the_c_library() {
    assert_agrees("libpws.a", LARGEST_PERIOD, &pws::library());
}

#[cfg(pws)]
#[test]
fn the_c_library_keeps_demand_3() {
    assert_keeps_demand_3("libpws.a", &pws::library());
}

#[cfg(not(pws))]
#[test]
fn the_c_library_is_skipped() {
    say("libpws.a: SKIPPED, for PWS_LIB_DIR names no folder with a libpws.a");
}

fn assert_each_is_found(run: Run) {
    let seed = seed(&format!("faults{}", run.of));
    for (name, unit) in (run.broken)() {
        let units: [Named; 2] = [("second", &SOUND), (name, &unit)];
        let (calls, outcome) = run.compared(units, seed, CALLS_TO_FIND_A_FAULT);
        assert!(outcome.is_err(), "{name}: not found within {calls} calls");
        println!("{name}: found by call {calls}");
    }
}

#[test]
fn each_single_fault_is_found() {
    assert_each_is_found(DOCUMENT_01);
}

#[test]
fn each_single_fault_in_segments_is_found() {
    assert_each_is_found(SEGMENTS);
}

#[test]
fn each_single_fault_in_conversions_is_found() {
    assert_each_is_found(CONVERSIONS);
}

/// So that what is found of the readers and the writer with faults is their fault.
#[test]
fn without_a_fault_the_reader_of_cancels_agrees() {
    assert_agrees("the reader without a fault", CANCELS, &FAULTLESS);
}

#[test]
fn without_a_fault_the_reader_and_the_writer_of_responses_agree() {
    assert_agrees("the reader and the writer without a fault", RESPONSES, &FAULTLESS);
}

#[test]
fn each_single_fault_in_cancels_from_the_wire_is_found() {
    assert_each_is_found(CANCELS);
}

#[test]
fn each_single_fault_in_responses_on_the_wire_is_found() {
    assert_each_is_found(RESPONSES_WRITTEN);
    assert_each_is_found(RESPONSES_READ);
}

/// The unit with a fault of this run's, or with one of document 01's.
fn broken_unit(run: Run, fault: &str) -> Functions {
    let mut units = (run.broken)().into_iter().chain((DOCUMENT_01.broken)());
    units.find(|(name, _)| *name == fault).expect("the fault is listed").1
}

#[test]
fn a_broken_promise_is_found_where_both_units_break_it() {
    let seed = seed("promises");
    let runs = [DOCUMENT_01, SEGMENTS, CONVERSIONS, CANCELS, RESPONSES_WRITTEN, RESPONSES_READ];
    for run in runs {
        for fault in run.found_in_both {
            let unit = broken_unit(run, fault);
            let units: [Named; 2] = [(fault, &unit), (fault, &unit)];
            let (_, outcome) = run.compared(units, seed, CALLS_TO_FIND_A_FAULT);
            assert!(outcome.is_err(), "{fault}: not found");
        }
    }
}

#[test]
fn faults_of_reach_break_demand_3() {
    let seed = seed("faults, demand 3");
    for fault in ["an unmatched list is no list", "a code matches in every PLMN"] {
        let unit = broken_unit(DOCUMENT_01, fault);
        assert!(keeps_demand_3(&unit, seed).is_err(), "{fault}: not found");
    }
}

/// Makes the call in the file that REPLAY names, on each unit there is.
#[test]
fn replay() {
    let Ok(path) = std::env::var("REPLAY") else { return };
    let text = std::fs::read_to_string(path).expect("REPLAY names a file");
    let call = text.lines().find_map(Call::parse).expect("the file has a call's text in a line");
    say(&format!("second: {}", call.made_by(&SOUND)));
    #[cfg(pws)]
    say(&format!("libpws.a: {}", call.made_by(&pws::library())));
}
