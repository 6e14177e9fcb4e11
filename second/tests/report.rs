//! Both report programs on generated inputs, whole and cut at every kind of place. The path of the
//! first implementation's program comes from the environment variable PWS_REPORT.

mod given;
mod programs;
mod run;

use std::env;
use std::time::Duration;

use given::heads::{count, heads};
use given::random::{say, seed, Random};
use given::records::{encoded, in_area, record};
use given::wrong_records::WrongRecords;
use programs::{printed, printed_of_pieces, programs};
use second::request::{IN_CELLS, WRITE_REPLACE};
use second::{Head, Record};

const OWN: &str = env!("CARGO_BIN_EXE_report");
const INPUTS: usize = 40;

/// What the library's report is of an input.
fn reported(input: &[u8]) -> String {
    let mut output = Vec::new();
    second::report(input, &mut output).expect("bytes are read and written");
    String::from_utf8(output).expect("the report is text")
}

fn table_part(heads: &[Head]) -> Vec<u8> {
    let count = (heads.len() as u16).to_be_bytes();
    [&count[..], &heads.iter().flat_map(Head::encode).collect::<Vec<u8>>()].concat()
}

/// The table part of an input and its accepted records, the last of which has items.
fn accepted(random: &mut Random) -> (Vec<u8>, Vec<Vec<u8>>) {
    let count = count(random);
    let heads = heads(random, count);
    let length = if count > 64 { 5 } else { 5 + random.below(60) };
    let mut records: Vec<Record> = (0..length).map(|_| record(random, &heads)).collect();
    records.push(in_area(random, &heads, WRITE_REPLACE, IN_CELLS));
    (table_part(&heads), records.iter().map(|record| encoded(random, record)).collect())
}

/// The bytes of one accepted record.
fn any_record(random: &mut Random, heads: &[Head]) -> Vec<u8> {
    let record = record(random, heads);
    encoded(random, &record)
}

/// Names of places and the lengths that cut an input there: in N, in the heads, behind them, and
/// in each part of the last record.
fn cuts(
    random: &mut Random,
    table: usize,
    last: usize,
    whole: usize,
) -> Vec<(&'static str, usize)> {
    let in_heads = 2 + random.below(table - 2);
    let in_items = last + Record::HEADER + random.below(whole - last - Record::HEADER);
    vec![
        ("before N", 0),
        ("in N", 1),
        ("in the heads", in_heads),
        ("before the heads' last byte", table - 1),
        ("behind the heads", table),
        ("behind a record", last),
        ("in the mark", last + 1 + random.below(4)),
        ("behind the version", last + 5),
        ("in the header", last + 6 + random.below(20)),
        ("behind the header", last + Record::HEADER),
        ("in the items", in_items),
        ("before the last byte", whole - 1),
    ]
}

/// Inputs to compare programs on, with a name for each.
fn inputs(random: &mut Random) -> Vec<(String, Vec<u8>)> {
    let mut inputs = Vec::new();
    for _ in 0..INPUTS {
        let (table, records) = accepted(random);
        let whole = [&table[..], &records.concat()].concat();
        let last = whole.len() - records[records.len() - 1].len();
        for (name, length) in cuts(random, table.len(), last, whole.len()) {
            inputs.push((format!("cut {name}"), whole[..length].to_vec()));
        }
        let mut changed = whole.clone();
        for _ in 0..3 {
            let offset = random.below(changed.len());
            changed[offset] = random.other(changed[offset]);
        }
        inputs.push(("three bytes changed".into(), changed));
        let length = random.below(200);
        let any = [&table[..], &random.bytes(length)].concat();
        inputs.push(("any bytes behind the heads".into(), any));
        inputs.push(("whole".into(), whole));
    }
    inputs.extend(refused_inputs(random));
    inputs
}

/// Inputs with a wrong N, and with each named breakage of a record between two accepted ones.
fn refused_inputs(random: &mut Random) -> Vec<(String, Vec<u8>)> {
    let heads = heads(random, 3);
    let mut inputs = Vec::new();
    for count in [0, 1, 2, 4, 512, 513, 65_535] {
        let mut table = table_part(&heads);
        table[..2].copy_from_slice(&u16::to_be_bytes(count));
        inputs.push((format!("N {count} with three heads"), table));
    }
    for wrong in WrongRecords::all(random, &heads) {
        let [before, behind] = [0; 2].map(|_| any_record(random, &heads));
        let input = [table_part(&heads), before, wrong.bytes, behind].concat();
        inputs.push((format!("{} (alone: {})", wrong.name, wrong.number), input));
    }
    inputs
}

/// An input of about a megabyte, far beyond what a pipe holds.
fn long_input(random: &mut Random) -> Vec<u8> {
    let heads = heads(random, 8);
    let mut input = table_part(&heads);
    while input.len() < 1 << 20 {
        input.extend(any_record(random, &heads));
    }
    input
}

#[test]
fn the_program_prints_what_the_library_reports() {
    let mut random = Random::new(seed("report"));
    for (name, input) in inputs(&mut random).into_iter().step_by(7) {
        assert_eq!(printed(OWN, &input), reported(&input), "{name}");
    }
    let input = long_input(&mut random);
    assert_eq!(printed(OWN, &input), reported(&input), "long");
}

#[test]
fn a_cut_prints_what_document_01_says() {
    let mut random = Random::new(seed("report, cuts"));
    for _ in 0..INPUTS {
        let (table, records) = accepted(&mut random);
        let whole = [&table[..], &records.concat()].concat();
        let last = whole.len() - records[records.len() - 1].len();
        let before = reported(&whole[..last]);
        for (name, length) in cuts(&mut random, table.len(), last, whole.len()) {
            let expected = match length {
                _ if length < table.len() => "no 9\n".into(),
                _ if length == table.len() => String::new(),
                _ if length == last => before.clone(),
                _ if length < last + Record::HEADER => format!("{before}no 3\n"),
                _ => format!("{before}no 4\n"),
            };
            assert_eq!(reported(&whole[..length]), expected, "cut {name}");
        }
    }
}

#[test]
fn pieces_of_input_do_not_matter() {
    let mut random = Random::new(seed("report, pieces"));
    let (table, records) = accepted(&mut random);
    let input = [&table[..], &records.concat()].concat();
    let input = &input[..input.len().min(4000)];
    let pause = Duration::from_micros(20);
    for program in programs() {
        for length in [1, 25, 26, 27, 1000] {
            let printed = printed_of_pieces(&program, input, length, pause);
            assert_eq!(printed, reported(input), "{program}, pieces of {length}");
        }
    }
}

#[test]
fn both_programs_print_the_same() {
    let Ok(other) = env::var("PWS_REPORT") else {
        return say("the first report program: SKIPPED, for PWS_REPORT is not set");
    };
    let mut random = Random::new(seed("both report programs"));
    let mut inputs = inputs(&mut random);
    inputs.push(("long".into(), long_input(&mut random)));
    for (name, input) in &inputs {
        let (own, theirs) = (printed(OWN, input), printed(&other, input));
        let hex: String = input.iter().map(|byte| format!("{byte:02x}")).collect();
        assert!(own == theirs, "{name}:\n{hex}\nsecond:\n{own}\n{other}:\n{theirs}");
    }
    say(&format!("both report programs: {} inputs compared", inputs.len()));
}
