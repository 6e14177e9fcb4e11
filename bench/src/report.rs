//! The report program as a whole process, ours from PWS_REPORT against second's, on two inputs of
//! 2 MB. The peer has no program.

use std::env;
use std::fs::{self, File};
use std::io;
use std::path::{Path, PathBuf};
use std::process::{Command, Stdio};
use std::time::Instant;

use crate::rounds::Times;
use crate::tables::{heads, identity, SERIAL};
use crate::workloads::{bare, cancel_in, start};
use second::request::{CONCURRENT, IN_CELLS, SECOND};

const BYTES: usize = 2_000_000;
const CELLS: usize = 16;
const ROUNDS: usize = 8;

/// Four texts that run all the time, then seconds.
fn seconds() -> Vec<u8> {
    let mut input = begun();
    (0..4).for_each(|text| input.extend(start(CONCURRENT, SERIAL + text).encode()));
    let second = bare(SECOND).encode();
    while input.len() < BYTES {
        input.extend(&second);
    }
    input
}

/// Starts in all cells, each followed by a cancel of the same text in three of them.
fn starts_and_cancels() -> Vec<u8> {
    let mut input = begun();
    let cancel = cancel_in(IN_CELLS, [3, 7, 11].map(identity).to_vec()).encode();
    for text in (0..4).cycle() {
        if input.len() >= BYTES {
            break;
        }
        input.extend(start(CONCURRENT, SERIAL + text).encode());
        input.extend(&cancel);
    }
    input
}

fn begun() -> Vec<u8> {
    [&(CELLS as u16).to_be_bytes()[..], &heads(CELLS)].concat()
}

fn run(program: &Path, input: &Path, output: Stdio) -> io::Result<Vec<u8>> {
    let ran = Command::new(program).stdin(File::open(input)?).stdout(output).output()?;
    match ran.status.success() {
        true => Ok(ran.stdout),
        false => Err(io::Error::other(format!("{} failed", program.display()))),
    }
}

fn milliseconds(program: &Path, input: &Path) -> io::Result<f64> {
    let begin = Instant::now();
    run(program, input, Stdio::null())?;
    Ok(begin.elapsed().as_secs_f64() * 1000.0)
}

fn compare(name: &str, input: &Path, ours: &Path, second: &Path) -> io::Result<()> {
    if run(ours, input, Stdio::piped())? != run(second, input, Stdio::piped())? {
        return Err(io::Error::other(format!("the reports differ on {name}")));
    }
    let (mut our_rounds, mut second_rounds) = (Vec::new(), Vec::new());
    for _ in 0..ROUNDS {
        our_rounds.push(milliseconds(ours, input)?);
        second_rounds.push(milliseconds(second, input)?);
    }
    let (our, theirs) = (Times::of(our_rounds), Times::of(second_rounds));
    let (best, median) = (our.best / theirs.best, our.median / theirs.median);
    println!("report, 2 MB of {name}: ours {:.1} ms, second {:.1} ms, ratio {best:.3} (median {median:.3})", our.best, theirs.best);
    Ok(())
}

/// Both inputs, with our program from PWS_REPORT and second's from SECOND_REPORT.
pub fn print(folder: &Path) -> io::Result<()> {
    let Some(ours) = env::var_os("PWS_REPORT").filter(|path| !path.is_empty()) else {
        println!("\nreport: SKIPPED, for PWS_REPORT names no program");
        return Ok(());
    };
    let second = env::var_os("SECOND_REPORT");
    let second = second.ok_or_else(|| io::Error::other("SECOND_REPORT names no program"))?;
    let (ours, second) = (PathBuf::from(ours), PathBuf::from(second));
    println!();
    for (name, bytes) in [("seconds", seconds()), ("starts and cancels", starts_and_cancels())] {
        let input = folder.join("report.in");
        fs::write(&input, bytes)?;
        compare(name, &input, &ours, &second)?;
    }
    Ok(())
}
