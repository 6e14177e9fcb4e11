//! Times libpws.a against bench/peer.cpp and second/, once all three are seen to agree.
//!
//! bench            everything but the growth
//! bench --quick    the agreement, and a glance at the times, which are not judged
//! bench --compare  the agreement alone, for a machine whose times say nothing
//! bench --growth FOLDER                         points for the plot, into this folder
//! bench --count WORKLOAD SIZE IMPLEMENTATION    one call, for callgrind

mod batch;
// The comparison and its inputs are those of second's tests, which use all of them.
#[allow(dead_code)]
#[path = "../../second/tests/comparison/mod.rs"]
mod comparison;
mod counts;
mod equality;
mod floor;
#[allow(dead_code)]
#[path = "../../second/tests/given/mod.rs"]
mod given;
mod growth;
mod implementations;
mod messages;
mod pin;
mod ratios;
mod report;
mod rounds;
mod second_c;
#[path = "../../second/tests/surface/mod.rs"]
mod surface;
mod tables;
mod workloads;

use std::env;
use std::error::Error;
use std::path::Path;
use std::time::Duration;

use workloads::Workload;

const LONG: Duration = Duration::from_millis(1200);
const GLANCE: Duration = Duration::from_millis(5);

fn main() -> Result<(), Box<dyn Error>> {
    let arguments: Vec<String> = env::args().skip(1).collect();
    let words: Vec<&str> = arguments.iter().map(String::as_str).collect();
    let workloads = workloads::all();
    match words[..] {
        [] => {
            agree(&workloads)?;
            everything(&workloads)?;
        }
        ["--quick"] => {
            agree(&workloads)?;
            ratios::measure(&workloads, GLANCE);
        }
        ["--compare"] => agree(&workloads)?,
        ["--growth", folder] => {
            agree(&workloads)?;
            pin::pin();
            growth::save(Path::new(folder))?;
        }
        ["--count", name, size, implementation] => {
            counts::make_once(&workloads, name, size, implementation).ok_or("no such workload")?;
        }
        _ => return Err("see the first lines of bench/src/main.rs".into()),
    }
    Ok(())
}

fn agree(workloads: &[Workload]) -> Result<(), String> {
    let calls = equality::check(workloads)?;
    println!("ours, peer and second leave the same bytes: {calls} calls compared");
    Ok(())
}

fn everything(workloads: &[Workload]) -> Result<(), Box<dyn Error>> {
    match pin::pin() {
        Some(cpu) => println!("pinned to CPU {cpu}"),
        None => println!("not pinned to a CPU"),
    }
    let measured = ratios::measure(workloads, LONG);
    floor::print(LONG);
    report::print(&env::temp_dir())?;
    if counts::is_installed() {
        counts::print(workloads)?;
    } else {
        println!("\ninstructions: SKIPPED, for valgrind is not installed");
    }
    ratios::judge(&measured);
    Ok(())
}
