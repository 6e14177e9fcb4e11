//! Instructions of one call, by callgrind: they do not depend on what else the machine does.

use std::env::current_exe;
use std::io;
use std::process::{Command, Stdio};

use crate::batch::Batch;
use crate::implementations::{by_name, Implementation, OURS, PEER, SECOND};
use crate::workloads::Workload;

pub fn is_installed() -> bool {
    let valgrind = Command::new("valgrind").arg("--version").stdout(Stdio::null()).status();
    valgrind.is_ok_and(|status| status.success())
}

/// The mode that runs under callgrind: one call, and nothing else of the same name.
pub fn make_once(
    workloads: &[Workload],
    name: &str,
    size: &str,
    implementation: &str,
) -> Option<()> {
    let workload = workloads.iter().find(|w| w.name == name && w.size.to_string() == size)?;
    Batch::of(&workload.call).once(by_name(implementation)?);
    Some(())
}

/// What callgrind counts between entering and leaving the called function.
fn count(workload: &Workload, implementation: &Implementation) -> io::Result<u64> {
    let entry = format!("--toggle-collect={}_{}", implementation.prefix, workload.call.name());
    let output = Command::new("valgrind")
        .args(["--tool=callgrind", "--callgrind-out-file=/dev/null", &entry])
        .arg(current_exe()?)
        .args(["--count", workload.name, &workload.size.to_string(), implementation.name])
        .output()?;
    let said = String::from_utf8_lossy(&output.stderr).into_owned();
    let collected =
        said.split("Collected : ").nth(1).and_then(|rest| rest.split_whitespace().next());
    let number = collected.and_then(|word| word.parse().ok());
    number.ok_or_else(|| io::Error::other(format!("callgrind counted nothing:\n{said}")))
}

/// A line for each workload at its smallest and largest size; 16 lies between them.
pub fn print(workloads: &[Workload]) -> io::Result<()> {
    println!(
        "\n{:38} {:>5} {:>12} {:>12} {:>12} {:>8} {:>8}",
        "instructions of one call", "size", "ours", "peer", "second", "o/peer", "o/second"
    );
    for workload in workloads.iter().filter(|workload| workload.size != 16) {
        let [ours, peer, second] = [&OURS, &PEER, &SECOND].map(|by| count(workload, by));
        let (ours, peer, second) = (ours?, peer?, second?);
        let (to_peer, to_second) = (ours as f64 / peer as f64, ours as f64 / second as f64);
        println!(
            "{:38} {:5} {ours:12} {peer:12} {second:12} {to_peer:8.3} {to_second:8.3}",
            workload.name, workload.size
        );
    }
    Ok(())
}
