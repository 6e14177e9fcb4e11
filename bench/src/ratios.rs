//! The table of times and ratios, and whether the bars are met.

use std::time::Duration;

use crate::implementations::{OURS, PEER, SECOND};
use crate::rounds::{times, Times};
use crate::workloads::Workload;

/// No workload above this against the peer.
const WORST_TO_PEER: f64 = 1.08;
/// Geometric means, at most.
const MEAN_TO_PEER: f64 = 0.97;
const MEAN_TO_SECOND: f64 = 0.60;

pub struct Measured<'a> {
    workload: &'a Workload,
    ours: Times,
    peer: Times,
    second: Times,
}

impl Measured<'_> {
    fn to_peer(&self) -> f64 {
        self.ours.best / self.peer.best
    }

    fn to_second(&self) -> f64 {
        self.ours.best / self.second.best
    }
}

/// Times every workload, each for so long, and prints its line.
pub fn measure(workloads: &[Workload], long: Duration) -> Vec<Measured<'_>> {
    println!(
        "\n{:38} {:>5} {:>11} {:>11} {:>11}   {:>6} {:>6}   {:>6} {:>6}",
        "best ns of one call; ours divided by",
        "size",
        "ours",
        "peer",
        "second",
        "peer",
        "median",
        "second",
        "median",
    );
    let line = |workload| {
        let measured = measure_one(workload, long);
        print_line(&measured);
        measured
    };
    workloads.iter().map(line).collect()
}

fn measure_one(workload: &Workload, long: Duration) -> Measured<'_> {
    let [ours, peer, second] = times(&workload.call, [&OURS, &PEER, &SECOND], long);
    Measured { workload, ours, peer, second }
}

fn print_line(measured: &Measured) {
    let Measured { workload, ours, peer, second } = measured;
    println!(
        "{:38} {:5} {:11.1} {:11.1} {:11.1}   {:6.3} {:6.3}   {:6.3} {:6.3}",
        workload.name,
        workload.size,
        ours.best,
        peer.best,
        second.best,
        measured.to_peer(),
        ours.median / peer.median,
        measured.to_second(),
        ours.median / second.median,
    );
}

fn geometric_mean(ratios: impl Iterator<Item = f64> + Clone) -> f64 {
    let count = ratios.clone().count() as f64;
    (ratios.map(f64::ln).sum::<f64>() / count).exp()
}

/// The means, and as the last line the bars that are not met.
pub fn judge(all: &[Measured]) {
    let to_peer = geometric_mean(all.iter().map(Measured::to_peer));
    let to_second = geometric_mean(all.iter().map(Measured::to_second));
    println!("\ngeometric mean of the best: to peer {to_peer:.3} (bar {MEAN_TO_PEER}), to second {to_second:.3} (bar {MEAN_TO_SECOND})");
    let mut missed: Vec<String> = all
        .iter()
        .filter(|measured| measured.to_peer() > WORST_TO_PEER)
        .map(|m| format!("{} ({}): {:.3}", m.workload.name, m.workload.size, m.to_peer()))
        .collect();
    if to_peer > MEAN_TO_PEER {
        missed.push(format!("mean to peer: {to_peer:.3}"));
    }
    if to_second > MEAN_TO_SECOND {
        missed.push(format!("mean to second: {to_second:.3}"));
    }
    match missed[..] {
        [] => println!("bars met"),
        _ => println!("bars not met, {}: {}", missed.len(), missed.join("; ")),
    }
}
