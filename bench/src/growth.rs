//! How the time grows with cells and with items: one file of points for each, for the plot.

use std::fs::write;
use std::io;
use std::path::Path;
use std::time::Duration;

use crate::comparison::call::Call;
use crate::implementations::{OURS, PEER};
use crate::rounds::times;
use crate::workloads::{full_second, unmatched_cancel, MOST_CELLS};

const LONG: Duration = Duration::from_millis(700);

pub fn save(folder: &Path) -> io::Result<()> {
    write(folder.join("cells.dat"), points("cells", full_second))?;
    write(folder.join("items.dat"), points("items", unmatched_cancel))
}

fn points(what: &str, call: fn(usize) -> Call) -> String {
    let sizes = (0..).map(|power| 1 << power).take_while(|size| *size <= MOST_CELLS);
    let point = |size: usize| {
        let [ours, peer] = times(&call(size), [&OURS, &PEER], LONG);
        format!("{size} {:.1} {:.1}\n", ours.best, peer.best)
    };
    format!("# {what}, ns of ours, ns of peer\n{}", sizes.map(point).collect::<String>())
}
