//! The examples, each a script beside what the program reports of it. Where the report has a line
//! many times in a row, what is kept has it once and says how many times.

mod programs;
mod run;

use std::fs;
use std::path::{Path, PathBuf};
use std::process::Command;
use std::time::Duration;

use programs::{printed, programs};
use run::run;

fn examples() -> PathBuf {
    Path::new(env!("CARGO_MANIFEST_DIR")).join("../examples")
}

/// The outcome of `script < path | report`.
fn reported(path: &Path, program: &str) -> String {
    let text = fs::read(path).unwrap();
    let mut command = Command::new(env!("CARGO_BIN_EXE_script"));
    let script = run(&mut command, &text, text.len(), Duration::ZERO);
    assert!(script.status.success(), "{}: {script:?}", path.display());
    printed(program, &script.stdout)
}

/// A report as it is kept, so that hours without a broadcast are short to read.
fn folded(report: &str) -> String {
    let lines: Vec<&str> = report.lines().collect();
    let told = |run: &[&str]| match run.len() {
        1 => format!("{}\n", run[0]),
        times => format!("{} ({times} times)\n", run[0]),
    };
    lines.chunk_by(|line, next| line == next).map(told).collect()
}

#[test]
fn each_example_is_reported_as_kept() {
    let mut names = Vec::new();
    for entry in fs::read_dir(examples()).unwrap() {
        let path = entry.unwrap().path();
        if path.extension().is_some_and(|extension| extension == "txt") {
            let kept = fs::read_to_string(path.with_extension("out")).unwrap();
            for program in programs() {
                let reported = folded(&reported(&path, &program));
                assert_eq!(reported, kept, "{program}: {}", path.display());
            }
            names.push(path.file_stem().unwrap().to_string_lossy().into_owned());
        }
    }
    names.sort();
    let stories = [
        "cancel-first",
        "earthquake",
        "example",
        "from-the-wire",
        "merged-queues",
        "one-yard",
        "quarry",
        "zero-rules",
    ];
    assert_eq!(names, stories);
}
