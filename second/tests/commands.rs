//! The own programs, broadcast report and script, as commands of a shell: what they tell where
//! something is wrong, and what they end with.

mod run;

use std::env;
use std::process::{Command, Output};
use std::time::Duration;

use run::run;
use second::text::GRAMMAR;

const REPORT: &str = env!("CARGO_BIN_EXE_report");
const SCRIPT: &str = env!("CARGO_BIN_EXE_script");
const CELL: &str = "cell 00f110000000010 code 1\n";

/// How a line of shell ends in which `$0` is the program.
fn shell(line: &str, program: &str, input: &[u8]) -> Output {
    let mut command = Command::new("sh");
    run(command.args(["-c", line, program]), input, input.len().max(1), Duration::ZERO)
}

/// What is told on standard error by a line of shell that fails and prints nothing.
fn told(line: &str, program: &str, input: &[u8]) -> String {
    let Output { status, stdout, stderr } = shell(line, program, input);
    assert_eq!(status.code(), Some(1), "{program}: {line}");
    assert_eq!(stdout, b"", "{program}: {line}");
    String::from_utf8(stderr).expect("text is told")
}

/// What script makes of a text.
fn input_of(text: &str) -> Vec<u8> {
    let Output { status, stdout, stderr } = shell("\"$0\"", SCRIPT, text.as_bytes());
    assert_eq!((status.code(), &stderr[..]), (Some(0), &b""[..]), "{text}");
    stdout
}

/// Each program, an input of which it makes an output, and one of which it makes more than a pipe
/// holds.
fn programs() -> [(&'static str, Vec<u8>, Vec<u8>); 2] {
    let long = format!("{CELL}seconds 65535\n");
    [
        (REPORT, input_of(&format!("{CELL}second\n")), input_of(&long)),
        (SCRIPT, CELL.into(), long.into()),
    ]
}

#[test]
fn an_input_that_cannot_be_read_is_told() {
    for (program, ..) in programs() {
        let sentence = "The input cannot be read: Is a directory (os error 21).\n";
        assert_eq!(told("\"$0\" < /", program, b""), sentence, "{program}");
    }
}

#[test]
fn an_output_that_cannot_be_written_is_told() {
    for (program, short, long) in programs() {
        let sentence = "The output cannot be written: No space left on device (os error 28).\n";
        for input in [short, long] {
            assert_eq!(told("\"$0\" > /dev/full", program, &input), sentence, "{program}");
        }
        let nobody = shell("\"$0\" < / 2> /dev/full", program, b"");
        assert_eq!(nobody.status.code(), Some(1), "{program}");
    }
}

/// The first implementation's program ends with status 0 all the same: it says so on standard error.
#[test]
fn the_first_program_tells_what_cannot_be_read_or_written() {
    let Ok(first) = env::var("PWS_REPORT") else {
        return println!("the first report program: SKIPPED, for PWS_REPORT is not set");
    };
    let input = input_of(&format!("{CELL}second\n"));
    for (line, sentence) in [
        ("\"$0\" < /", "report: standard input cannot be read\n"),
        ("\"$0\" > /dev/full", "report: standard output cannot be written\n"),
    ] {
        let told = String::from_utf8(shell(line, &first, &input).stderr).unwrap();
        assert_eq!(told, sentence, "{first}: {line}");
    }
}

#[test]
fn a_closed_pipe_ends_a_program_quietly() {
    let line = "{ \"$0\"; echo $? >&2; } | head -c 1 > /dev/null";
    for (program, _, long) in programs() {
        let told = String::from_utf8(shell(line, program, &long).stderr).unwrap();
        assert_eq!(told, "1\n", "{program}");
    }
}

#[test]
fn a_wrong_line_is_told_and_what_was_written_ends_before_it() {
    let right = format!("{CELL}second\n");
    let Output { status, stdout, stderr } =
        shell("\"$0\"", SCRIPT, format!("{right}seconds 0\nsecond\n").as_bytes());
    assert_eq!(status.code(), Some(1));
    assert_eq!(stdout, input_of(&right));
    let told = "line 3: The number of seconds must be 1 to 65535, unlike `0`.\n    \
        seconds 0\n\
        What was written ends before this line.\n";
    assert_eq!(String::from_utf8(stderr).unwrap(), told);
}

#[test]
fn help_is_the_grammar_and_reads_nothing() {
    for line in ["\"$0\" --help < /", "\"$0\" -h < /"] {
        let Output { status, stdout, stderr } = shell(line, SCRIPT, b"");
        assert_eq!((status.code(), &stderr[..]), (Some(0), &b""[..]), "{line}");
        assert_eq!(String::from_utf8(stdout).unwrap(), GRAMMAR, "{line}");
    }
    let full = "The output cannot be written: No space left on device (os error 28).\n";
    assert_eq!(told("\"$0\" --help > /dev/full", SCRIPT, b""), full);
}

#[test]
fn other_arguments_are_refused_and_nothing_is_read() {
    let sentence = "The only argument is --help or -h, alone. A script comes on standard input.\n";
    for arguments in ["story.txt", "-", "--", "''", "--help story.txt", "-h -h", "--helpless"] {
        let line = format!("\"$0\" {arguments} < /");
        assert_eq!(told(&line, SCRIPT, b""), sentence, "{arguments}");
    }
}

#[test]
fn a_terminal_sees_no_control_bytes() {
    let escapes = b"cancel \x1b[2J\xc2\x9b2J/\x07 all";
    let sentence = r"The message identifier must be 0 to 65535, unlike `\x1b[2J\xc2\x9b2J`.";
    let line = r"cancel \x1b[2J\xc2\x9b2J/\x07 all";
    let end = "What was written ends before this line.";
    let expected = format!("line 1: {sentence}\n    {line}\n{end}\n");
    assert_eq!(told("\"$0\"", SCRIPT, escapes), expected);
    let no_text = r"line 1: This is not UTF-8 text.";
    let long = [&b"second #"[..], &[0xff; 9999]].concat();
    let cut = format!("{no_text}\n    second #{}..\n{end}\n", r"\xff".repeat(100 - 8));
    assert_eq!(told("\"$0\"", SCRIPT, &long), cut);
}

/// Ten times as much is written as there is memory, and a line has no end for as long.
#[test]
fn no_script_takes_much_memory() {
    let limited = "ulimit -v 32768; \"$0\" > /dev/null";
    let text = format!("{CELL}{}", "seconds 65535\n".repeat(200));
    let Output { status, stderr, .. } = shell(limited, SCRIPT, text.as_bytes());
    assert_eq!((status.code(), &stderr[..]), (Some(0), &b""[..]));
    let endless = "ulimit -v 32768; head -c 100000000 /dev/zero | \"$0\"";
    let told = told(endless, SCRIPT, b"");
    assert!(told.starts_with("line 1: A line has at most 65536 bytes.\n"), "{told}");
}
