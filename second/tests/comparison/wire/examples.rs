//! Messages that are known byte for byte: an encoder of other hands has written these bytes.

use super::forms::{Form, CANCEL, CANCELLED, COMPLETED};
use super::messages::*;

pub const CELLS: [u64; 2] = [0x00f110000000010, 0x00f110000000020];

/// What a message is made of, and its bytes in hex digits.
pub struct Example {
    pub name: &'static str,
    pub frame: Frame,
    pub digits: String,
}

/// What every one of them begins with, and behind it every cancel.
const TRANSACTION_7: &str = "004e 00 02 0007";
const REQUESTED_0: &str = "008e 00 02 0000";
const ONE: &str = "00f110 0000000100";
const TWO: &str = "00f110 0000000200";
const NID_DIGITS: &str = "0000 0181 00 06 123456789ab0";

/// Requested 0, and more elements.
fn cancel(name: &'static str, more: Vec<Field>, head: &str, behind: &str) -> Example {
    let elements = [vec![Field::requested(0)], more].concat();
    example(name, &CANCEL, elements, head, &format!("{REQUESTED_0} {behind}"))
}

/// Transaction 7, and more elements.
fn example(name: &'static str, form: &Form, more: Vec<Field>, head: &str, behind: &str) -> Example {
    let frame = Frame::of(form, [vec![Field::transaction(7)], more].concat());
    Example { name, frame, digits: format!("{head} {TRANSACTION_7} {behind}") }
}

impl Example {
    /// With one more in its k-th list.
    fn with(mut self, k: usize, field: Field) -> Example {
        self.frame.list(k).expect("it is numbered").push(field);
        self
    }
}

// The numbers of the lists where the first list of cells is: that of its first cell's NR CGI's
// extensions, that of its own, and of one cell that of a notification behind it.
const IN_IDENTITY: usize = 2;
const IN_CELL: usize = 3;
const IN_TEXT: usize = 4;

fn nid() -> Field {
    Field::unknown(NID, REJECT, &[0x12, 0x34, 0x56, 0x78, 0x9a, 0xb0])
}

pub fn cancels() -> Vec<Example> {
    let all = Field::cancel_all;
    let text = || Field::notification(4370, 16);
    let [one, two] = [ONE, TWO].map(|cell| format!("0095 00 09 00 {cell}"));
    let mut cancels = vec![
        cancel("C1", vec![all()], "00150014 000003", "009d 00 01 00"),
        cancel("C2", vec![text()], "00150018 000003", "00dc 00 05 0444800400"),
        cancel(
            "C3",
            vec![Field::cells(&CELLS[..1]), all()],
            "00150027 000004",
            &format!("0094 00 0f 0000 {one} 009d 00 01 00"),
        ),
        cancel(
            "C4",
            vec![Field::cells(&CELLS), all(), text()],
            "0015003d 000005",
            &format!("0094 00 1c 0001 {one} {two} 009d 00 01 00 00dc 00 05 0444800400"),
        ),
        cancel(
            "C5",
            vec![Field::cells(&[CELLS[0]; 512]), all()],
            "001500 9a1b 000004",
            &format!("0094 00 9a02 01ff {} 009d 00 01 00", one.repeat(512)),
        ),
    ];
    cancels.extend(cancels_with_unknown());
    cancels
}

fn cancels_with_unknown() -> Vec<Example> {
    let listed = || Field::cells(&CELLS[..1]);
    let notified = Field::unknown(65_535, NOTIFY, &[0]);
    let mut c6 = cancel("C6", vec![notified, Field::cancel_all()], "", "");
    c6.frame.elements.insert(0, Field::unknown(999, IGNORE, &[1, 2]));
    c6.digits = format!(
        "0015001f 000005 03e7 40 02 0102 {TRANSACTION_7} {REQUESTED_0} ffff 80 01 00 009d 00 01 00"
    );
    let c7 = cancel(
        "C7",
        vec![listed(), Field::cancel_all()],
        "00150033 000004",
        &format!("0094 00 1b 0000 0095 00 15 40 {ONE} {NID_DIGITS} 009d000100"),
    );
    let c8 = cancel(
        "C8",
        vec![listed(), Field::notification(4370, 16)],
        "00150041 000004",
        &format!(
            "0094 00 1e 0000 0095 00 18 50 {ONE} 0000 01f5 80 02 aabb 0000 01f4 40 01 55 \
             00dc 00 0c 4444800400 0000 01f4 40 01 ff"
        ),
    );
    let c8 = c8
        .with(IN_IDENTITY, Field::unknown(501, NOTIFY, &[0xaa, 0xbb]))
        .with(IN_CELL, Field::unknown(500, IGNORE, &[0x55]))
        .with(IN_TEXT, Field::unknown(500, IGNORE, &[0xff]));
    vec![c6, c7.with(IN_CELL, nid()), c8]
}

pub fn responses() -> Vec<Example> {
    let cancelled = |name, counted: &[(u64, u16)], head: &str, behind: &str| {
        example(name, &CANCELLED, vec![Field::cancelled(counted)], head, behind)
    };
    let completed = |name, head: &str, behind: &str| {
        example(name, &COMPLETED, vec![Field::completed(&CELLS[..1])], head, behind)
    };
    vec![
        example("R1", &CANCELLED, vec![], "40150009 000001", ""),
        cancelled(
            "R2",
            &[(CELLS[0], 2), (CELLS[1], 65_535)],
            "4015002d 000002",
            &format!("0096 00 20 0001 0097 00 0b 00 {ONE} 0002 0097 00 0b 00 {TWO} ffff"),
        ),
        example("R3", &COMPLETED, vec![], "40140009 000001", ""),
        completed("R4", "4014001c 000002", &format!("0092 00 0f 0000 0093 00 09 00 {ONE}")),
        cancelled(
            "R5",
            &[(CELLS[0], 772)],
            "4015002a 000002",
            &format!("0096 00 1d 0000 0097 00 17 40 {ONE} 0304 {NID_DIGITS}"),
        )
        .with(IN_CELL, nid()),
        completed(
            "R6",
            "40140028 000002",
            &format!("0092 00 1b 0000 0093 00 15 40 {ONE} {NID_DIGITS}"),
        )
        .with(IN_CELL, nid()),
    ]
}
