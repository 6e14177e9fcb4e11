use super::{bytes, message, TRANSACTION};
use crate::answer::{Answer, Row};
use crate::cell::CellIdentity;
use crate::place::Broadcasts;
use crate::refusal::Done;
use crate::request::*;
use crate::wire::{read_cancel, read_response, write_response, Message};

const COMPLETED: &str = "0092 00 0f 0000 0093 00 09 00 00f110 0000000100";
const CANCELLED: &str = "0096 00 11 0000 0097 00 0b 00 00f110 0000000100 0002";
const DIAGNOSTICS: &str = "0007 40 01 00";
const DEDICATED: &str = "00bd 80 03 ffffff";
const CELL: u64 = 0x00f110000000010;
const OTHER_CELL: u64 = 0x00f110000000020;

/// Rows of cells and counts.
fn rows(of: &[(u64, u16)]) -> Vec<Row> {
    let row = |(cell, count): &(u64, u16)| Row {
        identity: CellIdentity::from_number(*cell).unwrap(),
        count: Broadcasts(*count),
        content: 0,
    };
    of.iter().map(row).collect()
}

fn answer(kind: u8, of: &[(u64, u16)]) -> Answer {
    Answer { kind, identifier: 0, serial: 0, rows: rows(of) }
}

/// To a write-replace with code 20, to a cancel with 21.
fn response(code: u8, elements: &[&str]) -> Vec<u8> {
    message(0x40, code, elements)
}

/// The transaction identifier and the answer that a message gives; or its refusal.
fn given(message: &[u8]) -> Result<(u32, Answer), u32> {
    let mut answer = [0xa5; Answer::HEADER + Row::LENGTH * 512];
    let Message { number, transaction, length } = read_response(message, &mut answer);
    assert!(answer[length..].iter().all(|byte| *byte == 0xa5), "the rest was written");
    if number != 0 {
        assert_eq!((transaction, length), (0, 0), "a refusal has more than its number");
        return Err(number);
    }
    Ok((transaction, Answer::parse(&answer[..length]).expect("it is an answer")))
}

fn number(message: &[u8]) -> u32 {
    given(message).err().unwrap_or(0)
}

/// Of a message with these elements, for a write-replace and for a cancel.
fn numbers(elements: &[&str]) -> (u32, u32) {
    (number(&response(20, elements)), number(&response(21, elements)))
}

/// What is written of an answer, with room for it; or the refusal.
fn written(answer: &[u8]) -> Result<Vec<u8>, u32> {
    let mut message = vec![0xa5; 8000];
    let Done { number, length } = write_response(answer, 7, &mut message);
    assert!(message[length..].iter().all(|byte| *byte == 0xa5), "the rest was written");
    if number == 0 {
        Ok(message[..length].to_vec())
    } else {
        Err(number)
    }
}

#[test]
fn an_answer_is_written_and_reads_back() {
    let two = [(CELL, 2), (OTHER_CELL, 65_535)];
    for (answer, digits, length) in [
        (answer(CANCEL, &[]), format!("40150009 000001 {TRANSACTION}"), 13),
        (
            answer(CANCEL, &two),
            format!(
                "4015002d 000002 {TRANSACTION} 0096 00 20 0001 \
                 0097 00 0b 00 00f110 0000000100 0002 0097 00 0b 00 00f110 0000000200 ffff"
            ),
            49,
        ),
        (answer(WRITE_REPLACE, &[]), format!("40140009 000001 {TRANSACTION}"), 13),
        (
            answer(WRITE_REPLACE, &[(CELL, 0)]),
            format!("4014001c 000002 {TRANSACTION} {COMPLETED}"),
            32,
        ),
    ] {
        let message = bytes(&digits);
        assert_eq!(message.len(), length);
        assert_eq!(written(&answer.encode()), Ok(message.clone()));
        assert_eq!(given(&message), Ok((7, answer.clone())));
        let told = Answer { identifier: 4370, serial: 16, ..answer };
        assert_eq!(written(&told.encode()), Ok(message));
    }
}

#[test]
fn an_answer_has_up_to_512_rows() {
    for (kind, length) in [(WRITE_REPLACE, 6677), (CANCEL, 7701)] {
        let of = |count: u64| answer(kind, &(0..count).map(|k| (k << 51, 0)).collect::<Vec<_>>());
        let message = written(&of(512).encode()).unwrap();
        assert_eq!(message.len(), length);
        assert_eq!(given(&message), Ok((7, of(512))));
        assert_eq!(written(&of(511).encode()).map(|message| number(&message)), Ok(0));
        let one_more =
            [&of(512).encode()[..], &(1_u64 << 60).wrapping_sub(1).to_be_bytes(), &[0; 6]];
        let mut one_more = one_more.concat();
        one_more[11] += 1;
        assert!(Answer::parse(&one_more).is_some_and(|answer| answer.rows.len() == 513));
        assert_eq!(written(&one_more), Err(17));
    }
}

#[test]
fn what_no_request_could_have_as_its_answer_is_not_written() {
    let sound = answer(CANCEL, &[(CELL, 2), (OTHER_CELL, 3)]).encode();
    let changed = |at: usize, byte: u8| {
        let mut answer = sound.clone();
        answer[at] = byte;
        written(&answer).map(drop)
    };
    assert_eq!(changed(5, CANCEL), Ok(()));
    for (at, byte) in [(0, 0), (2, b'R'), (3, 1), (4, 0), (4, 2), (5, 0), (5, 1), (5, 3), (5, 5)] {
        assert_eq!(changed(at, byte), Err(17), "byte {at} is {byte}");
    }
    // The row count, a cell above 2^60, content, and a cell that is not above the one before it.
    for (at, byte) in [(10, 1), (11, 1), (11, 3), (12, 0x10), (22, 1), (25, 1), (33, 0x10), (33, 0)]
    {
        assert_eq!(changed(at, byte), Err(17), "byte {at} is {byte}");
    }
    assert_eq!((changed(6, 9), changed(9, 9), changed(20, 0xff)), (Ok(()), Ok(()), Ok(())));
    for length in 0..sound.len() {
        assert_eq!(written(&sound[..length]), Err(17), "cut to {length} bytes");
    }
    assert_eq!(written(&[&sound[..], &[0]].concat()), Err(17));
    let start = answer(WRITE_REPLACE, &[(CELL, 1)]).encode();
    assert_eq!(written(&start), Err(17));
}

#[test]
fn room_is_needed_for_what_is_written() {
    let start = answer(WRITE_REPLACE, &[(CELL, 0)]).encode();
    let message = response(20, &[TRANSACTION, COMPLETED]);
    for room in 0..40 {
        let (mut buffer, mut answer) = (vec![0xa5; room], vec![0xa5; room]);
        let done = write_response(&start, 7, &mut buffer);
        assert_eq!(done.number, if room < 32 { 8 } else { 0 }, "room {room}");
        let read = read_response(&message, &mut answer);
        assert_eq!(read.number, if room < 26 { 8 } else { 0 }, "room {room}");
        assert!(done.number == 0 || buffer == vec![0xa5; room]);
        assert!(read.number == 0 || answer == vec![0xa5; room]);
    }
    assert_eq!(write_response(&start[1..], 7, &mut []).number, 17);
}

#[test]
fn diagnostics_and_the_dedicated_list_are_unknown() {
    for unknown in [DIAGNOSTICS, DEDICATED, "03e7 40 02 0102", "ffff 80 01 00"] {
        for (code, list) in [(20, COMPLETED), (21, CANCELLED)] {
            let bare = given(&response(code, &[TRANSACTION, list]));
            for elements in [
                [unknown, TRANSACTION, list, unknown],
                [unknown, TRANSACTION, unknown, list],
                [TRANSACTION, unknown, unknown, list],
                [TRANSACTION, list, unknown, unknown],
            ] {
                assert_eq!(given(&response(code, &elements)), bare);
            }
            let rejected = [&unknown[..5], "00", &unknown[7..]].concat();
            assert_eq!(number(&response(code, &[TRANSACTION, list, &rejected])), 15);
        }
    }
    assert_eq!(numbers(&[TRANSACTION, "0007 c0 01 00"]), (13, 13));
}

#[test]
fn the_other_responses_list_is_unknown() {
    assert_eq!(numbers(&[TRANSACTION, COMPLETED]), (0, 15));
    assert_eq!(numbers(&[TRANSACTION, CANCELLED]), (15, 0));
    let [completed, cancelled] = [COMPLETED, CANCELLED].map(|it| it.replacen(" 00 ", " 40 ", 1));
    assert_eq!(numbers(&[TRANSACTION, &completed, CANCELLED]), (15, 0));
    assert_eq!(numbers(&[&cancelled, TRANSACTION, COMPLETED]), (0, 15));
    assert_eq!(given(&response(21, &[TRANSACTION, &completed])), Ok((7, answer(CANCEL, &[]))));
}

#[test]
fn a_cells_extensions_are_judged() {
    let extended = |code: u8, id: &str, criticality: &str| {
        let extension = format!("0000 {id} {criticality} 06 123456789ab0");
        let list = match code {
            20 => format!("0092 00 1b 0000 0093 00 15 40 00f110 0000000100 {extension}"),
            _ => format!("0096 00 1d 0000 0097 00 17 40 00f110 0000000100 0304 {extension}"),
        };
        given(&response(code, &[TRANSACTION, &list]))
    };
    for id in ["0181", "004e"] {
        assert_eq!(extended(20, id, "40"), Ok((7, answer(WRITE_REPLACE, &[(CELL, 0)]))));
        assert_eq!(extended(21, id, "80"), Ok((7, answer(CANCEL, &[(CELL, 772)]))));
        assert_eq!((extended(20, id, "00"), extended(21, id, "00")), (Err(15), Err(15)));
        assert_eq!((extended(20, id, "c0"), extended(21, id, "01")), (Err(13), Err(13)));
    }
    // Of the NR CGI, in front of the count, and then of the item.
    let both = "0096 00 20 0000 0097 00 1a 50 00f110 0000000100 0000 01f5 80 02 aabb \
                0304 0000 01f4 40 01 55";
    assert_eq!(given(&response(21, &[TRANSACTION, both])), Ok((7, answer(CANCEL, &[(CELL, 772)]))));
}

#[test]
fn the_lowest_refusal_of_the_whole_response_is_given() {
    let descending = "0096 00 20 0001 0097 00 0b 00 00f110 0000000100 0002 \
                      0097 00 0b 00 00f110 0000000100 0002";
    let rejected = "03e7 00 01 00";
    let of = |elements: &[&str]| number(&response(21, elements));
    assert_eq!(of(&[TRANSACTION, descending]), 17);
    assert_eq!(read_response(&response(21, &[TRANSACTION, descending]), &mut []).number, 17);
    assert_eq!(of(&[descending, TRANSACTION]), 16);
    assert_eq!((of(&[descending]), of(&[]), of(&[TRANSACTION, TRANSACTION])), (16, 16, 16));
    assert_eq!(of(&[TRANSACTION, CANCELLED, CANCELLED]), 16);
    assert_eq!(of(&[descending, TRANSACTION, rejected]), 15);
    assert_eq!(of(&[descending, rejected, "004e 00 02 0107"]), 13);
    let foreign = CANCELLED.replace("0097 00", "0093 40");
    assert_eq!((of(&[TRANSACTION, &foreign]), of(&[&foreign, rejected])), (16, 15));
    assert_eq!(of(&[TRANSACTION, &foreign.replace("0093 40", "0093 00")]), 15);
    assert_eq!(of(&[TRANSACTION, &foreign.replace("0093 40", "0093 c0")]), 13);
    assert_eq!(of(&["004e c0 02 0007", &CANCELLED.replace(" 00 0b", " c0 0b")]), 0);
}

#[test]
fn a_request_is_no_response() {
    let cancel = bytes("00150014 000003 004e00020007 008e00020000 009d000100");
    assert_eq!((number(&cancel), read_cancel(&cancel, &mut [0; 26]).number), (14, 0));
    for code in [20, 21] {
        let message = response(code, &[TRANSACTION]);
        assert_eq!((number(&message), read_cancel(&message, &mut [0; 26]).number), (0, 14));
    }
    for other in ["00 14 00 01 ff", "80 15 40 01 ff", "40 13 00 01 ff", "40 16 80 01 ff"] {
        assert_eq!(number(&bytes(other)), 14, "{other}");
    }
    for extension in ["c0 0014 00 01 ff", "c0 4015 40 01 ff"] {
        assert_eq!(number(&bytes(extension)), 14, "{extension}");
    }
    for bad in ["60 14 00 01 ff", "40 13 c0 01 ff", "40 15 00 02 ff", "40 15 00 8001 ff"] {
        assert_eq!(number(&bytes(bad)), 13, "{bad}");
    }
    for criticality in ["40", "80"] {
        let mut message = response(21, &[TRANSACTION, CANCELLED]);
        message[2] = bytes(criticality)[0];
        assert_eq!(number(&message), 0, "a frame marked {criticality}");
    }
}
