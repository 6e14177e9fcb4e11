use super::*;
use crate::fault::quoted;
use crate::place::{Broadcasts, Seconds};
use crate::record::{item, read};
use crate::request::*;

const CELL: &str = "cell 00f110000000010 code 1\n";

/// The program's input, as far as it is written, and the fault with its line.
fn written(text: &[u8]) -> (Vec<u8>, Option<(usize, String)>) {
    let mut input = Vec::new();
    let fault = match script(text, &mut input) {
        Ok(()) => None,
        Err(Fault::Line { line, sentence, .. }) => Some((line, sentence)),
        Err(other) => panic!("{other}"),
    };
    (input, fault)
}

/// The whole input that a script describes.
fn input(text: &[u8]) -> Vec<u8> {
    let (input, fault) = written(text);
    assert_eq!(fault, None);
    input
}

fn fault(text: &[u8]) -> (usize, String) {
    written(text).1.expect("a line is wrong")
}

/// The records behind one cell's head, in the program's input of a script with that cell.
fn records(requests: &str) -> Vec<u8> {
    input([CELL, requests].concat().as_bytes())[2 + Head::LENGTH..].to_vec()
}

fn request(line: &str) -> Request {
    let reading = read(&records(line));
    assert_eq!(reading.number, 0, "{line}");
    reading.request
}

#[test]
fn a_cell_is_a_head() {
    let input = input(b"cell 00f110000000010 code 1 areas 5 9 # the yard\n\n  # end");
    let expected = b"\0\x01\0\x0f\x11\0\0\0\0\x10\0\0\x01\x02\0\0\x05\0\0\x09\0\0\0\0\0\0";
    assert_eq!(input, expected);
}

#[test]
fn a_start_has_all_its_fields() {
    let start = Request {
        kind: WRITE_REPLACE,
        identifier: 4370,
        serial: 16,
        content: 7,
        period: Seconds(2),
        requested: Broadcasts(3),
        sib: 8,
        ..Request::default()
    };
    let line = "start 4370/16 content 7 every 2 times 3 sib 8";
    assert_eq!(request(line), start);
    let in_areas = Request { flags: CONCURRENT, area: IN_EMERGENCY_AREAS, ..start };
    assert_eq!(request(&format!("{line} concurrent in areas 5 9")), in_areas);
}

#[test]
fn a_cancel_has_one_flag_or_both() {
    let text = Request { kind: CANCEL, identifier: 4370, serial: 16, ..Request::default() };
    let both = CANCEL_ALL | NOTIFICATION;
    assert_eq!(request("cancel 4370/16"), Request { flags: NOTIFICATION, ..text });
    assert_eq!(request("cancel 4370/16 all"), Request { flags: both, ..text });
    let all = Request { kind: CANCEL, flags: CANCEL_ALL, ..Request::default() };
    assert_eq!(request("cancel all"), all);
}

#[test]
fn a_message_from_the_wire_is_the_cancel_that_it_asks_for() {
    let begin = "wire 00150014 000003 004e00020007 008e00020000";
    assert_eq!(records(&format!("{begin} 009d000100")), records("cancel all"));
    let both = "wire 00150030000005 004E0002 0007 008e0002 0102 0094000f0000 00950009 00 00F110 \
                0000000100 009d000100 00dc0005 0444800400 # as it came";
    assert_eq!(item(&records(both), 0), 0x00f110000000010);
    let cancel = request("cancel 4370/16 all in cells 00f110000000010");
    assert_eq!(request(both), Request { requested: Broadcasts(0x0102), ..cancel });
}

#[test]
fn the_other_kinds_have_no_fields() {
    let bare = |kind| Request { kind, ..Request::default() };
    assert_eq!(request("restart"), bare(RESTART));
    assert_eq!(request("failure"), bare(FAILURE));
    assert_eq!(request("second"), bare(SECOND));
    assert_eq!(records("seconds 3"), records("second\nsecond\nsecond\n"));
}

#[test]
fn items_are_written_by_their_area() {
    let first_items = |line: &str| (item(&records(line), 0), item(&records(line), 1));
    let cells = "restart in cells 00f110000000010 fffffffffffffff";
    assert_eq!(first_items(cells), (0x00f110000000010, (1 << 60) - 1));
    let tracking = "cancel all in tracking 00f110/2 00f110/16777215";
    assert_eq!(first_items(tracking), (0x00f110000002, 0x00f110ffffff));
    assert_eq!(first_items("cancel all in areas 5 16777215"), (5, (1 << 24) - 1));
}

/// The sentence about a line that follows one cell's.
fn sentence(line: &str) -> String {
    let (number, sentence) = fault([CELL, line].concat().as_bytes());
    assert_eq!(number, 2, "{line}");
    sentence
}

#[test]
fn a_line_begins_with_a_known_word() {
    let known = "cell, start, cancel, wire, restart, failure, second or seconds";
    assert_eq!(sentence("stop"), format!("A line begins with {known}, not with `stop`."));
    assert_eq!(fault(b"\xff"), (1, "This is not UTF-8 text.".into()));
}

#[test]
fn a_word_too_few_or_too_many_is_told() {
    assert_eq!(sentence("start"), "The line ends where a text as IDENTIFIER/SERIAL is expected.");
    assert_eq!(sentence("start 1/2"), "The line ends where `content` is expected.");
    assert_eq!(sentence("start 1/2 content"), "The line ends where the content is expected.");
    assert_eq!(sentence("start 1/2 every 2"), "`every` stands where `content` is expected.");
    assert_eq!(sentence("second 2"), "`2` and what follows is too much here.");
    assert_eq!(sentence("second in cells 1"), "`in` and what follows is too much here.");
    assert_eq!(sentence("restart all"), "`all` and what follows is too much here.");
    assert_eq!(sentence("restart in"), "The line ends where cells, tracking or areas is expected.");
    assert_eq!(sentence("restart in cells"), "The line ends where an NR CGI is expected.");
}

#[test]
fn a_number_out_of_its_range_is_told() {
    let start = |rest: &str| sentence(&format!("start {rest}"));
    let identifier = "The message identifier must be 0 to 65535, unlike `65536`.";
    assert_eq!(start("65536/1"), identifier);
    assert_eq!(start("1/-1"), "The serial number must be 0 to 65535, unlike `-1`.");
    let content = "The content must be 0 to 4294967295, unlike `0x7`.";
    assert_eq!(start("1/1 content 0x7"), content);
    let period = "The period must be 0 to 131071, unlike `131072`.";
    assert_eq!(start("1/1 content 7 every 131072"), period);
    let requested = "The count of broadcasts must be 0 to 65535, unlike `+3`.";
    assert_eq!(start("1/1 content 7 every 2 times +3"), requested);
    let sib = "The SIB kind must be 6 to 8, unlike `9`.";
    assert_eq!(start("1/1 content 7 every 2 times 3 sib 9"), sib);
    let seconds = "The number of seconds must be 1 to 65535, unlike `0`.";
    assert_eq!(sentence("seconds 0"), seconds);
}

#[test]
fn a_pair_or_hex_digits_not_as_they_should_be_are_told() {
    assert_eq!(sentence("cancel 4370"), "A text is written IDENTIFIER/SERIAL, unlike `4370`.");
    let cells = "An NR CGI has 15 hex digits, unlike `00f11000000001`.";
    assert_eq!(sentence("cancel all in cells 00f11000000001"), cells);
    let tracking = "A tracking area is written PLMN/CODE, unlike `2`.";
    assert_eq!(sentence("cancel all in tracking 2"), tracking);
    let plmn = "A PLMN has 6 hex digits, unlike `00g110`.";
    assert_eq!(sentence("cancel all in tracking 00g110/2"), plmn);
    let code = "The code must be 0 to 16777215, unlike `16777216`.";
    assert_eq!(sentence("cancel all in tracking 00f110/16777216"), code);
    let area = "The emergency area must be 0 to 16777215, unlike `north`.";
    assert_eq!(sentence("cancel all in areas north"), area);
}

#[test]
fn a_message_that_is_refused_is_told() {
    assert_eq!(sentence("wire"), "The line ends where a message in hex digits is expected.");
    for word in ["0", "001", "0g", "+1", "\u{e9}"] {
        let told = format!("Bytes have two hex digits each, unlike {}.", quoted(word));
        assert_eq!(sentence(&format!("wire 0015 {word}")), told);
    }
    let message = |frame: &str, behind: &str| {
        sentence(&format!("wire {frame} 004e00020007 008e00020000 {behind}"))
    };
    let refused = |number, why| format!("The message is refused with {number}: {why}.");
    let encoded = "it is cut short or badly encoded";
    assert_eq!(message("00150014 000003", "009d000101"), refused(13, encoded));
    assert_eq!(message("00150014 000003", ""), refused(13, encoded));
    let other = "it is another message than a PWS CANCEL REQUEST";
    assert_eq!(message("40150014 000003", "009d000100"), refused(14, other));
    let unknown = "an element that is unknown is marked reject";
    assert_eq!(message("00150014 000003", "03e7000100"), refused(15, unknown));
    let order = "an element is missing, repeated or out of order";
    assert_eq!(message("0015001a 000004", "008e00020000 009d000100"), refused(16, order));
    let nothing = "it has neither cancel-all nor a notification";
    assert_eq!(message("0015000f 000002", ""), refused(7, nothing));
}

#[test]
fn an_area_that_a_request_cannot_have_is_told() {
    let only_cells = "A restart or a failure can only be in cells.";
    assert_eq!(sentence("restart in areas 5"), only_cells);
    assert_eq!(sentence("failure in tracking 00f110/2"), only_cells);
    let other = "`in` is followed by cells, tracking or areas, not by `yards`.";
    assert_eq!(sentence("cancel all in yards"), other);
    let items = " 5".repeat(513);
    assert_eq!(request(&format!("cancel all in areas{}", &items[2..])).kind, CANCEL);
    assert_eq!(
        sentence(&format!("cancel all in areas{items}")),
        "A request lists at most 512 items."
    );
}

#[test]
fn a_cell_that_a_table_cannot_have_is_told() {
    let ascend = "Cells must ascend by NR CGI, each once.";
    assert_eq!(sentence("cell 00f110000000010 code 1"), ascend);
    assert_eq!(sentence("cell 00f11000000000f code 1"), ascend);
    let areas = "The emergency areas of a cell must ascend, each once.";
    assert_eq!(sentence("cell 00f110000000020 code 1 areas 9 5"), areas);
    assert_eq!(sentence("cell 00f110000000020 code 1 areas 5 5"), areas);
    let most = "A cell has at most 4 emergency areas.";
    assert_eq!(sentence("cell 00f110000000020 code 1 areas 1 2 3 4 5"), most);
    let code = "The code must be 0 to 16777215, unlike `16777216`.";
    assert_eq!(sentence("cell 00f110000000020 code 16777216"), code);
}

#[test]
fn cells_are_1_to_512_and_come_first() {
    let cells = |count: u32| {
        (0..count).map(|part| format!("cell {part:015x} code 1\n")).collect::<String>()
    };
    assert_eq!(input(cells(512).as_bytes()).len(), 2 + 512 * Head::LENGTH);
    let told = |text: &str, line: usize, sentence: &str| {
        assert_eq!(written(text.as_bytes()).0, b"", "{text}");
        assert_eq!(fault(text.as_bytes()), (line, sentence.into()), "{text}");
    };
    told(&cells(513), 513, "A table has at most 512 cells.");
    told("", 1, "The script ends without a cell.");
    told("# nothing", 1, "The script ends without a cell.");
    told("# nothing\n", 2, "The script ends without a cell.");
    told("\nsecond\n", 2, "A cell must come before the first request.");
    let late = fault([CELL, "second\n", CELL].concat().as_bytes());
    assert_eq!(late, (3, "Cells must come before requests.".into()));
}

#[test]
fn what_is_written_ends_before_the_wrong_line() {
    let right = [CELL, "second\nseconds 3\n"].concat();
    for wrong in ["seconds 0", "second 2", "cell 00f110000000020 code 1", "stop"] {
        let (input_before, fault) = written(format!("{right}{wrong}\nsecond\n").as_bytes());
        assert_eq!(input_before, input(right.as_bytes()), "{wrong}");
        assert_eq!(fault.map(|(line, _)| line), Some(4), "{wrong}");
    }
}

#[test]
fn a_line_is_at_most_as_long_as_told() {
    let second = |length: usize| format!("second{:1$}", "", length - "second".len());
    assert_eq!(request(&second(LONGEST_LINE)).kind, SECOND);
    assert_eq!(request(&format!("{}\n", second(LONGEST_LINE - 1))).kind, SECOND);
    let most = "A line has at most 65536 bytes.";
    assert_eq!(sentence(&second(LONGEST_LINE + 1)), most);
    assert_eq!(sentence(&format!("{}\n", second(LONGEST_LINE))), most);
    assert_eq!(sentence(&format!("#{}", "\u{e9}".repeat(LONGEST_LINE))), most);
}
