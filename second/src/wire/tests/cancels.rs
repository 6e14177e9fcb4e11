use super::{bytes, message, TRANSACTION};
use crate::record::{read, Reading, Record};
use crate::request::*;
use crate::wire::{read_cancel, Message};

const REQUESTED: &str = "008e 00 02 0000";
const ONE_CELL: &str = "0094 00 0f 0000 0095 00 09 00 00f110 0000000100";
const ALL: &str = "009d 00 01 00";
const NOTIFICATION_4370_16: &str = "00dc 00 05 0444800400";
const IGNORED: &str = "03e7 40 02 0102";

fn of(elements: &[&str]) -> Vec<u8> {
    message(0, 21, elements)
}

/// The transaction identifier, the fields and the items that a message gives; or its refusal.
fn given(message: &[u8]) -> Result<(u32, Request, Vec<u64>), u32> {
    let mut record = [0xa5; Record::HEADER + Record::ITEM * Record::MOST_ITEMS];
    let Message { number, transaction, length } = read_cancel(message, &mut record);
    assert!(record[length..].iter().all(|byte| *byte == 0xa5), "the rest was written");
    if number != 0 {
        assert_eq!((transaction, length), (0, 0), "a refusal has more than its number");
        return Err(number);
    }
    let Record { request, items } = Record::parse(&record[..length]).expect("it is a record");
    assert_eq!(read(&record[..length]), Reading { number, request, items: items.len() });
    Ok((transaction, request, items))
}

fn number(message: &[u8]) -> u32 {
    given(message).err().unwrap_or(0)
}

fn number_of(elements: &[&str]) -> u32 {
    number(&of(elements))
}

fn cancel(flags: u8, area: u8) -> Request {
    let text = if flags & NOTIFICATION == 0 { (0, 0) } else { (4370, 16) };
    Request { kind: CANCEL, flags, area, identifier: text.0, serial: text.1, ..Request::default() }
}

#[test]
fn a_message_is_its_transaction_and_its_cancel() {
    let cells = [0x00f110000000010, 0x00f110000000020];
    let c1 = of(&[TRANSACTION, REQUESTED, ALL]);
    assert_eq!(c1, bytes("00150014 000003 004e00020007 008e00020000 009d000100"));
    assert_eq!(given(&c1), Ok((7, cancel(CANCEL_ALL, 0), vec![])));
    let c2 = of(&[TRANSACTION, REQUESTED, NOTIFICATION_4370_16]);
    assert_eq!(c2.len(), 28);
    assert_eq!(given(&c2), Ok((7, cancel(NOTIFICATION, 0), vec![])));
    let c3 = of(&[TRANSACTION, REQUESTED, ONE_CELL, ALL]);
    assert_eq!(c3.len(), 43);
    assert_eq!(given(&c3), Ok((7, cancel(CANCEL_ALL, IN_CELLS), cells[..1].to_vec())));
    let two_cells = "0094 00 1c 0001 00950009 00 00f110 0000000100 00950009 00 00f110 0000000200";
    let c4 = of(&[TRANSACTION, REQUESTED, two_cells, ALL, NOTIFICATION_4370_16]);
    assert_eq!(c4.len(), 65);
    let both = cancel(CANCEL_ALL | NOTIFICATION, IN_CELLS);
    assert_eq!(given(&c4), Ok((7, both, cells.to_vec())));
}

#[test]
fn a_list_has_up_to_512_cells_in_their_order() {
    let listed = |count: usize, head: &str| {
        let cell = |k: usize| bytes(&format!("00950009 00 00f110 {:09x}0", k % 300));
        let before = bytes(&format!("{head} 000004 {TRANSACTION} {REQUESTED}"));
        let cells: Vec<u8> = (0..count).flat_map(cell).collect();
        [before, bytes("0094 00"), (0x8000 + 2 + 13 * count as u16).to_be_bytes().to_vec()]
            .into_iter()
            .chain([(count as u16 - 1).to_be_bytes().to_vec(), cells, bytes(ALL)])
            .collect::<Vec<_>>()
            .concat()
    };
    let c5 = listed(512, "001500 9a1b");
    assert_eq!(c5.len(), 6688);
    let items = (0..512).map(|k| 0x00f110000000000 + k % 300).collect();
    assert_eq!(given(&c5), Ok((7, cancel(CANCEL_ALL, IN_CELLS), items)));
    assert_eq!(number(&listed(511, "001500 9a0e")), 0);
    assert_eq!(number(&listed(513, "001500 9a28")), 13);
}

#[test]
fn what_is_unknown_and_not_marked_reject_is_skipped() {
    let notified = "ffff 80 01 00";
    let c6 = of(&[IGNORED, TRANSACTION, REQUESTED, notified, ALL]);
    assert_eq!(c6.len(), 35);
    assert_eq!(given(&c6), given(&of(&[TRANSACTION, REQUESTED, ALL])));
    let cell =
        "0094 00 1e 0000 0095 00 18 50 00f110 0000000100 0000 01f5 80 02 aabb 0000 01f4 40 01 55";
    let text = "00dc 00 0c 4444800400 0000 01f4 40 01 ff";
    let c8 = of(&[TRANSACTION, REQUESTED, cell, text]);
    assert_eq!(c8.len(), 69);
    let bare = of(&[TRANSACTION, REQUESTED, ONE_CELL, NOTIFICATION_4370_16]);
    assert_eq!(given(&c8), given(&bare));
    assert_eq!(number_of(&[IGNORED, TRANSACTION, IGNORED, IGNORED, REQUESTED, ALL, IGNORED]), 0);
}

#[test]
fn a_nid_is_not_known_yet() {
    let nid = |criticality: &str| {
        let head = "0094 00 1b 0000 0095 00 15 40 00f110 0000000100";
        let cell = format!("{head} 0000 0181 {criticality} 06 123456789ab0");
        let c7 = of(&[TRANSACTION, REQUESTED, &cell, ALL]);
        assert_eq!(c7.len(), 55);
        number(&c7)
    };
    assert_eq!((nid("00"), nid("40"), nid("80"), nid("c0"), nid("01")), (15, 0, 0, 13, 13));
}

#[test]
fn the_lowest_refusal_of_the_whole_message_is_given() {
    let (rejected, padded) = ("03e7 00 01 00", "009d 00 01 01");
    assert_eq!(number_of(&[rejected, ALL, REQUESTED, padded]), 13);
    assert_eq!(number_of(&[ALL, REQUESTED, rejected]), 15);
    assert_eq!(number_of(&[REQUESTED, TRANSACTION]), 16);
    assert_eq!(number_of(&[TRANSACTION, REQUESTED]), 7);
    let message = of(&[TRANSACTION, REQUESTED, ONE_CELL]);
    assert_eq!(read_cancel(&message, &mut []).number, 7);
    let message = of(&[TRANSACTION, REQUESTED, ONE_CELL, ALL]);
    for (room, number) in [(0, 8), (33, 8), (34, 0), (35, 0)] {
        assert_eq!(read_cancel(&message, &mut vec![0; room]).number, number, "room {room}");
    }
}

#[test]
fn of_another_message_the_frame_alone_is_judged() {
    let frame = |head: &str| number(&[bytes(head), vec![0xff; 3]].concat());
    for other in ["40 15 00 03", "80 15 40 03", "00 14 80 03", "c0 0015 00 03", "c0 ffff 40 03"] {
        assert_eq!(frame(other), 14, "{other}");
    }
    for bad in ["41 15 00 03", "60 15 00 03", "00 14 c0 03", "00 14 01 03", "c0 0015 00 02"] {
        assert_eq!(frame(bad), 13, "{bad}");
    }
    for length in ["02", "04", "8003", "c1", "00"] {
        assert_eq!(frame(&format!("40 15 00 {length}")), 13, "{length}");
    }
    assert_eq!((number(&bytes("40 15 00 00")), number(&bytes("c0 15 00 01 00"))), (13, 13));
    assert_eq!((number(&[]), number(&[0]), number(&[0, 21])), (13, 13, 13));
    for criticality in ["40", "80"] {
        let mut message = of(&[TRANSACTION, REQUESTED, ALL]);
        message[2] = bytes(criticality)[0];
        assert_eq!(number(&message), 0, "a frame marked {criticality}");
    }
}

#[test]
fn a_known_elements_criticality_is_not_read() {
    for bits in ["00", "40", "80", "c0"] {
        let marked = |element: &str| [&element[..5], bits, &element[7..]].concat();
        let cells = marked(ONE_CELL).replace("0095 00", &format!("0095 {bits}"));
        let elements = [TRANSACTION, REQUESTED, &cells, ALL, NOTIFICATION_4370_16];
        let message = of(&elements.map(marked).each_ref().map(String::as_str));
        assert_eq!(number(&message), 0, "marked {bits}");
    }
    assert_eq!(number_of(&["004e c1 02 0007", REQUESTED, ALL]), 13);
    assert_eq!(number_of(&[TRANSACTION, REQUESTED, "03e7 c0 01 00", ALL]), 13);
}

#[test]
fn an_item_of_another_kind_is_never_skipped() {
    let list = |id: &str, criticality: &str| {
        let cells = format!("0094 00 09 0000 {id} {criticality} 03 ffffff");
        number_of(&[TRANSACTION, REQUESTED, &cells, ALL])
    };
    assert_eq!((list("0094", "00"), list("0096", "40"), list("0096", "80")), (15, 16, 16));
    assert_eq!((list("0096", "c0"), list("0096", "41"), list("0095", "40")), (13, 13, 13));
    assert_eq!(number_of(&[TRANSACTION, REQUESTED, "0095 40 01 ff", ALL]), 0);
    assert_eq!(number_of(&[TRANSACTION, REQUESTED, "0095 00 01 ff", ALL]), 15);
}

#[test]
fn known_elements_come_once_and_in_their_order() {
    let in_order = [TRANSACTION, REQUESTED, ONE_CELL, ALL, NOTIFICATION_4370_16];
    for left_out in 0..in_order.len() {
        let rest: Vec<&str> = [&in_order[..left_out], &in_order[left_out + 1..]].concat();
        assert_eq!(number_of(&rest), if left_out < 2 { 16 } else { 0 }, "without {left_out}");
        let repeated = [&in_order[..=left_out], &in_order[left_out..]].concat();
        assert_eq!(number_of(&repeated), 16, "{left_out} twice");
    }
    for place in 1..in_order.len() {
        let mut swapped = in_order;
        swapped.swap(place - 1, place);
        assert_eq!(number_of(&swapped), 16, "{place} before its time");
    }
    assert_eq!(number_of(&[]), 16);
    assert_eq!(number_of(&[TRANSACTION, REQUESTED, ALL, "009d 00 01 80"]), 13);
}

#[test]
fn contents_end_where_their_length_says() {
    for wrong in [
        "004e 00 01 00",
        "004e 00 03 000700",
        "008e 00 01 00",
        "008e 00 03 000000",
        "009d 00 02 0000",
        "009d 00 00",
        "00dc 00 04 04448004",
        "00dc 00 06 044480040000",
        "0094 00 02 0000",
        "0094 00 10 0000 0095 00 09 00 00f110 0000000100 00",
        "0094 00 10 0000 0095 00 0a 00 00f110 0000000100 00",
        "0094 00 0f 0001 0095 00 09 00 00f110 0000000100",
        "00dc 00 0c 4444800400 ffff 01f4 40 01 ff",
        "00dc 00 0c 4444800400 0001 01f4 40 01 ff",
        "03e7 40 00",
        "03e7 40 8001 00",
    ] {
        assert_eq!(number_of(&[wrong]), 13, "{wrong}");
    }
}

#[test]
fn cut_or_longer_it_is_badly_encoded() {
    let message = of(&[TRANSACTION, REQUESTED, ONE_CELL, ALL, NOTIFICATION_4370_16]);
    for length in 0..message.len() {
        assert_eq!(number(&message[..length]), 13, "cut to {length} bytes");
    }
    assert_eq!(number(&message), 0);
    assert_eq!(number(&[&message[..], &[0]].concat()), 13);
}
