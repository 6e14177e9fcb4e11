//! Units with one fault each. That the comparison finds each of them shows that it can fail.

use second::request::*;
use second::{
    apply, build, item, read, write, Answer, Area, Broadcasts, Done, Head, Layout, Reading, Record,
    Refusal, Request, Seconds, Table, EARTHQUAKE_PRIMARY,
};

use super::broken_periods::broken_in_periods;
use super::broken_primaries::broken_in_primaries;
use super::spoiled::*;
use super::unit::{Functions, SOUND};

pub type Apply = fn(&mut [u8], &[u8], &mut [u8]) -> Done;

pub fn refused(refusal: Refusal) -> Done {
    Done { number: refusal.number(), length: 0 }
}

/// Faults in applying.
const APPLYING: [(&str, Apply); 31] = [
    ("a cancel reports every named cell", |t, r, a| {
        spoiled(t, r, a, cancel_reports_every_named_cell)
    }),
    ("cancel-all gives the sent count", |t, r, a| {
        spoiled(t, r, a, cancel_all_gives_the_sent_count)
    }),
    ("sent is not held at 65,535", |t, r, a| spoiled(t, r, a, sent_is_not_held)),
    ("places close up in the wrong order", |t, r, a| spoiled(t, r, a, closes_up_backwards)),
    ("a repeat starts its count anew", |t, r, a| spoiled(t, r, a, repeat_starts_anew)),
    ("a repeat takes the new content", |t, r, a| spoiled(t, r, a, repeat_takes_the_new_content)),
    ("a start drops a full cell only", |t, r, a| spoiled(t, r, a, start_drops_only_a_full_cell)),
    ("a broadcast waits a second too few", |t, r, a| spoiled(t, r, a, waits_a_second_too_few)),
    ("a restart reports as a failure", |t, r, a| spoiled(t, r, a, restart_reports_like_failure)),
    ("a failure reports as a restart", |t, r, a| spoiled(t, r, a, failure_reports_like_restart)),
    ("the last broadcast has no row", |t, r, a| spoiled(t, r, a, last_broadcast_has_no_row)),
    ("rows are counted in a byte", |t, r, a| spoiled(t, r, a, rows_are_counted_in_a_byte)),
    ("an answer has no serial number", |t, r, a| spoiled(t, r, a, answer_has_no_serial_number)),
    ("cells from the 257th on stay", |t, r, a| spoiled(t, r, a, cells_from_the_257th_stay)),
    ("an unmatched list is no list", |t, r, a| misreached(t, r, a, an_unmatched_list_is_none)),
    ("a code matches in every PLMN", |t, r, a| misreached(t, r, a, a_code_matches_in_every_plmn)),
    ("item 0 matches the filling", |t, r, a| misreached(t, r, a, zero_matches_the_filling)),
    ("the 512th item is not seen", |t, r, a| misreached(t, r, a, the_512th_item_is_not_seen)),
    ("room is one byte more", |t, r, a| apply(t, r, short_by(a, 1))),
    ("room is one byte less", room_is_one_byte_less),
    ("room is for the rows written", room_is_for_the_rows_written),
    ("room is judged before the record", room_is_judged_before_the_record),
    ("the record is judged before the table", the_record_is_judged_before_the_table),
    ("a full cell fails the request", a_full_cell_fails_the_request),
    ("a start without an end needs no flag", a_start_without_an_end_needs_no_flag),
    ("period 0 with requested 2 runs", period_0_with_requested_2_runs),
    ("a repeat is found before the zero rules", |t, r, a| {
        spoiled(t, r, a, repeat_is_found_before_the_zero_rules)
    }),
    ("the byte behind the answer is zeroed", the_byte_behind_the_answer_is_zeroed),
    ("a refusal clears the answer", a_refusal_clears_the_answer),
    ("the header's zero bytes may be any", the_headers_zero_bytes_may_be_any),
    ("the record's zero byte may be any", |t, r, a| apply(t, &with_byte(r, 23, 0), a)),
];

pub fn faulty_in_applying(faults: &[(&'static str, Apply)]) -> Vec<(&'static str, Functions)> {
    faults.iter().map(|(name, apply)| (*name, Functions { apply: *apply, ..SOUND })).collect()
}

/// All broken units, by name.
pub fn broken_units() -> Vec<(&'static str, Functions)> {
    let mut units = faulty_in_applying(&APPLYING);
    units.extend([
        ("room is judged before the heads", Functions { build: room_before_heads, ..SOUND }),
        ("a built table keeps old bytes", Functions { build: keeps_old_bytes, ..SOUND }),
        ("513 heads are built", Functions { build: builds_513, ..SOUND }),
        ("a refused reading has its fields", Functions { read: fields_though_refused, ..SOUND }),
        ("7 comes before 5", Functions { read: seven_before_five, ..SOUND }),
        ("512 items are too many", Functions { write: refuses_512_items, ..SOUND }),
        (
            "an exact record has no room",
            Functions { write: |r, i, b| write(r, i, short_by(b, 1)), ..SOUND },
        ),
        ("the record's rest is cleared", Functions { write: clears_the_rest, ..SOUND }),
        (
            "items are counted from 1",
            Functions { item: |r, k| item(r, k.wrapping_sub(1)), ..SOUND },
        ),
        ("a cut item is filled with zeros", Functions { item: fills_a_cut_item, ..SOUND }),
    ]);
    units.extend(broken_in_primaries());
    units.extend(broken_in_periods());
    units
}

pub fn short_by(buffer: &mut [u8], bytes: usize) -> &mut [u8] {
    let length = buffer.len().saturating_sub(bytes);
    &mut buffer[..length]
}

pub fn with_byte(bytes: &[u8], offset: usize, byte: u8) -> Vec<u8> {
    let mut bytes = bytes.to_vec();
    bytes.get_mut(offset).into_iter().for_each(|place| *place = byte);
    bytes
}

/// Applies with another buffer for the answer, and copies as much of it as there is room for.
fn with_room(table: &mut [u8], record: &[u8], answer: &mut [u8], room: usize) -> Done {
    let mut roomy = answer.to_vec();
    roomy.resize(answer.len().max(room), 0);
    let done = apply(table, record, &mut roomy);
    let length = answer.len();
    answer.copy_from_slice(&roomy[..length]);
    done
}

fn room_is_one_byte_less(table: &mut [u8], record: &[u8], answer: &mut [u8]) -> Done {
    let room = answer.len() + 1;
    with_room(table, record, answer, room)
}

fn room_is_for_the_rows_written(table: &mut [u8], record: &[u8], answer: &mut [u8]) -> Done {
    let tried = apply(&mut table.to_vec(), record, &mut vec![0; Answer::room(SECOND, 512)]);
    let fits = tried.number == 0 && tried.length <= answer.len();
    let room = if fits { Answer::room(SECOND, 512) } else { 0 };
    with_room(table, record, answer, room)
}

fn room_is_judged_before_the_record(table: &mut [u8], record: &[u8], answer: &mut [u8]) -> Done {
    match Table::parse(table) {
        Ok(cells) if answer.len() < Answer::room(RESTART, cells.cells.len()) => {
            refused(Refusal::Room)
        }
        _ => apply(table, record, answer),
    }
}

fn the_record_is_judged_before_the_table(
    table: &mut [u8],
    record: &[u8],
    answer: &mut [u8],
) -> Done {
    match Record::parse(record) {
        Err(refusal) => refused(refusal),
        Ok(_) => apply(table, record, answer),
    }
}

/// "A full cell makes the whole request fail, after earlier cells were changed."
fn a_full_cell_fails_the_request(table: &mut [u8], record: &[u8], answer: &mut [u8]) -> Done {
    let before = Table::parse(table);
    let done = apply(table, record, answer);
    let (Ok(before), Ok(decoded), 0) = (before, Record::parse(record), done.number) else {
        return done;
    };
    let area = Area::of(&decoded);
    let full = before.cells.iter().any(|cell| area.reaches(&cell.head) && cell.is_full());
    let concurrent = decoded.request.kind == WRITE_REPLACE && decoded.request.has(CONCURRENT);
    if full && concurrent {
        refused(Refusal::Room)
    } else {
        done
    }
}

fn a_start_without_an_end_needs_no_flag(
    table: &mut [u8],
    record: &[u8],
    answer: &mut [u8],
) -> Done {
    with_request(table, record, answer, |request| {
        let primary = request.sib == EARTHQUAKE_PRIMARY;
        if !primary && request.requested == Broadcasts(0) && request.period > Seconds(0) {
            request.flags = CONCURRENT;
        }
    })
}

fn period_0_with_requested_2_runs(table: &mut [u8], record: &[u8], answer: &mut [u8]) -> Done {
    with_request(table, record, answer, |request| {
        if request.requested == Broadcasts(2) && request.period == Seconds(0) {
            request.period = Seconds(1);
        }
    })
}

fn the_byte_behind_the_answer_is_zeroed(
    table: &mut [u8],
    record: &[u8],
    answer: &mut [u8],
) -> Done {
    let done = apply(table, record, answer);
    answer.get_mut(done.length).filter(|_| done.number == 0).into_iter().for_each(|byte| *byte = 0);
    done
}

fn a_refusal_clears_the_answer(table: &mut [u8], record: &[u8], answer: &mut [u8]) -> Done {
    let done = apply(table, record, answer);
    if done.number != 0 {
        answer.fill(0);
    }
    done
}

fn the_headers_zero_bytes_may_be_any(table: &mut [u8], record: &[u8], answer: &mut [u8]) -> Done {
    let mut zeroed = table.to_vec();
    zeroed.iter_mut().take(Table::HEADER).skip(8).for_each(|byte| *byte = 0);
    let done = apply(&mut zeroed, record, answer);
    let cells = Table::HEADER.min(table.len())..;
    table[cells.clone()].copy_from_slice(&zeroed[cells]);
    done
}

fn room_before_heads(heads: &[u8], table: &mut [u8]) -> Done {
    let short = table.len() < Layout::CURRENT.table(heads.len() / Head::LENGTH);
    if short {
        refused(Refusal::Room)
    } else {
        build(heads, table)
    }
}

fn keeps_old_bytes(heads: &[u8], table: &mut [u8]) -> Done {
    let last_byte = Layout::CURRENT.table(1) - 1;
    let last = table.get(last_byte).copied();
    let done = build(heads, table);
    if let (Some(last), 0) = (last, done.number) {
        table[last_byte] = last;
    }
    done
}

fn builds_513(heads: &[u8], table: &mut [u8]) -> Done {
    let most = if heads.len() == 513 * Head::LENGTH { 512 * Head::LENGTH } else { heads.len() };
    build(&heads[..most], table)
}

fn fields_though_refused(record: &[u8]) -> Reading {
    let reading = read(record);
    let kind = record.get(5).copied().unwrap_or(0);
    let request =
        if reading.number > 4 { Request { kind, ..Request::default() } } else { reading.request };
    Reading { request, ..reading }
}

fn seven_before_five(record: &[u8]) -> Reading {
    let reading = read(record);
    let nothing = record.get(5) == Some(&CANCEL) && record.get(6) == Some(&0);
    let number = if nothing && reading.number == 5 { 7 } else { reading.number };
    Reading { number, ..reading }
}

fn refuses_512_items(request: Request, items: &[u64], record: &mut [u8]) -> Done {
    if items.len() == 512 {
        refused(Refusal::RecordLength)
    } else {
        write(request, items, record)
    }
}

fn clears_the_rest(request: Request, items: &[u64], record: &mut [u8]) -> Done {
    let done = write(request, items, record);
    if done.number == 0 {
        record[done.length..].fill(0);
    }
    done
}

fn fills_a_cut_item(record: &[u8], k: usize) -> u64 {
    let mut filled = record.to_vec();
    filled.resize(record.len() + 7, 0);
    item(&filled, k)
}
