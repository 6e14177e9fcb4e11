//! Single faults in applying: what a sound call left behind is spoiled, or a sound call is made
//! with something that it was not given.

use second::request::*;
use second::Table;
use second::{apply, Answer, Area, Broadcasts, Cell, Done, Head, Place, Record, Request, Row};

/// An accepted call, decoded, before and after.
pub struct Applied {
    before: Table,
    after: Table,
    pub(super) record: Record,
    answer: Answer,
}

impl Applied {
    pub(super) fn is(&self, kind: u8) -> bool {
        self.record.request.kind == kind
    }

    /// Each reached cell before and after.
    pub(super) fn reached(&mut self) -> impl Iterator<Item = (&Cell, &mut Cell)> {
        let area = Area::of(&self.record);
        let cells = self.before.cells.iter().zip(&mut self.after.cells);
        cells.filter(move |(before, _)| area.reaches(&before.head))
    }

    /// Each place that a start made: the last one of a cell that changed.
    pub(super) fn started(&mut self) -> impl Iterator<Item = &mut Place> {
        let start = self.is(WRITE_REPLACE);
        let changed = self.reached().filter(move |(before, after)| start && **before != **after);
        changed.filter_map(|(_, after)| after.places.last_mut())
    }

    /// A row, count and content 0, for each reached cell that is chosen.
    fn report(&mut self, chosen: impl Fn(&Cell) -> bool) {
        let cells = self.reached().map(|(before, _)| before).filter(|before| chosen(before));
        let row =
            |cell: &Cell| Row { identity: cell.head.identity, count: Broadcasts(0), content: 0 };
        self.answer.rows = cells.map(row).collect();
    }
}

/// Applies soundly, then lets an accepted call be spoiled.
pub fn spoiled(
    table: &mut [u8],
    record: &[u8],
    answer: &mut [u8],
    spoil: fn(&mut Applied),
) -> Done {
    let before = Table::parse(table);
    let done = apply(table, record, answer);
    let written = Answer::parse(&answer[..done.length]);
    let (Ok(before), Ok(after), Ok(decoded), Some(written)) =
        (before, Table::parse(table), Record::parse(record), written)
    else {
        return done;
    };
    let mut applied = Applied { before, after, record: decoded, answer: written };
    spoil(&mut applied);
    let written = applied.answer.encode();
    table.copy_from_slice(&applied.after.encode());
    answer[..written.len()].copy_from_slice(&written);
    Done { number: 0, length: written.len() }
}

pub fn cancel_reports_every_named_cell(applied: &mut Applied) {
    if applied.is(CANCEL) {
        applied.report(|_| true);
    }
}

pub fn cancel_all_gives_the_sent_count(applied: &mut Applied) {
    if applied.is(CANCEL) && applied.record.request.has(CANCEL_ALL) {
        let rows = std::mem::take(&mut applied.answer.rows);
        let counts: Vec<Broadcasts> = applied
            .reached()
            .filter_map(|(before, _)| before.places.first())
            .map(|place| place.sent)
            .collect();
        applied.answer.rows =
            rows.into_iter().zip(counts).map(|(row, count)| Row { count, ..row }).collect();
    }
}

pub fn sent_is_not_held(applied: &mut Applied) {
    if applied.is(SECOND) {
        for (before, after) in applied.reached() {
            for place in &mut after.places {
                let was = before.places.iter().find(|was| was.text() == place.text());
                if was.is_some_and(|was| was.sent.0 == u16::MAX && was.wait.0 == 0) {
                    place.sent = Broadcasts(0);
                }
            }
        }
    }
}

pub fn closes_up_backwards(applied: &mut Applied) {
    if !applied.is(WRITE_REPLACE) {
        for (before, after) in applied.reached() {
            if after.places.len() < before.places.len() {
                after.places.reverse();
            }
        }
    }
}

pub fn repeat_starts_anew(applied: &mut Applied) {
    let Request { identifier, serial, kind, .. } = applied.record.request;
    if kind == WRITE_REPLACE {
        for (_, after) in applied.reached() {
            for place in &mut after.places {
                if place.text() == (identifier, serial) {
                    place.sent = Broadcasts(0);
                }
            }
        }
    }
}

pub fn repeat_takes_the_new_content(applied: &mut Applied) {
    let Request { identifier, serial, kind, content, .. } = applied.record.request;
    if kind == WRITE_REPLACE {
        for (_, after) in applied.reached() {
            for place in &mut after.places {
                if place.text() == (identifier, serial) {
                    place.content = content;
                }
            }
        }
    }
}

/// A start that the zero rules stop is reported where its text is live.
pub fn repeat_is_found_before_the_zero_rules(applied: &mut Applied) {
    let Request { identifier, serial, kind, .. } = applied.record.request;
    if kind == WRITE_REPLACE && applied.answer.rows.is_empty() {
        applied.report(|cell| cell.runs((identifier, serial)));
    }
}

pub fn start_drops_only_a_full_cell(applied: &mut Applied) {
    let request = applied.record.request;
    if request.kind == WRITE_REPLACE && !request.has(CONCURRENT) {
        for (before, after) in applied.reached() {
            if after != before && !before.is_full() {
                after.places.splice(0..0, before.places.clone());
            }
        }
    }
}

pub fn waits_a_second_too_few(applied: &mut Applied) {
    if applied.is(SECOND) {
        for (before, after) in applied.reached() {
            for place in &mut after.places {
                let was = before.places.iter().find(|was| was.text() == place.text());
                if was.is_some_and(|was| was.wait.0 == 0) {
                    place.wait.0 = place.wait.0.saturating_sub(1);
                }
            }
        }
    }
}

pub fn restart_reports_like_failure(applied: &mut Applied) {
    if applied.is(RESTART) {
        applied.report(|cell| !cell.places.is_empty());
    }
}

pub fn failure_reports_like_restart(applied: &mut Applied) {
    if applied.is(FAILURE) {
        applied.report(|_| true);
    }
}

pub fn last_broadcast_has_no_row(applied: &mut Applied) {
    if applied.is(SECOND) {
        let before = &applied.before.cells;
        let ends = |row: &Row| {
            let places = before.iter().filter(|cell| cell.head.identity == row.identity);
            places.flat_map(|cell| &cell.places).any(|place| {
                place.content == row.content && place.requested == row.count && place.wait.0 == 0
            })
        };
        applied.answer.rows.retain(|row| !ends(row));
    }
}

pub fn rows_are_counted_in_a_byte(applied: &mut Applied) {
    let rows = applied.answer.rows.len() % 256;
    applied.answer.rows.truncate(rows);
}

pub fn answer_has_no_serial_number(applied: &mut Applied) {
    applied.answer.serial = 0;
}

pub fn cells_from_the_257th_stay(applied: &mut Applied) {
    for (before, after) in applied.before.cells.iter().zip(&mut applied.after.cells).skip(256) {
        after.places.clone_from(&before.places);
    }
}

/// Applies a start that is like the given one but for what `change` does to an accepted request.
pub fn with_request(
    table: &mut [u8],
    record: &[u8],
    answer: &mut [u8],
    change: fn(&mut Request),
) -> Done {
    match Record::parse(record) {
        Ok(mut decoded) if decoded.request.kind == WRITE_REPLACE => {
            change(&mut decoded.request);
            apply(table, &decoded.encode(), answer)
        }
        _ => apply(table, record, answer),
    }
}

/// Applies soundly to the cells that another rule reaches: a list of exactly these cells.
pub fn misreached(
    table: &mut [u8],
    record: &[u8],
    answer: &mut [u8],
    reaches: fn(&[Head], &Record, &Head) -> bool,
) -> Done {
    let (Ok(cells), Ok(decoded)) = (Table::parse(table), Record::parse(record)) else {
        return apply(table, record, answer);
    };
    if decoded.request.area == NO_AREA {
        return apply(table, record, answer);
    }
    let heads: Vec<Head> = cells.cells.into_iter().map(|cell| cell.head).collect();
    let reached = heads.iter().filter(|head| reaches(&heads, &decoded, head));
    let mut items: Vec<u64> = reached.map(|head| head.identity.number()).collect();
    if items.is_empty() {
        // A list must not be empty; this one names a cell that the table has not.
        items.extend(
            (0..).find(|number| heads.iter().all(|head| head.identity.number() != *number)),
        );
    }
    let request = Request { area: IN_CELLS, ..decoded.request };
    apply(table, &Record { request, items }.encode(), answer)
}

pub fn an_unmatched_list_is_none(heads: &[Head], record: &Record, head: &Head) -> bool {
    let area = Area::of(record);
    area.reaches(head) || !heads.iter().any(|head| area.reaches(head))
}

pub fn a_code_matches_in_every_plmn(_: &[Head], record: &Record, head: &Head) -> bool {
    let by_code = |item: &u64| *item as u32 & Head::LARGEST_CODE == head.code;
    Area::of(record).reaches(head)
        || record.request.area == IN_TRACKING_AREAS && record.items.iter().any(by_code)
}

pub fn zero_matches_the_filling(_: &[Head], record: &Record, head: &Head) -> bool {
    let filling = head.areas.len() < Head::MOST_AREAS && record.items.contains(&0);
    Area::of(record).reaches(head) || record.request.area == IN_EMERGENCY_AREAS && filling
}

pub fn the_512th_item_is_not_seen(_: &[Head], record: &Record, head: &Head) -> bool {
    let items = record.items.iter().copied().take(Record::MOST_ITEMS - 1).collect();
    Area::of(&Record { request: record.request, items }).reaches(head)
}
