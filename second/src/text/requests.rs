//! A line's request.

use super::messages::from_wire;
use super::words::Words;
use crate::fault::quoted;
use crate::layout::Layout;
use crate::place::{Broadcasts, Seconds, SIB_KINDS};
use crate::record::Record;
use crate::request::*;

/// So that a slip of the pen does not fill a disk, and what one line asks for is small to hold.
pub(super) const MOST_SECONDS: usize = 65_535;

/// The record of a line with this first word, and how many times it is given.
pub(super) fn request(first: &str, words: &mut Words) -> Result<(Record, usize), String> {
    let bare = |kind| Request { kind, ..Request::default() };
    let (request, times) = match first {
        "wire" => return Ok((from_wire(words)?, 1)),
        "start" => (start(words)?, 1),
        "cancel" => (cancel(words)?, 1),
        "restart" => (bare(RESTART), 1),
        "failure" => (bare(FAILURE), 1),
        "second" => (bare(SECOND), 1),
        "seconds" => (bare(SECOND), words.number("number of seconds", 1..=MOST_SECONDS)?),
        _ => {
            let known = "cell, start, cancel, wire, restart, failure, second or seconds";
            return Err(format!("A line begins with {known}, not with {}.", quoted(first)));
        }
    };
    Ok((in_area(request, words)?, times))
}

fn start(words: &mut Words) -> Result<Request, String> {
    let (identifier, serial) = words.text()?;
    words.expect("content")?;
    let content = words.number("content", 0..=u32::MAX)?;
    words.expect("every")?;
    let period = Seconds(words.number("period", 0..=Layout::CURRENT.largest_period.0)?);
    words.expect("times")?;
    let requested = Broadcasts(words.number("count of broadcasts", 0..=u16::MAX)?);
    words.expect("sib")?;
    let sib = words.number("SIB kind", SIB_KINDS)?;
    let flags = if words.takes("concurrent") { CONCURRENT } else { 0 };
    let (kind, area) = (WRITE_REPLACE, NO_AREA);
    Ok(Request { kind, flags, area, identifier, serial, content, period, requested, sib })
}

fn cancel(words: &mut Words) -> Result<Request, String> {
    let cancel = Request { kind: CANCEL, ..Request::default() };
    if words.takes("all") {
        return Ok(Request { flags: CANCEL_ALL, ..cancel });
    }
    let (identifier, serial) = words.text()?;
    let all = if words.takes("all") { CANCEL_ALL } else { 0 };
    Ok(Request { flags: NOTIFICATION | all, identifier, serial, ..cancel })
}

/// The record of the request with the area and the items behind `in`, if that follows.
fn in_area(request: Request, words: &mut Words) -> Result<Record, String> {
    if request.kind == SECOND || !words.takes("in") {
        return Ok(Record { request, items: Vec::new() });
    }
    let (area, items) = match words.word("cells, tracking or areas")? {
        "cells" => (IN_CELLS, words.list(cell)?),
        "tracking" => (IN_TRACKING_AREAS, words.list(Words::tracking_area)?),
        "areas" => (IN_EMERGENCY_AREAS, words.list(emergency_area)?),
        other => {
            let known = "cells, tracking or areas";
            return Err(format!("`in` is followed by {known}, not by {}.", quoted(other)));
        }
    };
    if area != IN_CELLS && [RESTART, FAILURE].contains(&request.kind) {
        return Err("A restart or a failure can only be in cells.".into());
    }
    if items.len() > Record::MOST_ITEMS {
        return Err(format!("A request lists at most {} items.", Record::MOST_ITEMS));
    }
    Ok(Record { request: Request { area, ..request }, items })
}

fn cell(words: &mut Words) -> Result<u64, String> {
    words.identity().map(|identity| identity.number())
}

fn emergency_area(words: &mut Words) -> Result<u64, String> {
    words.emergency_area().map(u64::from)
}
