//! The program "broadcast report": runs requests from an input and prints what came of them.

use std::io::{self, Read, Write};

use crate::answer::Answer;
use crate::apply::answered;
use crate::cell::Head;
use crate::fault::Fault;
use crate::layout::Layout;
use crate::record::Record;
use crate::refusal::Refusal;
use crate::table::{build, Table};

/// Reads N, N heads and records, to the end of the input or to where the program stops.
pub fn report(mut input: impl Read, mut output: impl Write) -> Result<(), Fault> {
    match read_table(&mut input)? {
        Some(table) => answer_records(table, &mut input, &mut output)?,
        None => print(&Err(Refusal::Heads), &mut output)?,
    }
    output.flush().map_err(Fault::Unwritten)
}

fn answer_records(
    mut table: Vec<u8>,
    input: &mut impl Read,
    output: &mut impl Write,
) -> Result<(), Fault> {
    while let Some(record) = read_record(input)? {
        let answered = answered(&Layout::CURRENT, &mut table, &record, usize::MAX);
        print(&answered, output)?;
        if answered.is_err_and(stops) {
            break;
        }
    }
    Ok(())
}

/// An empty table of the heads in the input. With N not 1 to 512 "no heads are read".
fn read_table(input: &mut impl Read) -> Result<Option<Vec<u8>>, Fault> {
    let Ok(count) = <[u8; 2]>::try_from(read_part(input, 2)?) else {
        return Ok(None);
    };
    let count = usize::from(u16::from_be_bytes(count));
    if !Table::CELLS.contains(&count) {
        return Ok(None);
    }
    let heads = read_part(input, count * Head::LENGTH)?;
    let mut table = vec![0; Layout::CURRENT.table(count)];
    let built = heads.len() == count * Head::LENGTH && build(&heads, &mut table).number == 0;
    Ok(built.then_some(table))
}

/// The next record, "framed by its own n", or what there is of it; `None` at the end of the input.
/// The items of a record with n above 512 are not read, since the program stops there.
fn read_record(input: &mut impl Read) -> Result<Option<Vec<u8>>, Fault> {
    let mut record = read_part(input, Record::HEADER)?;
    let longest = Record::HEADER + Record::ITEM * Record::MOST_ITEMS;
    if let Some(length) = Record::framed_length(&record).filter(|length| *length <= longest) {
        record.extend(read_part(input, length - Record::HEADER)?);
    }
    Ok((!record.is_empty()).then_some(record))
}

/// That many bytes; fewer only where the input ends.
fn read_part(input: &mut impl Read, length: usize) -> Result<Vec<u8>, Fault> {
    let mut part = Vec::with_capacity(length);
    input.take(length as u64).read_to_end(&mut part).map_err(Fault::Unread)?;
    Ok(part)
}

/// Behind these no record's frame is known. A record cut off by the end of input is among them.
fn stops(refusal: Refusal) -> bool {
    matches!(refusal, Refusal::RecordMark | Refusal::RecordLength)
}

fn print(answered: &Result<Answer, Refusal>, output: &mut impl Write) -> Result<(), Fault> {
    match answered {
        Ok(answer) => print_rows(answer, output),
        Err(refusal) => writeln!(output, "no {}", refusal.number()),
    }
    .map_err(Fault::Unwritten)
}

fn print_rows(answer: &Answer, output: &mut impl Write) -> io::Result<()> {
    writeln!(output, "ok {} {}", answer.kind, answer.rows.len())?;
    for row in &answer.rows {
        writeln!(output, "{:015x} {} {}", row.identity.number(), row.count.0, row.content)?;
    }
    Ok(())
}

#[cfg(test)]
mod tests {
    use super::*;
    use crate::cell::CellIdentity;
    use crate::request::{Request, RESTART};

    fn reported(input: &[u8]) -> String {
        let mut output = Vec::new();
        report(input, &mut output).unwrap();
        String::from_utf8(output).unwrap()
    }

    fn heads(count: u16) -> Vec<u8> {
        let identity = |part: u16| CellIdentity::from_number(part.into()).unwrap();
        let head = |part| Head { identity: identity(part), code: 0, areas: vec![] }.encode();
        [count.to_be_bytes().to_vec(), (0..count).flat_map(head).collect()].concat()
    }

    fn restart(items: &[u64]) -> Vec<u8> {
        let area = u8::from(!items.is_empty());
        let request = Request { kind: RESTART, area, ..Request::default() };
        Record { request, items: items.to_vec() }.encode()
    }

    #[test]
    fn a_refused_table_prints_9() {
        for input in [&[][..], &[0], &[0, 0], &[2, 1], &[255, 255], &heads(513)] {
            assert_eq!(reported(input), "no 9\n");
        }
        let whole = heads(2);
        assert_eq!(reported(&whole[..whole.len() - 1]), "no 9\n");
        assert_eq!(reported(&whole), "");
        let bad = [&[0, 2][..], &whole[26..], &whole[2..26]].concat();
        assert_eq!(reported(&bad), "no 9\n");
    }

    #[test]
    fn a_cut_record_prints_the_readers_number() {
        let record = restart(&[0, 1]);
        for length in 1..record.len() {
            let input = [&heads(1), &restart(&[]), &record[..length]].concat();
            let number = if length < Record::HEADER { 3 } else { 4 };
            assert_eq!(reported(&input), format!("ok 3 1\n000000000000000 0 0\nno {number}\n"));
        }
    }

    #[test]
    fn it_goes_on_behind_5_to_7_and_stops_behind_3_and_4() {
        let change = |offset: usize, value: u8| {
            let mut record = restart(&[0]);
            record[offset] = value;
            [heads(1), record, restart(&[1])].concat()
        };
        assert_eq!(reported(&change(5, 9)), "no 5\nok 3 0\n");
        assert_eq!(reported(&change(26, 0x10)), "no 6\nok 3 0\n");
        assert_eq!(reported(&change(0, 0)), "no 3\n");
        assert_eq!(reported(&change(24, 0x80)), "no 4\n");
    }
}
