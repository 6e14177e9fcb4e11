//! The comparison's own inputs: each named breakage has its refusal, and a call its text.

use second::request::SECOND;
use second::{apply, build, convert, pack, read, segment, Answer, Cell, Layout, Record, Refusal};
use second::{Request, Table};

use super::call::Call;
use super::lists::{wrong_lists, wrong_packings};
use super::wrong_tables::WrongTables;
use crate::given::heads::heads;
use crate::given::random::{seed, Random};
use crate::given::wrong_records::WrongRecords;

#[test]
fn each_named_breakage_has_its_refusal() {
    let mut random = Random::new(seed("breakages"));
    let second = Record { request: Request { kind: SECOND, ..Request::default() }, items: vec![] };
    for _ in 0..20 {
        let heads = heads(&mut random, 3);
        let legal = Table { cells: heads.iter().cloned().map(Cell::empty).collect() }.encode();
        for wrong in WrongRecords::all(&mut random, &heads) {
            assert_eq!(read(&wrong.bytes).number, wrong.number, "{}", wrong.name);
            let mut answer = vec![0; Answer::room(SECOND, 3)];
            let done = apply(&mut legal.clone(), &wrong.bytes, &mut answer);
            assert_eq!(done.number, wrong.number, "{}", wrong.name);
        }
        for mut wrong in WrongTables::all(Layout::CURRENT, &mut random) {
            let mut answer = vec![0; Answer::room(SECOND, 513)];
            let done = apply(&mut wrong.bytes, &second.encode(), &mut answer);
            assert_eq!(done.number, wrong.number, "{}", wrong.name);
        }
        for wrong in WrongTables::all(Layout::VERSION_1, &mut random) {
            let done = convert(&wrong.bytes, &mut vec![0; Layout::CURRENT.table(513)]);
            assert_eq!(done.number, wrong.number, "{}, converted", wrong.name);
        }
        for wrong in WrongTables::all_heads(&mut random) {
            let done = build(&wrong.bytes, &mut vec![0; Layout::CURRENT.table(1025)]);
            assert_eq!(done.number, wrong.number, "{}", wrong.name);
        }
    }
}

#[test]
fn each_named_breakage_of_a_list_has_its_refusal() {
    let mut random = Random::new(seed("lists"));
    for wrong in wrong_lists(&mut random) {
        for k in [0, 1, 63, 64, usize::MAX] {
            let number = segment(b"first", &wrong.bytes, k).map_or_else(Refusal::number, |_| 0);
            assert_eq!(number, wrong.number, "{}, k {k}", wrong.name);
        }
    }
    for wrong in wrong_packings(&mut random) {
        let done = pack(&wrong.bytes, &wrong.lengths, &mut vec![0; wrong.room]);
        assert_eq!(done.number, wrong.number, "{}", wrong.name);
    }
}

#[test]
fn a_call_reads_back_from_its_text() {
    let request = Request { kind: 1, content: 7, sib: 8, ..Request::default() };
    for call in [
        Call::Build { heads: vec![1, 2], table: vec![] },
        Call::Apply { table: vec![0xff], record: vec![], answer: vec![0, 1] },
        Call::Read { record: vec![0x50] },
        Call::Write { request, items: vec![1, u64::MAX], record: vec![] },
        Call::Item { record: vec![1; 40], k: usize::MAX },
        Call::Segment { first: vec![], more: vec![0, 1, 7], k: usize::MAX },
        Call::Pack { bytes: vec![7], lengths: vec![1, u64::MAX], list: vec![] },
        Call::Convert { old: vec![0x50], table: vec![] },
        Call::ReadCancel { message: vec![0, 21, 0], record: vec![] },
        Call::WriteResponse { answer: vec![0x50], transaction: 255, message: vec![] },
        Call::ReadResponse { message: vec![0x40, 20], answer: vec![7] },
    ] {
        assert_eq!(Call::parse(&call.to_string()), Some(call));
    }
}
