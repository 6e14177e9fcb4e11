//! Demand 3: calls may change places as long as any two accepted ones that reach a common cell
//! keep their order; the tables end equal and each call has the same outcome.

use second::{apply, Answer, Area, Head, Record};

use super::call::{Call, Outcome};
use super::compare::Difference;
use super::tables::table;
use super::texts::hex;
use super::unit::Unit;
use crate::given::heads::heads;
use crate::given::random::Random;
use crate::given::records::{encoded, record};

struct Step {
    record: Vec<u8>,
    answer: Vec<u8>,
    /// For each cell, whether an accepted call reaches it; a refused one reaches none.
    reach: Vec<bool>,
}

impl Step {
    fn meets(&self, other: &Step) -> bool {
        self.reach.iter().zip(&other.reach).any(|(here, there)| *here && *there)
    }
}

/// How many calls a trial made, and how many of its orders were not the given one.
#[derive(Default)]
pub struct Reordered {
    pub calls: usize,
    pub moved: usize,
}

/// One sequence in several orders.
pub fn reorder(unit: &dyn Unit, random: &mut Random) -> Result<Reordered, Difference> {
    let cells = 2 + random.below(7);
    let heads = heads(random, cells);
    let table = table(random, &heads).encode();
    let steps: Vec<Step> =
        (0..4 + random.below(30)).map(|_| step(random, &table, &heads)).collect();
    let given: Vec<usize> = (0..steps.len()).collect();
    let expected = run(unit, &table, &steps, &given);
    let mut reordered = Reordered { calls: steps.len(), moved: 0 };
    for _ in 0..3 {
        let order = another_order(random, &steps);
        reordered.calls += steps.len();
        reordered.moved += usize::from(order != given);
        if run(unit, &table, &steps, &order) != expected {
            return Err(told(&table, &steps, &order));
        }
    }
    Ok(reordered)
}

/// A call that mostly names an area, since calls that reach every cell cannot change places.
fn step(random: &mut Random, table: &[u8], heads: &[Head]) -> Step {
    let mut given = record(random, heads);
    while given.items.is_empty() && !random.one_in(8) {
        given = record(random, heads);
    }
    let mut bytes = encoded(random, &given);
    if random.one_in(12) {
        let offset = random.below(bytes.len());
        bytes[offset] = random.other(bytes[offset]);
    }
    let room = Answer::room(given.request.kind, heads.len());
    let short = usize::from(random.one_in(12));
    let answer = random.bytes(room - short);
    Step { reach: reach(table, &bytes, &answer, heads), record: bytes, answer }
}

/// Whether a call is accepted and what it reaches hang on the heads alone, so that the reach on
/// the first table is the reach throughout.
fn reach(table: &[u8], record: &[u8], answer: &[u8], heads: &[Head]) -> Vec<bool> {
    let accepted = apply(&mut table.to_vec(), record, &mut answer.to_vec()).number == 0;
    match Record::parse(record) {
        Ok(record) if accepted => {
            let area = Area::of(&record);
            heads.iter().map(|head| area.reaches(head)).collect()
        }
        _ => vec![false; heads.len()],
    }
}

/// The table at the end, and the outcome of each step but for its table.
fn run(
    unit: &dyn Unit,
    table: &[u8],
    steps: &[Step],
    order: &[usize],
) -> (Vec<u8>, Vec<Option<Outcome>>) {
    let mut table = table.to_vec();
    let mut outcomes = vec![None; steps.len()];
    for index in order {
        let Step { record, answer, .. } = &steps[*index];
        let call = Call::Apply { table, record: record.clone(), answer: answer.clone() };
        let outcome = call.made_by(unit);
        let Outcome::Apply { returned, table: left, answer } = outcome else {
            unreachable!("applying has no other outcome");
        };
        table = left;
        outcomes[*index] = Some(Outcome::Apply { returned, table: Vec::new(), answer });
    }
    (table, outcomes)
}

/// At each point any step whose turn it may be: no earlier one that it meets is still to come.
fn another_order(random: &mut Random, steps: &[Step]) -> Vec<usize> {
    let mut left: Vec<usize> = (0..steps.len()).collect();
    let mut order = Vec::new();
    while !left.is_empty() {
        let free = |at: &usize| {
            left[..*at].iter().all(|earlier| !steps[*earlier].meets(&steps[left[*at]]))
        };
        let free: Vec<usize> = (0..left.len()).filter(free).collect();
        order.push(left.remove(random.pick(&free)));
    }
    order
}

fn told(table: &[u8], steps: &[Step], order: &[usize]) -> Difference {
    let steps = steps.iter().map(|step| format!("{} {}\n", hex(&step.record), hex(&step.answer)));
    let steps: String = steps.collect();
    format!("the order {order:?} differs on table {}, records and answers:\n{steps}", hex(table))
}
