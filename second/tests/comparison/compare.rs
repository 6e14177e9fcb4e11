//! Makes each call on two units and tells the first difference.

use std::env;
use std::ffi::OsString;
use std::fs;
use std::panic::{catch_unwind, AssertUnwindSafe};

use second::{Done, Message};

use super::call::{Call, Outcome};
use super::part::Part;
use super::promises;
use super::unit::Unit;

/// The call and both outcomes, as text.
pub type Difference = String;

pub struct Compare<'a> {
    units: [(&'a str, &'a dyn Unit); 2],
    pub calls: u64,
    /// Each call is written here before it is made, so that one that ends the process is known.
    trace: Option<OsString>,
}

impl<'a> Compare<'a> {
    pub fn new(units: [(&'a str, &'a dyn Unit); 2]) -> Self {
        Compare { units, calls: 0, trace: env::var_os("TRACE") }
    }

    /// The outcome that both units have: number, length and every byte of every buffer.
    pub fn call(&mut self, call: Call) -> Result<Outcome, Difference> {
        self.calls += 1;
        if let Some(path) = &self.trace {
            fs::write(path, format!("{call}\n")).expect("TRACE names a file that can be written");
        }
        let [outcome, other] = self.units.map(|(_, unit)| made(&call, unit));
        if outcome == other && promises::are_kept(&call, &outcome) {
            return Ok(outcome);
        }
        let [(name, _), (other_name, _)] = self.units;
        let (calls, what) = (self.calls, outcome.difference(&other));
        Err(format!(
            "call {calls} differs in {what}:\n{call}\n{name}: {outcome}\n{other_name}: {other}\n"
        ))
    }

    pub fn build(&mut self, heads: &[u8], table: Vec<u8>) -> Result<(), Difference> {
        self.call(Call::Build { heads: heads.to_vec(), table }).map(drop)
    }

    /// The table as the call leaves it.
    pub fn apply(
        &mut self,
        table: Vec<u8>,
        record: &[u8],
        answer: Vec<u8>,
    ) -> Result<Vec<u8>, Difference> {
        self.apply_with_answer(table, record, answer).map(|(_, table, _)| table)
    }

    /// What applying returns, and the table and the answer as the call leaves them.
    pub fn apply_with_answer(
        &mut self,
        table: Vec<u8>,
        record: &[u8],
        answer: Vec<u8>,
    ) -> Result<(Done, Vec<u8>, Vec<u8>), Difference> {
        match self.call(Call::Apply { table, record: record.to_vec(), answer })? {
            Outcome::Apply { returned, table, answer } => Ok((returned, table, answer)),
            other => Err(format!("applying had the outcome {other}")),
        }
    }

    pub fn read(&mut self, record: &[u8]) -> Result<(), Difference> {
        self.call(Call::Read { record: record.to_vec() }).map(drop)
    }

    pub fn item(&mut self, record: &[u8], k: usize) -> Result<(), Difference> {
        self.call(Call::Item { record: record.to_vec(), k }).map(drop)
    }

    pub fn segment(&mut self, first: &[u8], more: &[u8], k: usize) -> Result<Part, Difference> {
        match self.call(Call::Segment { first: first.to_vec(), more: more.to_vec(), k })? {
            Outcome::Segment { returned } => Ok(returned),
            other => Err(format!("reading a segment had the outcome {other}")),
        }
    }

    /// What packing returns, and the buffer as the call leaves it.
    pub fn pack(
        &mut self,
        bytes: &[u8],
        lengths: &[u64],
        list: Vec<u8>,
    ) -> Result<(Done, Vec<u8>), Difference> {
        match self.call(Call::Pack { bytes: bytes.to_vec(), lengths: lengths.to_vec(), list })? {
            Outcome::Pack { returned, list } => Ok((returned, list)),
            other => Err(format!("packing had the outcome {other}")),
        }
    }

    /// What a call that reads a message returns, and the buffer as it leaves it.
    pub fn read_message(&mut self, call: Call) -> Result<(Message, Vec<u8>), Difference> {
        match self.call(call)? {
            Outcome::ReadCancel { returned, record: buffer }
            | Outcome::ReadResponse { returned, answer: buffer } => Ok((returned, buffer)),
            other => Err(format!("reading a message had the outcome {other}")),
        }
    }

    /// What writing a response returns, and the buffer as the call leaves it.
    pub fn write_response(
        &mut self,
        answer: &[u8],
        transaction: u8,
        message: Vec<u8>,
    ) -> Result<(Done, Vec<u8>), Difference> {
        match self.call(Call::WriteResponse { answer: answer.to_vec(), transaction, message })? {
            Outcome::WriteResponse { returned, message } => Ok((returned, message)),
            other => Err(format!("writing a response had the outcome {other}")),
        }
    }

    /// The buffer as the call leaves it.
    pub fn convert(&mut self, old: &[u8], table: Vec<u8>) -> Result<Vec<u8>, Difference> {
        match self.call(Call::Convert { old: old.to_vec(), table })? {
            Outcome::Convert { table, .. } => Ok(table),
            other => Err(format!("converting had the outcome {other}")),
        }
    }
}

fn made(call: &Call, unit: &dyn Unit) -> Outcome {
    catch_unwind(AssertUnwindSafe(|| call.made_by(unit))).unwrap_or(Outcome::Panicked)
}
