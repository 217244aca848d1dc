//! The trace: the inputs of every core, record by record.

use crate::lent;
use crate::refusal::Refusal;
use crate::state::State;
use crate::task_set::TaskSet;

/// A trace that the library accepted for a task set. One of no bytes means one record of zeros for every core (document 02, 2.6).
#[derive(Clone, PartialEq, Eq, Debug)]
pub struct Trace {
    bytes: Vec<u8>,
    records: Vec<Vec<InputRecord>>,
}

/// A record of a core's inputs: what one of its cycles starts from.
#[derive(Clone, PartialEq, Eq, Debug)]
pub struct InputRecord {
    /// In milliseconds, as TIME.
    pub time: i32,
    /// What goes to the core's first data bytes.
    pub inputs: Vec<u8>,
}

impl Trace {
    /// Refused is a trace that is cut or too long (22).
    pub fn new(set: &TaskSet, bytes: &[u8]) -> Result<Trace, Refusal> {
        let fresh = State::fresh(set);
        let mut found = 0;
        Refusal::judged(lent::next_core(set.file(), bytes, fresh.table(), fresh.semaphore(), 0, &mut found))?;
        Ok(Trace { bytes: bytes.to_vec(), records: records(set, bytes) })
    }

    /// The trace of no bytes, for a plant that has no inputs yet.
    pub fn none(set: &TaskSet) -> Trace {
        Trace::new(set, &[]).expect("a trace of no bytes is one record for every core")
    }

    /// The trace itself.
    pub fn bytes(&self) -> &[u8] {
        &self.bytes
    }

    /// The records of a core, those of a trace of no bytes included; none of a core that the task set does not have.
    pub fn records(&self, core: u8) -> &[InputRecord] {
        self.records.get(core as usize).map_or(&[], |records| records)
    }
}

/// The records of an accepted trace.
fn records(set: &TaskSet, bytes: &[u8]) -> Vec<Vec<InputRecord>> {
    const TIME_SIZE: usize = 4;
    let mut rest = bytes;
    let mut part = |task: &crate::Task| {
        let input_size = task.input_size as usize;
        if bytes.is_empty() {
            return vec![InputRecord { time: 0, inputs: vec![0; input_size] }];
        }
        let count = u16::from_le_bytes([rest[0], rest[1]]) as usize;
        let (own, after) = rest[2..].split_at(count * (TIME_SIZE + input_size));
        rest = after;
        let record = |record: &[u8]| {
            let (time, inputs) = record.split_at(TIME_SIZE);
            InputRecord { time: i32::from_le_bytes(time.try_into().expect("four bytes")), inputs: inputs.to_vec() }
        };
        own.chunks_exact(TIME_SIZE + input_size).map(record).collect()
    };
    set.tasks().iter().map(&mut part).collect()
}
