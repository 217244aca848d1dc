//! Files, each read with the most bytes that it may have.

use crate::Failure;
use rikzord::{Refusal, TaskSet, Trace};
use std::fs::File;
use std::io::Read;

/// What a file is, and the most bytes that are read of it.
pub struct Kind {
    pub name: &'static str,
    pub most: usize,
}

/// As the program `cores` reads them (document 02, 2.12, and document 01).
pub const TASK_SET: Kind = Kind { name: "task set", most: 82_800 };
pub const TRACE: Kind = Kind { name: "trace", most: 4_096 };
pub const ORDER: Kind = Kind { name: "order", most: 4_096 };
/// As many takings as an order has steps.
pub const ORDER_LIST: Kind = Kind { name: "order list", most: 4_096 };
/// A million records of six bytes: one a second for eleven days.
pub const RECORDS: Kind = Kind { name: "records", most: 6_000_000 };
/// The text of the longest task set has less than half of this.
pub const TEXT: Kind = Kind { name: "text", most: 4_000_000 };

pub const KINDS: [Kind; 6] = [TASK_SET, TRACE, ORDER, ORDER_LIST, RECORDS, TEXT];

/// The bytes of a file.
pub fn read(path: &str, kind: &Kind) -> Result<Vec<u8>, Failure> {
    let unread = |error| Failure::File(format!("{path}: cannot be read as {}: {error}", kind.name));
    let file = File::open(path).map_err(unread)?;
    let mut bytes = Vec::new();
    file.take(kind.most as u64 + 1).read_to_end(&mut bytes).map_err(unread)?;
    if bytes.len() > kind.most {
        return Err(Failure::File(format!("{path}: too long: a file of this kind ({}) has at most {} bytes", kind.name, kind.most)));
    }
    Ok(bytes)
}

/// Writes a file whole, over one that is there.
pub fn write(path: &str, bytes: &[u8]) -> Result<(), Failure> {
    std::fs::write(path, bytes).map_err(|error| Failure::File(format!("{path}: cannot be written: {error}")))
}

/// The task set of a file.
pub fn task_set(path: &str) -> Result<TaskSet, Failure> {
    TaskSet::load(&read(path, &TASK_SET)?).map_err(|refusal| Failure::refused(path, refusal))
}

/// The trace of a file, for a task set; without a file the trace of no bytes (document 02, 2.6).
pub fn trace(path: Option<&str>, set: &TaskSet) -> Result<Trace, Failure> {
    let Some(path) = path else { return Ok(Trace::none(set)) };
    Trace::new(set, &read(path, &TRACE)?).map_err(|refusal: Refusal| Failure::refused(path, refusal))
}
