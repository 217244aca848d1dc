//! The lowest reading over the holding time (document 02, 2.11).

use crate::lent;
use crate::refusal::Refusal;

/// Bytes of a record, a TIME and an INT.
const RECORD: usize = 6;
/// Bytes of an answer, an INT.
const ANSWER: usize = 2;

/// A record of the holding tube.
#[derive(Clone, Copy, PartialEq, Eq, Debug)]
pub struct Record {
    /// In milliseconds, as TIME.
    pub time: i32,
    /// As INT: a temperature in tenths of a degree, say.
    pub reading: i16,
}

/// For each record of a run the smallest reading among the records up to it whose time is at least its own time minus the span, in milliseconds.
///
/// Refused, in this order: a span that is not 1 to 600,000 (28); a time below the one before, or a run cut inside a record (30).
///
/// ```
/// // 0 s, 74.0; 1 s, 71.9; 2 s, 73.0 degrees
/// let run = [0, 0, 0, 0, 0xE4, 2, 0xE8, 3, 0, 0, 0xCF, 2, 0xD0, 7, 0, 0, 0xDA, 2];
/// assert_eq!(rikzord::lowest(&run, 1_000), Ok(vec![740, 719, 719]));
/// ```
pub fn lowest(run: &[u8], span: u32) -> Result<Vec<i16>, Refusal> {
    // A record that is cut counts as one more for the answer places.
    let mut answers = vec![0; ANSWER * run.len().div_ceil(RECORD)];
    Refusal::judged(lent::lowest(run, span, &mut answers))?;
    Ok(answers.chunks_exact(ANSWER).map(|answer| i16::from_le_bytes([answer[0], answer[1]])).collect())
}

/// The records of a run; bytes of a cut one are left out.
pub fn records(run: &[u8]) -> Vec<Record> {
    let record = |bytes: &[u8]| Record {
        time: i32::from_le_bytes([bytes[0], bytes[1], bytes[2], bytes[3]]),
        reading: i16::from_le_bytes([bytes[4], bytes[5]]),
    };
    run.chunks_exact(RECORD).map(record).collect()
}
