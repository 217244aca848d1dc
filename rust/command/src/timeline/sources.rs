//! What feeds a reading, from the order of takings alone.
//!
//! One semaphore guards every exchange, so an exchange is finished before the next taking. Whatever a core writes it writes whole, in one writing; a reading
//! therefore brings, of each core that it reads from, what the latest writing before it left, or the start values where there is none yet.

use rikzord::{Exchange, Taking, TaskSet, MOST_CORES};
use std::fmt;

/// What fed a reading, of one core that it reads from.
#[derive(Clone, Copy, PartialEq, Eq, Debug)]
pub struct Source {
    /// The core that writes.
    pub core: u8,
    /// The cycle whose writing it was, the first being 1; none for the start values.
    pub cycle: Option<u16>,
}

impl fmt::Display for Source {
    fn fmt(&self, f: &mut fmt::Formatter) -> fmt::Result {
        match self.cycle {
            Some(cycle) => write!(f, "cycle {cycle} of core {}", self.core),
            None => write!(f, "the start values of core {}", self.core),
        }
    }
}

/// A reading and what fed it.
#[derive(Clone, PartialEq, Eq, Debug)]
pub struct Reading {
    /// Its place among the takings.
    pub taking: usize,
    /// The core that reads.
    pub core: u8,
    /// The cycle that it begins, the first being 1.
    pub cycle: u16,
    /// One for each core that it reads from, by number.
    pub sources: Vec<Source>,
}

/// The cores that a core reads from, by number.
pub fn read_from(set: &TaskSet, core: u8) -> Vec<u8> {
    let writes = |writer: &u8| {
        let mut variables = set.variables().iter().filter(|variable| variable.writer.core == *writer);
        variables.any(|variable| variable.readers.iter().any(|reader| reader.core == core))
    };
    (0..set.cores()).filter(writes).collect()
}

/// Every reading of a list of takings, with what fed it.
pub fn readings(set: &TaskSet, takings: &[Taking]) -> Vec<Reading> {
    let read_from: Vec<Vec<u8>> = (0..set.cores()).map(|core| read_from(set, core)).collect();
    let mut written = [0; MOST_CORES];
    let mut list = Vec::new();
    for (place, &Taking { core, exchange }) in takings.iter().enumerate() {
        match exchange {
            Exchange::Writing => written[core as usize] += 1,
            Exchange::Reading => {
                let latest = |writer: u8| Some(written[writer as usize]).filter(|&cycle| cycle > 0);
                let sources = read_from[core as usize].iter().map(|&writer| Source { core: writer, cycle: latest(writer) });
                // A core writes once in each cycle, and reads again afterwards.
                list.push(Reading { taking: place, core, cycle: written[core as usize] + 1, sources: sources.collect() });
            }
        }
    }
    list
}
