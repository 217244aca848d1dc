//! The state of a task set's cores, and the calls on it.

use crate::lent::{self, Core, Semaphore};
use crate::refusal::Refusal;
use crate::task_set::TaskSet;
use crate::trace::Trace;
use crate::SHARED_SIZE;
use std::fmt;

/// What a core is about.
#[derive(Clone, Copy, PartialEq, Eq, Debug)]
#[repr(u8)]
pub enum Mode {
    /// Its next step takes the semaphore to read, where it is its turn and there is a record left.
    BetweenCycles = 0,
    /// Copies the variables that it reads, byte by byte; it holds the semaphore.
    Reading = 1,
    /// One instruction a step.
    Executing = 2,
    /// Its next step takes the semaphore to write, where it is its turn.
    WaitingToWrite = 3,
    /// Copies the variables that it writes, byte by byte; it holds the semaphore.
    Writing = 4,
    /// A fault stopped it, for good.
    Stopped = 5,
}

impl Mode {
    /// Document 01's number.
    pub fn number(self) -> u8 {
        self as u8
    }

    /// The mode in words.
    pub fn words(self) -> &'static str {
        match self {
            Mode::BetweenCycles => "between cycles",
            Mode::Reading => "reading",
            Mode::Executing => "executing",
            Mode::WaitingToWrite => "waiting to write",
            Mode::Writing => "writing",
            Mode::Stopped => "stopped",
        }
    }
}

impl Core {
    /// The mode of a record that a call left; panics at a number above 5, which no call leaves.
    pub fn mode(&self) -> Mode {
        match self.mode {
            0 => Mode::BetweenCycles,
            1 => Mode::Reading,
            2 => Mode::Executing,
            3 => Mode::WaitingToWrite,
            4 => Mode::Writing,
            5 => Mode::Stopped,
            mode => panic!("no mode: {mode}"),
        }
    }

    /// The open calls: return places with the data offsets that go with them, the latest last.
    pub fn stack(&self) -> impl Iterator<Item = (u16, u16)> + '_ {
        self.places.iter().copied().zip(self.offsets).take(self.depth as usize)
    }
}

/// What each bit of a flag byte says, the lowest first; bit 7 is never set.
pub fn flag_words(flags: u8) -> Vec<&'static str> {
    const BITS: [&str; 7] = [
        "array index",
        "instruction limit",
        "cold start",
        "zero divisor",
        "address beyond the data",
        "seventeenth nested call",
        "a result that the destination cannot hold",
    ];
    BITS.into_iter().enumerate().filter(|(bit, _)| flags >> bit & 1 == 1).map(|(_, words)| words).collect()
}

/// The two kinds of exchange.
#[derive(Clone, Copy, PartialEq, Eq, Debug)]
pub enum Exchange {
    /// From shared memory to a core's data, before its cycle.
    Reading,
    /// From a core's data to shared memory, after its cycle.
    Writing,
}

/// A taking of the semaphore: a core and whether it reads or writes. It prints as `0r` or `0w`.
#[derive(Clone, Copy, PartialEq, Eq, Debug)]
pub struct Taking {
    /// Who took it.
    pub core: u8,
    /// What for.
    pub exchange: Exchange,
}

impl Taking {
    const WRITING_MARK: u8 = 16;

    /// The taking that a byte of an order list stands for: the core, plus 16 for a writing. None of a byte that names no core of any task set.
    pub fn from_byte(byte: u8) -> Option<Taking> {
        match byte {
            0..=3 => Some(Taking { core: byte, exchange: Exchange::Reading }),
            16..=19 => Some(Taking { core: byte - Taking::WRITING_MARK, exchange: Exchange::Writing }),
            _ => None,
        }
    }

    /// Its byte in an order list.
    pub fn to_byte(self) -> u8 {
        match self.exchange {
            Exchange::Reading => self.core,
            Exchange::Writing => self.core + Taking::WRITING_MARK,
        }
    }
}

impl fmt::Display for Taking {
    fn fmt(&self, f: &mut fmt::Formatter) -> fmt::Result {
        write!(f, "{}{}", self.core, if self.exchange == Exchange::Reading { 'r' } else { 'w' })
    }
}

/// The core table, the semaphore with its line, the cores' data and shared memory.
///
/// A call takes the task set and the trace that the state belongs to; with others it is refused as unfit (21 or 23), or runs on as far as the state fits them.
#[derive(Clone, PartialEq, Eq, Debug)]
pub struct State {
    table: Vec<Core>,
    semaphore: Semaphore,
    /// The cores' data end to end, core 0 first.
    buffer: Vec<u8>,
    /// Where each core's data ends in the buffer.
    ends: Vec<usize>,
    shared: Vec<u8>,
}

impl State {
    /// The fresh state: memories zero but for start values, registers 0, flags 4 (cold start), the semaphore free and nobody in line.
    pub fn fresh(set: &TaskSet) -> State {
        let mut state = State::empty(set);
        let number = lent::fresh(set.file(), &mut state.table, &mut state.semaphore, &mut state.buffer, &mut state.shared);
        Refusal::judged(number).expect("an accepted file has a fresh state");
        state
    }

    /// Where the cores stood after the takings of an order list (document 02, 2.13), each exchange whole and each execution straight after its reading.
    ///
    /// Refused is a list that no order of steps produces (33).
    pub fn rerun(set: &TaskSet, trace: &Trace, list: &[u8]) -> Result<State, Refusal> {
        let mut state = State::empty(set);
        let State { table, semaphore, buffer, shared, .. } = &mut state;
        Refusal::judged(lent::rerun(set.file(), trace.bytes(), list, table, semaphore, buffer, shared))?;
        Ok(state)
    }

    /// Memories of the right size.
    fn empty(set: &TaskSet) -> State {
        let ends = set.tasks().iter().scan(0, |end, task| {
            *end += task.data_size as usize;
            Some(*end)
        });
        State {
            table: vec![Core::default(); set.tasks().len()],
            semaphore: Semaphore::default(),
            buffer: vec![0; set.data_total()],
            ends: ends.collect(),
            shared: vec![0; SHARED_SIZE],
        }
    }

    /// One step of a core, and the taking that it was, if it was one. Refused is a core that the task set does not have (20).
    pub fn step(&mut self, set: &TaskSet, trace: &Trace, core: u8) -> Result<Option<Taking>, Refusal> {
        let mode = |state: &State| state.table.get(core as usize).map(|core| core.mode());
        let before = mode(self);
        let State { table, semaphore, buffer, shared, .. } = self;
        Refusal::judged(lent::step(set.file(), trace.bytes(), table, semaphore, buffer, shared, core))?;
        // A taking is a step from mode 0 to 1 or from 3 to 4.
        let exchange = match (before, mode(self)) {
            (Some(Mode::BetweenCycles), Some(Mode::Reading)) => Some(Exchange::Reading),
            (Some(Mode::WaitingToWrite), Some(Mode::Writing)) => Some(Exchange::Writing),
            _ => None,
        };
        Ok(exchange.map(|exchange| Taking { core, exchange }))
    }

    /// The steps of an order, one byte a step, and their takings. Refused is an order that names a core which the task set does not have (20); no step of it is
    /// made then.
    pub fn run(&mut self, set: &TaskSet, trace: &Trace, order: &[u8]) -> Result<Vec<Taking>, Refusal> {
        let (mut list, mut taken) = (vec![0; order.len()], 0);
        let State { table, semaphore, buffer, shared, .. } = self;
        Refusal::judged(lent::run(set.file(), trace.bytes(), table, semaphore, buffer, shared, order, &mut list, &mut taken))?;
        Ok(list[..taken].iter().map(|&byte| Taking::from_byte(byte).expect("a run lists its own cores")).collect())
    }

    /// The first core after `given`, round the ring and that one last, whose step would change something. None says that every core is stopped or out of
    /// records.
    pub fn next_core(&self, set: &TaskSet, trace: &Trace, given: u8) -> Result<Option<u8>, Refusal> {
        let mut found = lent::NO_CORE;
        Refusal::judged(lent::next_core(set.file(), trace.bytes(), &self.table, &self.semaphore, given, &mut found))?;
        Ok((found != lent::NO_CORE).then_some(found))
    }

    /// The core table: a record for each core.
    pub fn table(&self) -> &[Core] {
        &self.table
    }

    /// The semaphore, with the line of cores that wait for it.
    pub fn semaphore(&self) -> &Semaphore {
        &self.semaphore
    }

    /// All data of a core; none of a core that the task set does not have.
    pub fn data(&self, core: u8) -> &[u8] {
        let core = core as usize;
        match self.ends.get(core) {
            Some(&end) => &self.buffer[if core == 0 { 0 } else { self.ends[core - 1] }..end],
            None => &[],
        }
    }

    /// Shared memory.
    pub fn shared(&self) -> &[u8] {
        &self.shared
    }

    /// A stretch of a core's data (document 02, 2.14). Refused is a core that is not there, or a stretch that leaves its data (34).
    pub fn data_window(&self, set: &TaskSet, core: u8, start: usize, count: usize) -> Result<&[u8], Refusal> {
        let mut place = 0;
        Refusal::judged(lent::data_window(set.file(), &self.buffer, core, start, count, &mut place))?;
        Ok(&self.buffer[place..place + count])
    }

    /// A stretch of a core's code, where it stands in the file. Refused is a core that is not there, or a stretch that leaves its code (34).
    pub fn code_window<'s>(&self, set: &'s TaskSet, core: u8, start: usize, count: usize) -> Result<&'s [u8], Refusal> {
        let mut place = 0;
        Refusal::judged(lent::code_window(set.file(), &self.buffer, core, start, count, &mut place))?;
        Ok(&set.file()[place..place + count])
    }
}
