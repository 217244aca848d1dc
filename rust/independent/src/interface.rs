//! What a machine offers: document 01's calls on lent memory. Each answers the refusal number, 0 for none; a refused call changes nothing.

use crate::reference::{self, refusal, Core, Semaphore};

#[derive(Clone, Copy, PartialEq, Eq, Debug)]
pub enum Next {
    Refused(u8),
    Core(u8),
    /// Every core is stopped or out of records.
    Nothing,
}

#[allow(clippy::too_many_arguments)]
pub trait Machine {
    fn name(&self) -> &'static str;

    fn check_file(&self, file: &[u8]) -> u8;

    /// Makes the fresh state; a table of more than n records keeps the others.
    fn fresh(&self, file: &[u8], table: &mut [Core], semaphore: &mut Semaphore, buffer: &mut [u8], shared: &mut [u8]) -> u8;

    /// One step; `taken` becomes the order list's byte, or `None` where the step is no taking.
    fn step(
        &self,
        file: &[u8],
        trace: &[u8],
        table: &mut [Core],
        semaphore: &mut Semaphore,
        buffer: &mut [u8],
        shared: &mut [u8],
        core: u8,
        taken: &mut Option<u8>,
    ) -> u8;

    /// The steps of the order; `taken` becomes the number of takings, whose bytes stand first in the list.
    fn run(
        &self,
        file: &[u8],
        trace: &[u8],
        table: &mut [Core],
        semaphore: &mut Semaphore,
        buffer: &mut [u8],
        shared: &mut [u8],
        order: &[u8],
        list: &mut [u8],
        taken: &mut usize,
    ) -> u8;

    fn next_core(&self, file: &[u8], trace: &[u8], table: &[Core], semaphore: &Semaphore, core: u8) -> Next;
}

/// The machine of `reference`.
pub struct Reference;

impl Machine for Reference {
    fn name(&self) -> &'static str {
        "reference"
    }

    fn check_file(&self, file: &[u8]) -> u8 {
        reference::check_file(file)
    }

    fn fresh(&self, file: &[u8], table: &mut [Core], semaphore: &mut Semaphore, buffer: &mut [u8], shared: &mut [u8]) -> u8 {
        reference::fresh(file, table, semaphore, buffer, shared)
    }

    fn step(
        &self,
        file: &[u8],
        trace: &[u8],
        table: &mut [Core],
        semaphore: &mut Semaphore,
        buffer: &mut [u8],
        shared: &mut [u8],
        core: u8,
        taken: &mut Option<u8>,
    ) -> u8 {
        reference::step(file, trace, table, semaphore, buffer, shared, core, taken)
    }

    fn run(
        &self,
        file: &[u8],
        trace: &[u8],
        table: &mut [Core],
        semaphore: &mut Semaphore,
        buffer: &mut [u8],
        shared: &mut [u8],
        order: &[u8],
        list: &mut [u8],
        taken: &mut usize,
    ) -> u8 {
        reference::run(file, trace, table, semaphore, buffer, shared, order, list, taken)
    }

    fn next_core(&self, file: &[u8], trace: &[u8], table: &[Core], semaphore: &Semaphore, core: u8) -> Next {
        match reference::next_core(file, trace, table, semaphore, core) {
            Err(number) => Next::Refused(number),
            Ok(None) => Next::Nothing,
            Ok(Some(core)) => Next::Core(core),
        }
    }
}

/// Another machine's `run` and `next_core` made of its single steps, as document 01 defines them: a run is its steps, and the next core is
/// the first whose step changes something, found by trying. Compared with the machine itself, it tests that the two agree.
pub struct Stepwise<M>(pub M);

/// No task set has this core, so that a step of it judges all else and is then refused.
const NO_CORE: u8 = 255;

impl<M: Machine> Machine for Stepwise<M> {
    fn name(&self) -> &'static str {
        "stepwise"
    }

    fn check_file(&self, file: &[u8]) -> u8 {
        self.0.check_file(file)
    }

    fn fresh(&self, file: &[u8], table: &mut [Core], semaphore: &mut Semaphore, buffer: &mut [u8], shared: &mut [u8]) -> u8 {
        self.0.fresh(file, table, semaphore, buffer, shared)
    }

    fn step(
        &self,
        file: &[u8],
        trace: &[u8],
        table: &mut [Core],
        semaphore: &mut Semaphore,
        buffer: &mut [u8],
        shared: &mut [u8],
        core: u8,
        taken: &mut Option<u8>,
    ) -> u8 {
        self.0.step(file, trace, table, semaphore, buffer, shared, core, taken)
    }

    fn run(
        &self,
        file: &[u8],
        trace: &[u8],
        table: &mut [Core],
        semaphore: &mut Semaphore,
        buffer: &mut [u8],
        shared: &mut [u8],
        order: &[u8],
        list: &mut [u8],
        taken: &mut usize,
    ) -> u8 {
        let judged = self.0.step(file, trace, table, semaphore, buffer, shared, NO_CORE, &mut None);
        if refusal::of_file(judged) {
            return judged;
        }
        if list.len() < order.len() {
            return refusal::SIZES;
        }
        if judged != refusal::NO_SUCH_CORE {
            return judged;
        }
        let cores = table.len();
        if order.iter().any(|&core| core as usize >= cores) {
            return refusal::NO_SUCH_CORE;
        }
        *taken = 0;
        reference::clear_spare(table);
        reference::clear_past(semaphore);
        for &core in order {
            let mut taking = None;
            let number = self.0.step(file, trace, table, semaphore, buffer, shared, core, &mut taking);
            assert_eq!(number, refusal::NONE, "a state that a step gave back is fit");
            if let Some(taking) = taking {
                list[*taken] = taking;
                *taken += 1;
            }
        }
        refusal::NONE
    }

    fn next_core(&self, file: &[u8], trace: &[u8], table: &[Core], semaphore: &Semaphore, core: u8) -> Next {
        let number = self.0.check_file(file);
        if number != refusal::NONE {
            return Next::Refused(number);
        }
        let cores = file[4] as usize;
        let size = (0..cores).map(|k| u16::from_le_bytes([file[5 + 6 * k], file[6 + 6 * k]]) as usize).sum();
        // The memories play no part: every step that changes memory changes a register too.
        let (buffer, shared) = (vec![0; size], vec![0; reference::SHARED_SIZE]);
        // Nor do spare bytes and entries past the line, which an accepted step clears.
        let (mut table, mut semaphore) = (table.to_vec(), *semaphore);
        reference::clear_spare(&mut table);
        reference::clear_past(&mut semaphore);
        for on in 1..=cores {
            let (mut table_after, mut semaphore_after) = (table.to_vec(), semaphore);
            let tried = if (core as usize) < cores { (core as usize + on) % cores } else { core as usize };
            let (mut buffer, mut shared) = (buffer.clone(), shared.clone());
            let number = self.0.step(file, trace, &mut table_after, &mut semaphore_after, &mut buffer, &mut shared, tried as u8, &mut None);
            if number != refusal::NONE {
                return Next::Refused(number);
            }
            if table_after != table || semaphore_after != semaphore {
                return Next::Core(tried as u8);
            }
        }
        Next::Nothing
    }
}
