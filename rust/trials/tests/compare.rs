//! A short comparison, and the test that the comparison sees wrong machines.

use independent::comparison::compare;
use independent::interface::{Machine, Next, Reference, Stepwise};
use independent::reference::{self, command, flag, mode, refusal, types, Core, Semaphore};
use std::ops::Range;
use std::panic::{catch_unwind, AssertUnwindSafe};

#[test]
fn a_run_is_its_steps() {
    let tally = compare(&Reference, &Stepwise(Reference), 2, 3000);
    assert_eq!(tally.missing(), Vec::<String>::new());
}

#[test]
fn the_proved_machine_agrees() {
    let tally = compare(&Reference, &trials::linked::Linked, 3, 3000);
    assert_eq!(tally.missing(), Vec::<String>::new());
}

#[derive(Clone, Copy, Debug, PartialEq)]
enum Mistake {
    /// None: without one the same machine passes.
    Nothing,
    /// Judges the order step by step, so that steps before a wrong one are made.
    OrderJudgedLate,
    /// Writes the number of takings of a refused run.
    OutputOfRefused,
    /// Clears records of the table that the task set doesn't have.
    WholeTableFresh,
    /// Tries the given core first.
    RingStartsAtItself,
    /// Judges the state before the trace.
    StateBeforeTrace,
    /// Leaves the freed stack entry as it was.
    StackEntryKept,
    /// Clears the rest of the order list.
    RestOfListCleared,
    /// Takes bytes left over for a cut.
    LeftoversAreACut,
    /// Takes a cut for bytes left over.
    CutIsLeftovers,
    /// Leaves the dividend where MOD divides by zero.
    DividendLeft,
    /// Stops the core where MOD divides by zero.
    ModByZeroStops,
    /// Joins the line at its front.
    JoinsAtTheFront,
    /// Lets a core that is out of records join.
    SpentCoreJoins,
    /// Empties the line where the semaphore is released.
    ReleaseEmptiesTheLine,
    /// Lets a core with a number below the first's take the semaphore.
    FirstOrLower,
    /// Lets a core that stands in line join again.
    JoinsTwice,
    /// Leaves the core that takes the semaphore in line.
    TakingKeepsTheLine,
    /// Leaves what stood past the line.
    PastTheLineKept,
    /// Says that a core in line moves.
    CoreInLineMoves,
    /// Refuses a state with flag bit 6.
    BitSixUnfit,
    /// Goes on where the destination of a conversion can't hold the result.
    NotHeldGoesOn,
    /// Tells it as an address beyond the data.
    NotHeldIsBeyond,
    /// Refuses a trace of no bytes.
    NoTraceRefused,
    /// Leaves the input bytes as they were where the trace has no bytes.
    BlankInputsKept,
    /// Accepts a start place twice.
    EqualPlacesAccepted,
    /// Tells bytes left over before a wrong start place.
    LeftoversBeforeStarts,
    /// Leaves shared memory zero in the fresh state.
    SharedLeftZero,
    /// Publishes what a reader has in the fresh state, where a variable has one.
    ReadersBytesPublished,
    /// Takes the last core to have no start values.
    LastStartsIgnored,
}

/// The records of core `core` that are left, where the trace is sound.
fn records_left(file: &[u8], trace: &[u8], table: &[Core], core: usize) -> bool {
    if trace.is_empty() {
        return table[core].registers.cycles < 1;
    }
    let mut at = 0;
    for k in 0..core {
        at += 2 + u16::from_le_bytes([trace[at], trace[at + 1]]) as usize
            * (4 + u16::from_le_bytes([file[7 + 6 * k], file[8 + 6 * k]]) as usize);
    }
    table[core].registers.cycles < u16::from_le_bytes([trace[at], trace[at + 1]])
}

/// A step's semaphore as a wrong machine leaves it, from that on entry and that of the right step, with the core's modes before and after.
fn wrong_line(mistake: Mistake, core: u8, left: bool, before: Semaphore, after: Semaphore, from: u8, to: u8) -> Semaphore {
    let (was, is) = (before.in_line(), after.in_line());
    let mut wrong = after;
    match mistake {
        Mistake::JoinsAtTheFront if is.len() > was.len() => {
            wrong.line.copy_within(..was.len(), 1);
            wrong.line[0] = core;
        }
        Mistake::SpentCoreJoins if from == mode::AWAITS_READING && !left && was.len() < reference::MOST_CORES && before.holder != 0 => {
            wrong.line[was.len()] = core;
            wrong.waiting += 1;
        }
        Mistake::ReleaseEmptiesTheLine if before.holder == core + 1 && after.holder == 0 => wrong = Semaphore::default(),
        Mistake::JoinsTwice if from == to && matches!(from, 0 | 3) && was.contains(&core) && was.len() < reference::MOST_CORES => {
            wrong.line[was.len()] = core;
            wrong.waiting += 1;
        }
        Mistake::TakingKeepsTheLine if was.first() == Some(&core) && after.holder == core + 1 => {
            (wrong.waiting, wrong.line) = (before.waiting, before.line);
        }
        Mistake::PastTheLineKept => wrong.line[is.len()..].copy_from_slice(&before.line[is.len()..]),
        _ => {}
    }
    wrong
}

/// The stretches of the data buffer that hold dividend and destination, where this core's next instruction is MOD by zero.
fn mod_by_zero(file: &[u8], table: &[Core], buffer: &[u8], core: u8) -> Option<(Range<usize>, Range<usize>)> {
    let word = |at: usize| u16::from_le_bytes([file[at], file[at + 1]]) as usize;
    let core = core as usize;
    if reference::check_file(file) != refusal::NONE || core >= file[4] as usize {
        return None;
    }
    let (cores, registers) = (file[4] as usize, &table.get(core)?.registers);
    let mut code = 6 + 6 * cores + 12 * file[5 + 6 * cores] as usize;
    for _ in 0..core {
        code += 2 + word(code);
    }
    let at = code + 2 + registers.counter as usize;
    let runs = registers.mode == mode::EXECUTING && (registers.count as usize) < word(5 + 6 * core + 4);
    if !runs || registers.counter as usize >= word(code) || file[at] != command::MOD {
        return None;
    }
    let base: usize = (0..core).map(|other| word(5 + 6 * other)).sum();
    let width = types::WIDTHS[file[at + 1] as usize] as usize;
    let operand = |at: usize| {
        let address = word(at);
        let absolute = reference::ABSOLUTE as usize;
        let place = if address < absolute { address + registers.offset as usize } else { address - absolute };
        (place + width <= word(5 + 6 * core)).then_some(base + place..base + place + width)
    };
    let (to, a, b) = (operand(at + 2)?, operand(at + 4)?, operand(at + 6)?);
    buffer.get(b)?.iter().all(|&byte| byte == 0).then_some((a, to))
}

fn word(file: &[u8], at: usize) -> usize {
    u16::from_le_bytes([file[at], file[at + 1]]) as usize
}

/// Where each core's start values begin in a file of the new form whose codes are sound, as far as they are there; last where they end.
fn value_places(file: &[u8]) -> Option<Vec<usize>> {
    let cores = *file.get(4)? as usize;
    let mut at = 6 + 6 * cores + 12 * *file.get(5 + 6 * cores)? as usize;
    for _ in 0..cores {
        file.get(at + 1)?;
        at += 2 + word(file, at);
    }
    let mut places = vec![at];
    for _ in 0..cores {
        file.get(at + 1)?;
        at += 2 + 3 * word(file, at);
        places.push(at);
    }
    Some(places)
}

fn sections_end(file: &[u8]) -> Option<usize> {
    value_places(file)?.pop().filter(|&end| end <= file.len())
}

/// Whether a file's start values are all there, nothing follows, and each place lies in the data and is not below the one before.
fn twice_only(file: &[u8]) -> bool {
    let Some(places) = value_places(file).filter(|places| places.last() == Some(&file.len())) else { return false };
    places.windows(2).enumerate().all(|(k, part)| {
        let values: Vec<usize> = (part[0] + 2..part[1]).step_by(3).map(|at| word(file, at)).collect();
        values.iter().all(|&place| place < word(file, 5 + 6 * k)) && values.windows(2).all(|pair| pair[0] <= pair[1])
    })
}

/// Each variable as its first reader has it.
fn publish_readers(file: &[u8], buffer: &[u8], shared: &mut [u8]) {
    let cores = file[4] as usize;
    let base = |core: usize| -> usize { (0..core).map(|other| word(file, 5 + 6 * other)).sum() };
    for record in file[6 + 6 * cores..].chunks_exact(12).take(file[5 + 6 * cores] as usize) {
        let Some(reader) = (0..cores).find(|&core| record[3] >> (4 + core) & 1 == 1) else { continue };
        let (from, width) = (base(reader) + word(record, 4 + 2 * reader), record[2] as usize);
        shared[word(record, 0)..][..width].copy_from_slice(&buffer[from..][..width]);
    }
}

struct Wrong(Mistake);

impl Machine for Wrong {
    fn name(&self) -> &'static str {
        "wrong"
    }

    fn check_file(&self, file: &[u8]) -> u8 {
        match (self.0, reference::check_file(file)) {
            (Mistake::LeftoversAreACut, refusal::LEFT_OVER) => refusal::FILE_END,
            (Mistake::CutIsLeftovers, refusal::FILE_END) => refusal::LEFT_OVER,
            // Where every place is there and lies in the data: 31 is then for one that stands twice, or falls.
            (Mistake::EqualPlacesAccepted, refusal::START_PLACE) if twice_only(file) => refusal::NONE,
            (Mistake::LeftoversBeforeStarts, refusal::START_PLACE) if sections_end(file).is_some_and(|end| end < file.len()) => {
                refusal::LEFT_OVER
            }
            (_, number) => number,
        }
    }

    fn fresh(&self, file: &[u8], table: &mut [Core], semaphore: &mut Semaphore, buffer: &mut [u8], shared: &mut [u8]) -> u8 {
        let number = reference::fresh(file, table, semaphore, buffer, shared);
        if self.0 == Mistake::WholeTableFresh && number == refusal::NONE {
            table.fill(Core::fresh());
        }
        if number == refusal::NONE {
            match self.0 {
                Mistake::SharedLeftZero => shared.fill(0),
                Mistake::ReadersBytesPublished => publish_readers(file, buffer, shared),
                Mistake::LastStartsIgnored => {
                    let cores = file[4] as usize;
                    let last = u16::from_le_bytes([file[6 * cores - 1], file[6 * cores]]) as usize;
                    let base = buffer.len() - last;
                    buffer[base..].fill(0);
                }
                _ => {}
            }
        }
        number
    }

    fn step(
        &self,
        file: &[u8],
        trace: &[u8],
        table: &mut [Core],
        semaphore: &mut Semaphore,
        buffer: &mut [u8],
        shared: &mut [u8],
        core: u8,
        taken: &mut Option<u8>,
    ) -> u8 {
        let before = table.to_vec();
        let data = buffer.to_vec();
        let on_entry = *semaphore;
        if self.0 == Mistake::FirstOrLower && reference::check_state(file, trace, table, semaphore) == refusal::NONE {
            if let Some(place) = semaphore.in_line().iter().position(|&other| other == core && core < on_entry.line[0]) {
                semaphore.line.swap(0, place);
            }
        }
        if self.0 == Mistake::BitSixUnfit && table.iter().any(|core| core.registers.flags & flag::NOT_HELD != 0) {
            return refusal::UNFIT;
        }
        let number = reference::step(file, trace, table, semaphore, buffer, shared, core, taken);
        if number == refusal::NONE {
            let k = core as usize;
            let left = records_left(file, trace, &before, k);
            *semaphore = wrong_line(self.0, core, left, on_entry, *semaphore, before[k].registers.mode, table[k].registers.mode);
        } else {
            *semaphore = on_entry;
        }
        for (core, before) in table.iter_mut().zip(&before) {
            let r = &mut core.registers;
            if r.flags & !before.registers.flags == flag::NOT_HELD {
                match self.0 {
                    Mistake::NotHeldGoesOn => (r.flags, r.mode) = (before.registers.flags, before.registers.mode),
                    Mistake::NotHeldIsBeyond => r.flags ^= flag::NOT_HELD | flag::BEYOND_DATA,
                    _ => {}
                }
            }
        }
        if let (refusal::NONE, Some((dividend, to))) = (number, mod_by_zero(file, &before, &data, core)) {
            match self.0 {
                Mistake::DividendLeft => buffer[to].copy_from_slice(&data[dividend]),
                Mistake::ModByZeroStops => {
                    buffer.copy_from_slice(&data);
                    table[core as usize] = before[core as usize];
                    table[core as usize].registers.mode = mode::STOPPED;
                    table[core as usize].registers.flags |= flag::ZERO_DIVISOR;
                }
                _ => {}
            }
        }
        let began = number == refusal::NONE
            && before[core as usize].registers.mode == mode::AWAITS_READING
            && table[core as usize].registers.mode == mode::READING;
        if self.0 == Mistake::BlankInputsKept && trace.is_empty() && began {
            buffer.copy_from_slice(&data);
        }
        if self.0 == Mistake::StackEntryKept {
            table.iter_mut().zip(before).for_each(|(core, before)| core.places = before.places);
        }
        number
    }

    fn run(
        &self,
        file: &[u8],
        trace: &[u8],
        table: &mut [Core],
        semaphore: &mut Semaphore,
        buffer: &mut [u8],
        shared: &mut [u8],
        order: &[u8],
        list: &mut [u8],
        taken: &mut usize,
    ) -> u8 {
        if self.0 == Mistake::NoTraceRefused && trace.is_empty() && reference::check_file(file) == refusal::NONE {
            return refusal::TRACE;
        }
        let number = reference::run(file, trace, table, semaphore, buffer, shared, order, list, taken);
        match (self.0, number) {
            (Mistake::OutputOfRefused, 1..) => *taken = 0,
            (Mistake::RestOfListCleared, 0) => list[*taken..].fill(0),
            (Mistake::StateBeforeTrace, refusal::TRACE) if table.iter().any(|core| core.registers.mode > 5) => return refusal::UNFIT,
            (Mistake::OrderJudgedLate, refusal::NO_SUCH_CORE) => {
                let sound = order.iter().position(|&core| core as usize >= table.len()).unwrap();
                reference::run(file, trace, table, semaphore, buffer, shared, &order[..sound], list, &mut 0);
            }
            _ => {}
        }
        number
    }

    fn next_core(&self, file: &[u8], trace: &[u8], table: &[Core], semaphore: &Semaphore, core: u8) -> Next {
        if self.0 == Mistake::CoreInLineMoves && reference::check_state(file, trace, table, semaphore) == refusal::NONE {
            let without = Semaphore { waiting: 0, ..*semaphore };
            return Reference.next_core(file, trace, table, &without, core);
        }
        let before = if self.0 == Mistake::RingStartsAtItself && (core as usize) < table.len() {
            (core as usize + table.len() - 1) % table.len()
        } else {
            core as usize
        };
        Reference.next_core(file, trace, table, semaphore, before as u8)
    }
}

#[test]
fn wrong_machines_are_seen() {
    use Mistake::*;
    compare(&Reference, &Wrong(Nothing), 4, 2000);
    for mistake in [
        OrderJudgedLate,
        OutputOfRefused,
        WholeTableFresh,
        RingStartsAtItself,
        StateBeforeTrace,
        StackEntryKept,
        RestOfListCleared,
        LeftoversAreACut,
        CutIsLeftovers,
        DividendLeft,
        ModByZeroStops,
        JoinsAtTheFront,
        SpentCoreJoins,
        ReleaseEmptiesTheLine,
        FirstOrLower,
        JoinsTwice,
        TakingKeepsTheLine,
        PastTheLineKept,
        CoreInLineMoves,
        BitSixUnfit,
        NotHeldGoesOn,
        NotHeldIsBeyond,
        NoTraceRefused,
        BlankInputsKept,
        EqualPlacesAccepted,
        LeftoversBeforeStarts,
        SharedLeftZero,
        ReadersBytesPublished,
        LastStartsIgnored,
    ] {
        let compared = catch_unwind(AssertUnwindSafe(|| compare(&Reference, &Wrong(mistake), 4, 2000)));
        assert!(compared.is_err(), "{mistake:?} went unseen");
    }
}
