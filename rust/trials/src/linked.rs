//! The proved machine on the records of the independent one: every call of `rikzord::lent`, so that the two can be compared on one case.
//!
//! Outputs (`taken`, `found`) are written where a call isn't refused. A step's taking shows in the modes of its core.

use independent::forms::Converters;
use independent::interface::{Machine, Next};
use independent::lines::Lines;
use independent::profiles::Loader;
use independent::reference::{mode, refusal, Core, Profile, Semaphore, WRITING_MARK};
use independent::rerun::Lent;
use independent::window::{Asked, Shown};
use rikzord::lent;
use std::mem::offset_of;

// ---- the records of both are laid out alike

const _: () = {
    assert!(offset_of!(Core, registers.time) == offset_of!(lent::Core, time));
    assert!(offset_of!(Core, registers.counter) == offset_of!(lent::Core, counter));
    assert!(offset_of!(Core, registers.offset) == offset_of!(lent::Core, offset));
    assert!(offset_of!(Core, registers.count) == offset_of!(lent::Core, count));
    assert!(offset_of!(Core, registers.exchange) == offset_of!(lent::Core, exchange));
    assert!(offset_of!(Core, registers.cycles) == offset_of!(lent::Core, cycles));
    assert!(offset_of!(Core, registers.mode) == offset_of!(lent::Core, mode));
    assert!(offset_of!(Core, registers.depth) == offset_of!(lent::Core, depth));
    assert!(offset_of!(Core, registers.flags) == offset_of!(lent::Core, flags));
    assert!(offset_of!(Core, registers.spare) == offset_of!(lent::Core, spare));
    assert!(offset_of!(Core, places) == offset_of!(lent::Core, places));
    assert!(offset_of!(Core, offsets) == offset_of!(lent::Core, offsets));
    assert!(size_of::<Core>() == size_of::<lent::Core>() && align_of::<Core>() == align_of::<lent::Core>());
    assert!(offset_of!(Semaphore, holder) == offset_of!(lent::Semaphore, holder));
    assert!(offset_of!(Semaphore, waiting) == offset_of!(lent::Semaphore, waiting));
    assert!(offset_of!(Semaphore, line) == offset_of!(lent::Semaphore, line));
    assert!(size_of::<Semaphore>() == size_of::<lent::Semaphore>());
};

// Safety of the three: `repr(C)` records of numbers with the same fields at the same places, and no byte between them.
fn table_of(table: &[Core]) -> &[lent::Core] {
    unsafe { std::slice::from_raw_parts(table.as_ptr().cast(), table.len()) }
}

fn lent_table(table: &mut [Core]) -> &mut [lent::Core] {
    unsafe { std::slice::from_raw_parts_mut(table.as_mut_ptr().cast(), table.len()) }
}

fn lent_semaphore(semaphore: &mut Semaphore) -> &mut lent::Semaphore {
    unsafe { &mut *(semaphore as *mut Semaphore).cast() }
}

fn semaphore_of(semaphore: &Semaphore) -> lent::Semaphore {
    lent::Semaphore { holder: semaphore.holder, waiting: semaphore.waiting, line: semaphore.line }
}

// ---- the machine

/// The machine of `librikzord.a`.
pub struct Linked;

impl Machine for Linked {
    fn name(&self) -> &'static str {
        "rikzord"
    }

    fn check_file(&self, file: &[u8]) -> u8 {
        lent::check_file(file)
    }

    fn fresh(&self, file: &[u8], table: &mut [Core], semaphore: &mut Semaphore, buffer: &mut [u8], shared: &mut [u8]) -> u8 {
        lent::fresh(file, lent_table(table), lent_semaphore(semaphore), buffer, shared)
    }

    fn step(
        &self,
        file: &[u8],
        trace: &[u8],
        table: &mut [Core],
        semaphore: &mut Semaphore,
        buffer: &mut [u8],
        shared: &mut [u8],
        core: u8,
        taken: &mut Option<u8>,
    ) -> u8 {
        let mode_of = |table: &[Core]| table.get(core as usize).map(|core| core.registers.mode);
        let before = mode_of(table);
        let number = lent::step(file, trace, lent_table(table), lent_semaphore(semaphore), buffer, shared, core);
        if number == refusal::NONE {
            *taken = match (before, mode_of(table)) {
                (Some(mode::AWAITS_READING), Some(mode::READING)) => Some(core),
                (Some(mode::AWAITS_WRITING), Some(mode::WRITING)) => Some(core + WRITING_MARK),
                _ => None,
            };
        }
        number
    }

    fn run(
        &self,
        file: &[u8],
        trace: &[u8],
        table: &mut [Core],
        semaphore: &mut Semaphore,
        buffer: &mut [u8],
        shared: &mut [u8],
        order: &[u8],
        list: &mut [u8],
        taken: &mut usize,
    ) -> u8 {
        lent::run(file, trace, lent_table(table), lent_semaphore(semaphore), buffer, shared, order, list, taken)
    }

    fn next_core(&self, file: &[u8], trace: &[u8], table: &[Core], semaphore: &Semaphore, core: u8) -> Next {
        let mut found = lent::NO_CORE;
        let number = lent::next_core(file, trace, table_of(table), &semaphore_of(semaphore), core, &mut found);
        match (number, found) {
            (refusal::NONE, lent::NO_CORE) => Next::Nothing,
            (refusal::NONE, core) => Next::Core(core),
            (number, _) => Next::Refused(number),
        }
    }
}

/// The check of a file and the fresh state under each profile.
pub const LOADER: Loader = Loader { check, fresh };

fn check(profile: Profile, file: &[u8]) -> u8 {
    match profile {
        Profile::Full => lent::check_file(file),
        Profile::Small => lent::check_file_small(file),
    }
}

fn fresh(profile: Profile, file: &[u8], table: &mut [Core], semaphore: &mut Semaphore, buffer: &mut [u8], shared: &mut [u8]) -> u8 {
    let call = match profile {
        Profile::Full => lent::fresh,
        Profile::Small => lent::fresh_small,
    };
    call(file, lent_table(table), lent_semaphore(semaphore), buffer, shared)
}

/// The rerun of an order list.
pub fn rerun(file: &[u8], trace: &[u8], list: &[u8], lent: &mut Lent) -> u8 {
    let Lent { table, semaphore, buffer, shared } = lent;
    lent::rerun(file, trace, list, lent_table(table), lent_semaphore(semaphore), buffer, shared)
}

/// The lowest reading over the holding time.
pub use rikzord::lent::lowest;

/// What a task will take.
pub use rikzord::lent::takes;

/// The lines between cores. A refused call leaves the byte.
pub fn check_cycles(file: &[u8]) -> Lines {
    const UNTOUCHED: u8 = 77;
    let mut lines = UNTOUCHED;
    let number = lent::check_cycles(file, &mut lines);
    match (number, lines) {
        (refusal::NONE, 0) => Lines::Free,
        (refusal::NONE, 1) => Lines::EachOther,
        (refusal::NONE, 2) => Lines::Ringed,
        (1.., UNTOUCHED) => Lines::Refused(number),
        _ => panic!("the call answers {number} and {lines}"),
    }
}

/// A window. A refused call leaves the place.
pub fn window(file: &[u8], buffer: &[u8], asked: Asked) -> Result<usize, u8> {
    const UNTOUCHED: usize = usize::MAX;
    let mut place = UNTOUCHED;
    let call = match asked.shown {
        Shown::Code => lent::code_window,
        Shown::Data => lent::data_window,
    };
    let number = call(file, buffer, asked.core, asked.start, asked.count, &mut place);
    match (number, place) {
        (refusal::NONE, UNTOUCHED) => panic!("a window without a place"),
        (refusal::NONE, place) => Ok(place),
        (number, UNTOUCHED) => Err(number),
        _ => panic!("the call answers {number} and stores {place}"),
    }
}

/// The converters. A refused call leaves the length.
pub const CONVERTERS: Converters =
    Converters { to_new: |file, out| convert(lent::to_new, file, out), to_old: |file, out| convert(lent::to_old, file, out) };

fn convert(call: fn(&[u8], &mut [u8], &mut usize) -> u8, file: &[u8], out: &mut [u8]) -> Result<usize, u8> {
    const UNTOUCHED: usize = usize::MAX;
    let mut length = UNTOUCHED;
    let number = call(file, out, &mut length);
    match (number, length) {
        (refusal::NONE, UNTOUCHED) => panic!("a file without a length"),
        (refusal::NONE, length) => Ok(length),
        (number, UNTOUCHED) => Err(number),
        _ => panic!("the call answers {number} and stores {length}"),
    }
}
