//! Two machines on the same cases: every answer and every lent byte afterwards must agree, and be what the case says where that is known.

use crate::interface::{Machine, Next};
use crate::random::{self, Case, Random};
use crate::reference::{flag, mode, refusal, Core, Semaphore};
use std::collections::BTreeMap;

/// How often each thing came.
#[derive(Default)]
pub struct Tally {
    /// By call and refusal number.
    pub refusals: BTreeMap<(&'static str, u8), usize>,
    /// By the name of a damage.
    pub damages: BTreeMap<&'static str, usize>,
    /// By code byte and whether the instruction went through.
    pub commands: BTreeMap<(u8, bool), usize>,
    /// By the fault bit.
    pub faults: BTreeMap<u8, usize>,
    pub steps: usize,
    pub takings: usize,
}

const EVERY_REFUSAL: [u8; 13] = [1, 2, 3, 4, 5, 6, 7, 20, 21, 22, 23, 24, 31];

impl Tally {
    fn refusal(&mut self, call: &'static str, number: u8) {
        *self.refusals.entry((call, number)).or_default() += 1;
    }

    /// What should have come and never did.
    pub fn missing(&self) -> Vec<String> {
        let mut missing = Vec::new();
        for call in ["check_file", "fresh", "step", "run", "next_core"] {
            // A call that doesn't lend a thing has no refusal for it.
            let never: &[u8] = match call {
                "check_file" => &[20, 21, 22, 23],
                "fresh" => &[20, 22, 23],
                "next_core" => &[21],
                _ => &[],
            };
            for number in EVERY_REFUSAL.into_iter().chain([refusal::NONE]).filter(|number| !never.contains(number)) {
                if !self.refusals.contains_key(&(call, number)) {
                    missing.push(format!("refusal {number} of {call}"));
                }
            }
        }
        let names = random::FILE_DAMAGES.iter().map(|damage| damage.0).chain([random::CUT, random::FLIPPED]);
        let names =
            names.chain(random::STATE_DAMAGES.iter().map(|damage| damage.0)).chain(random::LENT_DAMAGES.iter().map(|damage| damage.0));
        missing.extend(names.filter(|name| !self.damages.contains_key(name)).map(|name| format!("damage: {name}")));
        let codes = (0..=255).filter(|&code| crate::reference::LENGTHS[code as usize] != 0);
        missing.extend(codes.filter(|&code| !self.commands.contains_key(&(code, true))).map(|code| format!("command {code}")));
        let bits = [flag::ARRAY_INDEX, flag::INSTRUCTION_LIMIT, flag::ZERO_DIVISOR, flag::BEYOND_DATA, flag::NESTED_CALL, flag::NOT_HELD];
        missing
            .extend(bits.into_iter().filter(|bit| !self.faults.contains_key(bit)).map(|bit| format!("fault bit {}", bit.trailing_zeros())));
        missing
    }

    pub fn print(&self) {
        println!("{} steps, {} takings", self.steps, self.takings);
        println!("calls by refusal number (0: not refused)");
        for call in ["check_file", "fresh", "step", "run", "next_core"] {
            let counts = self.refusals.iter().filter(|((name, _), _)| *name == call);
            let counts: Vec<String> = counts.map(|((_, number), count)| format!("{number}: {count}")).collect();
            println!("  {call:10} {}", counts.join(", "));
        }
        println!("single damages, each refused with its number where it came first");
        for (name, count) in &self.damages {
            println!("  {count:6} {name}");
        }
        let faults: Vec<String> = self.faults.iter().map(|(bit, count)| format!("{}: {count}", bit.trailing_zeros())).collect();
        println!("faults by flag bit {}", faults.join(", "));
        let commands: Vec<String> =
            self.commands.iter().filter(|((_, done), _)| *done).map(|((code, _), count)| format!("{code}: {count}")).collect();
        println!("single commands that went through {}", commands.join(", "));
    }
}

/// Compares two machines on `count` rounds of cases; panics at the first difference, with the round's seed.
pub fn compare<A: Machine, B: Machine>(a: &A, b: &B, seed: u64, count: usize) -> Tally {
    let mut tally = Tally::default();
    for round in 0..count as u64 {
        let random = &mut Random::new(seed ^ round.wrapping_mul(0xD6E8_FEB8_6659_FD93));
        let pair = Pair { a, b, name: format!("seed {seed}, round {round}") };
        pair.calls(&random::sound(random).0, random, &mut tally);
        pair.calls(&random::damaged(random), random, &mut tally);
        pair.calls(&random::damaged(random), random, &mut tally);
        for _ in 0..8 {
            pair.command(&random::command(random), &mut tally);
        }
        if round % 8 == 0 {
            pair.to_the_end(&random::sound(random).0, &mut tally);
        }
    }
    tally
}

struct Pair<'m, A, B> {
    a: &'m A,
    b: &'m B,
    name: String,
}

/// Values that no call gives, so that an output that is written though the call is refused shows up.
const UNTOUCHED_COUNT: usize = 77_777;
const UNTOUCHED_TAKING: Option<u8> = Some(99);

/// A call's answer and all that was lent, afterwards.
#[derive(PartialEq, Debug)]
struct After {
    number: u8,
    table: Vec<Core>,
    semaphore: Semaphore,
    buffer: Vec<u8>,
    shared: Vec<u8>,
    list: Vec<u8>,
    count: usize,
    taking: Option<u8>,
}

impl After {
    fn of(case: &Case) -> After {
        After {
            number: refusal::NONE,
            table: case.table.clone(),
            semaphore: case.semaphore,
            buffer: case.buffer.clone(),
            shared: case.shared.clone(),
            list: case.list.clone(),
            count: UNTOUCHED_COUNT,
            taking: UNTOUCHED_TAKING,
        }
    }

    /// What a call with this case leaves.
    fn call(case: &Case, call: impl FnOnce(&mut After) -> u8) -> After {
        let mut after = After::of(case);
        after.number = call(&mut after);
        if after.number != refusal::NONE {
            assert_eq!(After { number: after.number, ..After::of(case) }, after, "a refused call changes nothing");
        }
        after
    }
}

fn fresh<M: Machine>(machine: &M, case: &Case) -> After {
    After::call(case, |now| machine.fresh(&case.file, &mut now.table, &mut now.semaphore, &mut now.buffer, &mut now.shared))
}

fn run<M: Machine>(machine: &M, case: &Case) -> After {
    After::call(case, |now| {
        let After { table, semaphore, buffer, shared, list, count, .. } = now;
        machine.run(&case.file, &case.trace, table, semaphore, buffer, shared, &case.order, list, count)
    })
}

fn step<M: Machine>(machine: &M, case: &Case) -> After {
    After::call(case, |now| {
        let After { table, semaphore, buffer, shared, taking, .. } = now;
        machine.step(&case.file, &case.trace, table, semaphore, buffer, shared, case.core, taking)
    })
}

impl<A: Machine, B: Machine> Pair<'_, A, B> {
    fn same<T: PartialEq + std::fmt::Debug>(&self, call: &str, case: &Case, of_a: T, of_b: T) -> T {
        if of_a != of_b {
            let (a, b) = (self.a.name(), self.b.name());
            panic!(
                "{}: {call} differs\n{a}: {of_a:?}\n{b}: {of_b:?}\ndamages {:?}\nfile {:02X?}\ntrace {:02X?}\ntable {:?}\nsemaphore {:?}\norder {:?}\ncore {}",
                self.name, case.damages, case.file, case.trace, case.table, case.semaphore, case.order, case.core
            );
        }
        of_a
    }

    /// Every call with one case.
    fn calls(&self, case: &Case, random: &mut Random, tally: &mut Tally) {
        for name in &case.damages {
            *tally.damages.entry(name).or_default() += 1;
        }
        let number = self.same("check_file", case, self.a.check_file(&case.file), self.b.check_file(&case.file));
        tally.refusal("check_file", number);
        // The fresh state may be made in a table of any size.
        let mut any_table = case.clone();
        any_table.table.resize(random.below(6), Core { places: [7; 16], ..Core::default() });
        for case in [case, &any_table] {
            tally.refusal("fresh", self.same("fresh", case, fresh(self.a, case), fresh(self.b, case)).number);
        }
        tally.refusal("step", self.same("step", case, step(self.a, case), step(self.b, case)).number);
        self.next_core(case, tally);
        let after = self.same("run", case, run(self.a, case), run(self.b, case));
        tally.refusal("run", after.number);
        if let Some(expected) = case.expected {
            self.same("the refusal that the case was made for", case, after.number, expected);
        }
        if after.number == refusal::NONE {
            tally.steps += case.order.len();
            tally.takings += after.count;
            self.stopped(case, &after, tally);
            let carried_on = Case { table: after.table, semaphore: after.semaphore, ..case.clone() };
            self.next_core(&carried_on, tally);
        }
    }

    fn next_core(&self, case: &Case, tally: &mut Tally) -> Next {
        let Case { file, trace, table, semaphore, core, .. } = case;
        let next = |machine: &dyn Machine| machine.next_core(file, trace, table, semaphore, *core);
        let next = self.same("next_core", case, next(self.a), next(self.b));
        tally.refusal("next_core", if let Next::Refused(number) = next { number } else { refusal::NONE });
        next
    }

    /// Notes the fault bits of cores that stopped.
    fn stopped(&self, before: &Case, after: &After, tally: &mut Tally) {
        for (before, after) in before.table.iter().zip(&after.table) {
            if before.registers.mode != mode::STOPPED && after.registers.mode == mode::STOPPED {
                let fault = after.registers.flags & !flag::COLD_START;
                if fault.count_ones() == 1 {
                    *tally.faults.entry(fault).or_default() += 1;
                }
            }
        }
    }

    /// One command; the code starts right behind the counts of a file with one core and no variables.
    fn command(&self, case: &Case, tally: &mut Tally) {
        const CODE_START: usize = 4 + 1 + 6 + 1 + 2;
        let after = self.same("step", case, step(self.a, case), step(self.b, case));
        assert_eq!(after.number, refusal::NONE);
        let done = after.table[0].registers.mode != mode::STOPPED;
        *tally.commands.entry((case.file[CODE_START], done)).or_default() += 1;
        self.same("run", case, run(self.a, case), run(self.b, case));
        tally.steps += 1;
    }

    /// Steps whatever core comes next until none does, or for long enough. "None" must leave every core stopped or out of records.
    fn to_the_end(&self, case: &Case, tally: &mut Tally) {
        let mut now = case.clone();
        for _ in 0..400 {
            match self.next_core(&now, tally) {
                Next::Refused(number) => panic!("{}: a fit state is refused with {number}", self.name),
                Next::Nothing => {
                    assert!(now.table.iter().all(|core| matches!(core.registers.mode, mode::AWAITS_READING | mode::STOPPED)));
                    return;
                }
                Next::Core(core) => now.core = core,
            }
            let after = self.same("step", &now, step(self.a, &now), step(self.b, &now));
            assert!(
                (&after.table, after.semaphore) != (&now.table, now.semaphore),
                "{}: the next core's step changes something",
                self.name
            );
            now = Case { table: after.table, semaphore: after.semaphore, buffer: after.buffer, shared: after.shared, ..now };
            tally.steps += 1;
        }
    }
}
