//! Document 02, 2.4, a fair line at the semaphore: who joins, who takes, and how many exchanges of others a core in line sees end. On the reference
//! and on the proved machine.

use independent::draft::{Code, CoreRecord, Draft, Program};
use independent::interface::{Machine, Next, Reference};
use independent::random::Random;
use independent::reference::{mode, refusal, Core, Semaphore, FREE, SHARED_SIZE};

fn machines() -> Vec<Box<dyn Machine>> {
    vec![Box::new(Reference), Box::new(trials::linked::Linked)]
}

/// n cores of one data byte and no variables, whose code is RETURN: an exchange is a taking and its release.
#[derive(Clone, PartialEq, Debug)]
struct Plant {
    file: Vec<u8>,
    trace: Vec<u8>,
    table: Vec<Core>,
    semaphore: Semaphore,
}

impl Plant {
    fn fresh(machine: &dyn Machine, cores: usize, records: u16) -> Plant {
        let code: Code = Program::new().returns().code();
        let draft = Draft::new(vec![CoreRecord { data_size: 1, input_size: 0, limit: 1 }; cores], Vec::new(), vec![code; cores]);
        let mut trace = Vec::new();
        for _ in 0..cores {
            trace.extend(records.to_le_bytes());
            trace.extend(vec![0; 4 * records as usize]);
        }
        let semaphore = Semaphore { holder: 9, waiting: 9, line: [9; 4] };
        let mut plant = Plant { file: draft.bytes(), trace, table: vec![Core::default(); cores], semaphore };
        let number = machine.fresh(&plant.file, &mut plant.table, &mut plant.semaphore, &mut vec![7; cores], &mut [7; SHARED_SIZE]);
        assert_eq!((number, plant.semaphore), (refusal::NONE, Semaphore::default()));
        plant
    }

    /// One step; tells whether it is a taking.
    fn step(&mut self, machine: &dyn Machine, core: u8) -> bool {
        let mut taken = None;
        let (mut buffer, mut shared) = (vec![0; self.table.len()], [0; SHARED_SIZE]);
        let Plant { file, trace, table, semaphore } = self;
        assert_eq!(machine.step(file, trace, table, semaphore, &mut buffer, &mut shared, core, &mut taken), refusal::NONE);
        taken.is_some()
    }

    fn steps(&mut self, machine: &dyn Machine, order: &[u8]) {
        for &core in order {
            self.step(machine, core);
        }
    }

    fn mode(&self, core: u8) -> u8 {
        self.table[core as usize].registers.mode
    }

    fn in_line(&self) -> Vec<u8> {
        self.semaphore.in_line().to_vec()
    }

    fn next(&self, machine: &dyn Machine, given: u8) -> Next {
        machine.next_core(&self.file, &self.trace, &self.table, &self.semaphore, given)
    }
}

/// The most exchanges of others that a core sees end, from a step by which it joins to where it is first and the semaphore free.
#[derive(Default)]
struct Seen {
    ends: [Option<usize>; 4],
    most: usize,
}

impl Seen {
    fn step(&mut self, machine: &dyn Machine, plant: &mut Plant, core: u8) {
        let (before, mode_before) = (plant.in_line(), plant.mode(core));
        plant.step(machine, core);
        let ended = matches!((mode_before, plant.mode(core)), (mode::READING, mode::EXECUTING) | (mode::WRITING, mode::AWAITS_READING));
        for k in 0..plant.table.len() as u8 {
            let ends = &mut self.ends[k as usize];
            if let Some(count) = ends {
                if ended && core != k {
                    *count += 1;
                    self.most = self.most.max(*count);
                }
            }
            if k == core && !before.contains(&k) && plant.in_line().contains(&k) {
                *ends = Some(0);
            }
            if plant.semaphore.holder == FREE && plant.in_line().first() == Some(&k) || !plant.in_line().contains(&k) {
                *ends = None;
            }
        }
    }
}

#[test]
fn joining_taking_and_release() {
    for machine in machines() {
        let machine = &*machine;
        let mut plant = Plant::fresh(machine, 3, 2);
        // Free and nobody in line: core 0 takes without joining. Held: cores 2 and 1 join at the end, once.
        plant.steps(machine, &[0, 2, 1, 2, 1]);
        assert_eq!(plant.semaphore, Semaphore { holder: 1, waiting: 2, line: [2, 1, 0, 0] });
        // A release keeps the line. Free with others in line: core 1 is not the first and changes nothing; core 0, in mode 3, joins.
        plant.steps(machine, &[0]);
        let released = Semaphore { holder: FREE, waiting: 2, line: [2, 1, 0, 0] };
        assert_eq!(plant.semaphore, released);
        let before = plant.clone();
        plant.steps(machine, &[1]);
        assert_eq!(plant, before);
        plant.steps(machine, &[0, 0]);
        assert_eq!((plant.mode(0), plant.semaphore), (mode::AWAITS_WRITING, Semaphore { waiting: 3, line: [2, 1, 0, 0], ..released }));
        assert_eq!(plant.in_line(), [2, 1, 0]);
        // Only the first moves; by taking it leaves the line.
        assert_eq!((plant.next(machine, 0), plant.next(machine, 2)), (Next::Core(2), Next::Core(2)));
        assert!(plant.step(machine, 2));
        assert_eq!(plant.semaphore, Semaphore { holder: 3, waiting: 2, line: [1, 0, 0, 0] });
        assert_eq!(plant.next(machine, 2), Next::Core(2));
    }
}

#[test]
fn a_spent_core_never_joins() {
    for machine in machines() {
        let machine = &*machine;
        let mut plant = Plant::fresh(machine, 2, 1);
        plant.steps(machine, &[0; 5]);
        plant.steps(machine, &[1, 0]);
        assert_eq!((plant.semaphore, plant.table[0].registers.cycles), (Semaphore { holder: 2, ..Semaphore::default() }, 1));
        assert_eq!(plant.next(machine, 1), Next::Core(1));
    }
}

#[test]
fn a_first_core_that_is_never_stepped_holds_up_all_others() {
    for machine in machines() {
        let machine = &*machine;
        let mut plant = Plant::fresh(machine, 2, 3);
        plant.steps(machine, &[0, 1, 0, 0]);
        let before = plant.clone();
        plant.steps(machine, &[0; 9]);
        let expected = Plant { semaphore: Semaphore { waiting: 2, line: [1, 0, 0, 0], ..before.semaphore }, ..before };
        assert_eq!(plant, expected, "core 0 joins behind core 1 and waits");
    }
}

#[test]
fn the_bound_is_attained() {
    for machine in machines() {
        let machine = &*machine;
        for (cores, order) in [(2, &[0, 1, 0][..]), (3, &[0, 1, 2, 0, 1, 1]), (4, &[0, 1, 2, 3, 0, 1, 1, 2, 2])] {
            let (mut plant, mut seen) = (Plant::fresh(machine, cores, 1), Seen::default());
            for &core in order {
                seen.step(machine, &mut plant, core);
            }
            assert_eq!(seen.most, cores - 1);
            assert_eq!((plant.semaphore.holder, plant.semaphore.line[0]), (FREE, cores as u8 - 1));
        }
    }
}

#[test]
fn the_bound_holds_on_random_orders() {
    for machine in machines() {
        let machine = &*machine;
        let mut random = Random::new(5);
        for cores in 1..=4 {
            let mut most = 0;
            for _ in 0..40 {
                let (mut plant, mut seen) = (Plant::fresh(machine, cores, 4), Seen::default());
                for _ in 0..120 {
                    seen.step(machine, &mut plant, random.below(cores) as u8);
                }
                most = most.max(seen.most);
            }
            assert_eq!(most, cores - 1);
        }
    }
}
