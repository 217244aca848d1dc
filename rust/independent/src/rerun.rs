//! Rerun from the order of takings (document 02, 2.13), found here by steps of the reference machine: each taking by a step of its core, which is then stepped
//! until it neither exchanges nor executes. The proved machine copies whole exchanges instead. Beside it: whether any order of steps produces a list, by trying
//! them all; wrong reruns; and the comparison of two reruns on random lists.

#![forbid(unsafe_code)]

use crate::random::{self, Case, Random};
use crate::reference::{self, mode, refusal, Core, Semaphore, MOST_CORES, WRITING_MARK};
use std::collections::{BTreeMap, BTreeSet};

/// A list that no order of steps produces.
pub const UNPRODUCED: u8 = 33;

/// What a rerun is lent, and what it leaves there.
#[derive(Clone, PartialEq, Eq, Debug)]
pub struct Lent {
    pub table: Vec<Core>,
    pub semaphore: Semaphore,
    pub buffer: Vec<u8>,
    pub shared: Vec<u8>,
}

/// An implementation under comparison: file, trace, order list; the refusal number.
pub type Rerun = fn(&[u8], &[u8], &[u8], &mut Lent) -> u8;

/// Mistakes that the comparison has to see.
#[derive(Clone, Copy, PartialEq, Eq, Debug)]
pub enum Mistake {
    None,
    StoppedCoreWrites,
    SpentCoreReads,
    RefusedListLeavesItsMemory,
    ListBeforeTrace,
    HighBytesNameCores,
    LastTakingLeftOut,
    HolderLeft,
    ReadingOutOfTurn,
}

pub fn rerun(file: &[u8], trace: &[u8], list: &[u8], lent: &mut Lent) -> u8 {
    rerun_with(Mistake::None, file, trace, list, lent)
}

fn busy(core: &Core) -> bool {
    matches!(core.registers.mode, mode::READING | mode::EXECUTING | mode::WRITING)
}

pub fn rerun_with(mistake: Mistake, file: &[u8], trace: &[u8], list: &[u8], lent: &mut Lent) -> u8 {
    let mut own = lent.clone();
    let number = reference::fresh(file, &mut own.table, &mut own.semaphore, &mut own.buffer, &mut own.shared);
    if number != refusal::NONE {
        return number;
    }
    let count = file[4] as usize;
    let unnamed = |&b: &u8| (if b < WRITING_MARK { b } else { b - WRITING_MARK }) as usize >= count;
    if mistake == Mistake::ListBeforeTrace && list.iter().any(unnamed) {
        return UNPRODUCED;
    }
    // A run of no steps judges the trace.
    let number =
        reference::run(file, trace, &mut own.table[..count], &mut own.semaphore, &mut own.buffer, &mut own.shared, &[], &mut [], &mut 0);
    if number != refusal::NONE {
        return number;
    }
    let upto = if mistake == Mistake::LastTakingLeftOut { list.len().saturating_sub(1) } else { list.len() };
    for &listed in &list[..upto] {
        let b = if mistake == Mistake::HighBytesNameCores { listed & 31 } else { listed };
        let k = if b < WRITING_MARK { b } else { b - WRITING_MARK };
        let spent = |own: &Lent| own.table[k as usize].registers.mode == mode::AWAITS_READING;
        let mut taken = None;
        if (k as usize) < count {
            let Lent { table, semaphore, buffer, shared } = &mut own;
            reference::step(file, trace, &mut table[..count], semaphore, buffer, shared, k, &mut taken);
        }
        let passed = (k as usize) < count
            && match mistake {
                Mistake::StoppedCoreWrites => b >= WRITING_MARK && own.table[k as usize].registers.mode == mode::STOPPED,
                Mistake::SpentCoreReads => b < WRITING_MARK && taken.is_none() && spent(&own),
                Mistake::ReadingOutOfTurn => b < WRITING_MARK && taken.is_some(),
                _ => false,
            };
        if taken != Some(b) && !passed {
            if mistake == Mistake::RefusedListLeavesItsMemory {
                (lent.buffer, lent.shared) = (own.buffer, own.shared);
            }
            return UNPRODUCED;
        }
        while busy(&own.table[k as usize]) {
            let Lent { table, semaphore, buffer, shared } = &mut own;
            reference::step(file, trace, &mut table[..count], semaphore, buffer, shared, k, &mut taken);
        }
        if mistake == Mistake::HolderLeft {
            own.semaphore.holder = 0;
        }
    }
    if let (Mistake::HolderLeft, Some(&b)) = (mistake, list.last()) {
        own.semaphore.holder = b % WRITING_MARK + 1;
    }
    *lent = own;
    refusal::NONE
}

/// Whether some order of steps from the fresh state produces the list: every order is tried, a state and a place in the list once.
pub fn produced(file: &[u8], trace: &[u8], list: &[u8], fresh: &Lent) -> bool {
    let key = |lent: &Lent, at: usize| (format!("{:?}{:?}", lent.table, lent.semaphore), lent.buffer.clone(), lent.shared.clone(), at);
    let mut seen = BTreeSet::from([key(fresh, 0)]);
    let mut left = vec![(fresh.clone(), 0)];
    while let Some((lent, at)) = left.pop() {
        if at == list.len() {
            return true;
        }
        for core in 0..lent.table.len() as u8 {
            let mut next = lent.clone();
            let mut taken = None;
            let Lent { table, semaphore, buffer, shared } = &mut next;
            assert_eq!(reference::step(file, trace, table, semaphore, buffer, shared, core, &mut taken), refusal::NONE);
            let place = match taken {
                None => at,
                Some(b) if b == list[at] => at + 1,
                Some(_) => continue,
            };
            if seen.insert(key(&next, place)) {
                left.push((next, place));
            }
        }
    }
    false
}

/// A list that a run from the fresh state wrote, and the state that it left.
pub fn listed(case: &Case, random: &mut Random) -> (Vec<u8>, Lent) {
    let cores = case.table.len();
    let mut left = Lent {
        table: vec![Core::default(); cores],
        semaphore: Semaphore::default(),
        buffer: vec![0; case.buffer.len()],
        shared: vec![0; case.shared.len()],
    };
    assert_eq!(reference::fresh(&case.file, &mut left.table, &mut left.semaphore, &mut left.buffer, &mut left.shared), refusal::NONE);
    let order: Vec<u8> = (0..random.below(8)).flat_map(|_| random::order(random, cores)).collect();
    let (mut list, mut taken) = (vec![0; order.len()], 0);
    let Lent { table, semaphore, buffer, shared } = &mut left;
    assert_eq!(reference::run(&case.file, &case.trace, table, semaphore, buffer, shared, &order, &mut list, &mut taken), refusal::NONE);
    list.truncate(taken);
    (list, left)
}

/// Whether each core is between cycles, stopped, or waiting to write.
pub fn settled(lent: &Lent) -> bool {
    !lent.table.iter().any(busy)
}

/// Memory with old content, and a table with a record more at times.
fn dirty(random: &mut Random, case: &Case) -> Lent {
    let cores = case.table.len() + random.below(MOST_CORES + 1 - case.table.len().min(MOST_CORES));
    let semaphore = Semaphore { holder: random.byte(), waiting: random.byte(), line: [random.byte(); MOST_CORES] };
    Lent { table: vec![case.table[0]; cores], semaphore, buffer: random.bytes(case.buffer.len()), shared: random.bytes(case.shared.len()) }
}

/// Damages a list: a byte changed, put in or taken out.
fn damage(random: &mut Random, list: &mut Vec<u8>) {
    let byte = random.pick(&[0, 1, 2, 3, 4, 15, 16, 17, 18, 19, 20, 31, 32, 33, 48, 255]);
    match random.below(4) {
        0 => list.push(byte),
        1 => list.insert(random.below(list.len() + 1), byte),
        _ if list.is_empty() => list.push(byte),
        2 => _ = list.remove(random.below(list.len())),
        _ => {
            let at = random.below(list.len());
            list[at] = byte;
        }
    }
}

/// How often each refusal number came.
#[derive(Default)]
pub struct Tally(pub BTreeMap<u8, usize>);

impl Tally {
    pub fn missing(&self) -> Vec<String> {
        let wanted = [refusal::NONE, refusal::MARK, refusal::SIZES, refusal::TRACE, UNPRODUCED];
        wanted.iter().filter(|number| !self.0.contains_key(number)).map(|number| format!("{number} of a rerun")).collect()
    }

    pub fn print(&self) {
        let counts: Vec<String> = self.0.iter().map(|(number, count)| format!("{number}: {count}")).collect();
        println!("lists rerun, by number {}", counts.join(", "));
    }
}

/// Compares two reruns on random lists, sound, cut and damaged, beside damaged files, tables, memories and traces; panics at the first difference.
pub fn compare(a: Rerun, b: Rerun, seed: u64, count: usize) -> Tally {
    let mut random = Random::new(seed);
    let mut tally = Tally::default();
    for number in 0..count {
        let (mut case, _, _) = random::sound(&mut random);
        let (mut list, _) = listed(&case, &mut random);
        if random.once_in(2) {
            list.truncate(random.below(list.len() + 1));
        }
        if random.once_in(2) {
            damage(&mut random, &mut list);
        }
        let mut lent = dirty(&mut random, &case);
        match random.below(12) {
            0 => case.file[random.below(5)] ^= 1 << random.below(8),
            1 => case.trace.push(0),
            2 => _ = lent.shared.pop(),
            3 => lent.buffer.push(0),
            4 => lent.table.truncate(case.table.len() - 1),
            _ => {}
        }
        if random.once_in(3) {
            list.push(random.pick(&[4, 20, 32, 255]));
        }
        let (mut one, mut other) = (lent.clone(), lent.clone());
        let answers = (a(&case.file, &case.trace, &list, &mut one), b(&case.file, &case.trace, &list, &mut other));
        assert_eq!(answers.0, answers.1, "case {number} of seed {seed}: refusal numbers");
        assert_eq!(one, other, "case {number} of seed {seed}: what is lent");
        if answers.0 != refusal::NONE {
            assert_eq!(one, lent, "case {number} of seed {seed}: a refused rerun changes nothing");
        }
        *tally.0.entry(answers.0).or_insert(0) += 1;
    }
    tally
}
