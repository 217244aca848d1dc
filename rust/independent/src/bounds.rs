//! What a task will take (document 02, 2.7): lengths, and the greatest instruction count and call depth of each core, here by recursion from the first
//! instruction on, and the comparison with another one on random files. It stands beside the machine: no state, no steps.

#![forbid(unsafe_code)]

use crate::draft::{Code, CoreRecord, Draft, Program};
use crate::random::{self, Random};
use crate::reference::command::*;
use crate::reference::{self, LENGTHS, SHARED_SIZE};
use std::collections::BTreeMap;

pub const NOT_ABOVE: u8 = 25;
pub const TOO_LONG: u8 = 26;
pub const OUTPUT_TOO_SHORT: u8 = 21;
/// The greatest count that is accepted.
pub const MOST_COUNT: u64 = 65_535;

/// An implementation under comparison: file, three lengths (data buffer, shared memory, core table), counts and depths.
pub type Takes = fn(&[u8], &mut [usize], &mut [u32], &mut [u32]) -> u8;

fn word(bytes: &[u8], at: usize) -> usize {
    u16::from_le_bytes([bytes[at], bytes[at + 1]]) as usize
}

/// The code of each core of an accepted file.
pub fn codes(file: &[u8]) -> Vec<&[u8]> {
    const CORE_RECORD: usize = 6;
    const RECORD: usize = 12;
    let mut at = 5 + CORE_RECORD * file[4] as usize;
    at += 1 + RECORD * file[at] as usize;
    let code = |_| {
        let start = at + 2;
        at = start + word(file, at);
        &file[start..at]
    };
    (0..file[4]).map(code).collect()
}

/// One instruction: the place after it, and its T.
#[derive(Clone, Copy)]
pub struct Instruction {
    pub code: u8,
    pub after: usize,
    pub target: Option<usize>,
}

pub fn instruction(code: &[u8], place: usize) -> Instruction {
    let byte = code[place];
    let constant = if byte == MCD { code[place + 3] as usize } else { 0 };
    let after = place + LENGTHS[byte as usize] as usize + constant;
    // T is the last operand of each instruction that has one.
    let target = matches!(byte, JMP | JZ | JNZ | CALB | CALF).then(|| word(code, after - 2));
    Instruction { code: byte, after, target }
}

/// The greatest count and depth from a place to the RETURN of its level. `known` has those of places met before.
fn greatest(code: &[u8], place: usize, known: &mut BTreeMap<usize, (u64, u64)>) -> (u64, u64) {
    if let Some(&numbers) = known.get(&place) {
        return numbers;
    }
    let Instruction { code: byte, after, target } = instruction(code, place);
    let (count, depth) = match (byte, target) {
        (RETURN, _) => (0, 0),
        (JMP, Some(target)) => greatest(code, target, known),
        (JZ | JNZ, Some(target)) => {
            let (stays, leaves) = (greatest(code, after, known), greatest(code, target, known));
            (stays.0.max(leaves.0), stays.1.max(leaves.1))
        }
        (_, Some(target)) => {
            let (called, back) = (greatest(code, target, known), greatest(code, after, known));
            (called.0.saturating_add(back.0), back.1.max(called.1 + 1))
        }
        _ => greatest(code, after, known),
    };
    let numbers = (count.saturating_add(1), depth);
    known.insert(place, numbers);
    numbers
}

/// Count and depth of one core's code, or its refusal.
pub fn measured(code: &[u8]) -> Result<(u64, u64), u8> {
    let mut place = 0;
    while place < code.len() {
        let instruction = instruction(code, place);
        if instruction.target.is_some_and(|target| target <= place) {
            return Err(NOT_ABOVE);
        }
        place = instruction.after;
    }
    match greatest(code, 0, &mut BTreeMap::new()) {
        (count, _) if count > MOST_COUNT => Err(TOO_LONG),
        numbers => Ok(numbers),
    }
}

pub fn takes(file: &[u8], lengths: &mut [usize], counts: &mut [u32], depths: &mut [u32]) -> u8 {
    let number = reference::check_file(file);
    if number != reference::refusal::NONE {
        return number;
    }
    let codes = codes(file);
    let numbers: Vec<(u64, u64)> = match codes.iter().map(|code| measured(code)).collect() {
        Ok(numbers) => numbers,
        Err(number) => return number,
    };
    let cores = codes.len();
    if lengths.len() < 3 || counts.len() < cores || depths.len() < cores {
        return OUTPUT_TOO_SHORT;
    }
    let data_total = (0..cores).map(|k| word(file, 5 + 6 * k)).sum();
    lengths[..3].copy_from_slice(&[data_total, SHARED_SIZE, cores]);
    for (k, &(count, depth)) in numbers.iter().enumerate() {
        counts[k] = count as u32;
        depths[k] = depth as u32;
    }
    reference::refusal::NONE
}

// ---- random files

/// Code whose targets are above their instructions, but for one now and then.
pub fn code(random: &mut Random) -> Code {
    if random.once_in(4) {
        return chain(random);
    }
    let mut program = Program::new();
    // Where a T stands, and its instruction.
    let mut targets = Vec::new();
    for _ in 0..random.below(48) {
        let here = program.here();
        program = match random.below(8) {
            0 if random.once_in(2) => program.returns(),
            1 if random.once_in(2) => {
                targets.push((here + 1, here));
                program.jump(0)
            }
            2 | 3 => {
                targets.push((here + 3, here));
                program.jump_if(random.pick(&[JZ, JNZ]), 0, 0)
            }
            4 => {
                targets.push((here + 1, here));
                program.call(0)
            }
            5 => {
                targets.push((here + 3, here));
                program.call_instance(0, 0)
            }
            6 => {
                let count = random.between(1, 8);
                program.constant(0, &random.bytes(count))
            }
            _ => program.register(CYCLE_TIME, 0),
        };
    }
    let mut program = program.returns();
    for (at, here) in targets {
        let starts = program.starts();
        let above = &starts[starts.partition_point(|&start| start <= here)..];
        let target = match random.below(32) {
            0 if random.once_in(16) => random.pick(starts),
            0..16 => random.pick(&above[..above.len().min(3)]),
            _ => random.pick(above),
        };
        program.patch(at, target);
    }
    program.code()
}

/// Calls, each of the place after it, which double the count with each, or of the place after a RETURN, which only go deeper; a few instructions before
/// them.
fn chain(random: &mut Random) -> Code {
    let mut program = Program::new();
    for _ in 0..random.below(3) {
        program = program.register(CYCLE_TIME, 0);
    }
    let doubled = random.once_in(2);
    for _ in 0..random.between(10, 18) {
        let after = program.here() + 3;
        program = if doubled { program.call(after) } else { program.call(after + 1).returns() };
    }
    program.returns().code()
}

fn file(random: &mut Random) -> Vec<u8> {
    if random.once_in(8) {
        return random::damaged(random).file;
    }
    if random.once_in(8) {
        return random::task_set(random).bytes();
    }
    let cores: Vec<CoreRecord> =
        (0..random.between(1, 4)).map(|_| CoreRecord { data_size: random.between(1, 4096) as u16, input_size: 0, limit: 1 }).collect();
    let code = cores.iter().map(|_| code(random)).collect();
    Draft::new(cores, Vec::new(), code).bytes()
}

/// How often each refusal number came, the deepest calls and the greatest count of an accepted file.
#[derive(Default)]
pub struct Tally {
    pub refusals: BTreeMap<u8, usize>,
    pub depth: u32,
    pub count: u32,
}

impl Tally {
    pub fn missing(&self) -> Vec<String> {
        let numbers = (0..=7).chain([reference::refusal::LEFT_OVER, OUTPUT_TOO_SHORT, NOT_ABOVE, TOO_LONG]);
        let mut missing: Vec<String> =
            numbers.filter(|number| !self.refusals.contains_key(number)).map(|number| format!("{number} of takes")).collect();
        if self.depth < 17 || self.count < MOST_COUNT as u32 {
            missing.push(format!("17 calls deep and a count of {MOST_COUNT} (came {} and {})", self.depth, self.count));
        }
        missing
    }

    pub fn print(&self) {
        let counts: Vec<String> = self.refusals.iter().map(|(number, count)| format!("{number}: {count}")).collect();
        println!("what a task takes, by refusal number {}; greatest count {}, depth {}", counts.join(", "), self.count, self.depth);
    }
}

/// Compares two on random files and outputs of random sizes; panics at the first difference.
pub fn compare(a: Takes, b: Takes, seed: u64, count: usize) -> Tally {
    let mut tally = Tally::default();
    for round in 0..count as u64 {
        let random = &mut Random::new(seed ^ round.wrapping_mul(0x9E37_79B9_7F4A_7C15));
        let file = file(random);
        let places = [0; 3].map(|_| if random.once_in(16) { random.below(5) } else { random.between(4, 6) });
        let call = |takes: Takes| {
            let (mut lengths, mut counts, mut depths) = (vec![77_777; places[0]], vec![88_888; places[1]], vec![99_999; places[2]]);
            let before = (lengths.clone(), counts.clone(), depths.clone());
            let number = takes(&file, &mut lengths, &mut counts, &mut depths);
            let after = (lengths, counts, depths);
            assert!(number == reference::refusal::NONE || after == before, "a refused call changes no place");
            (number, after)
        };
        let (of_a, of_b) = (call(a), call(b));
        assert_eq!(of_a, of_b, "seed {seed}, round {round}: what the task takes differs on {file:02X?}");
        let (number, (_, counts, depths)) = of_a;
        *tally.refusals.entry(number).or_default() += 1;
        if number == reference::refusal::NONE {
            let cores = file[4] as usize;
            tally.count = counts[..cores].iter().fold(tally.count, |most, &count| most.max(count));
            tally.depth = depths[..cores].iter().fold(tally.depth, |most, &depth| most.max(depth));
        }
    }
    tally
}
