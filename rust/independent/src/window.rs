//! The memory window (document 02, 2.14): where a stretch of a core's code or data stands, found here by walking the file's sections, and the comparison
//! of that with another one on random files. It stands beside the machine: no state, no steps.

#![forbid(unsafe_code)]

use crate::random::{self, Random};
use crate::reference;
use std::collections::BTreeMap;

#[derive(Clone, Copy, PartialEq, Eq, Debug)]
pub enum Shown {
    Code,
    Data,
}

/// What is asked for: which memory of which core, a start and a length.
#[derive(Clone, Copy, PartialEq, Eq, Debug)]
pub struct Asked {
    pub shown: Shown,
    pub core: u8,
    pub start: usize,
    pub count: usize,
}

pub const LENT: u8 = 21;
pub const OUTSIDE: u8 = 34;

/// An implementation under comparison: the place at which the stretch begins, or the refusal number.
pub type Find = fn(&[u8], &[u8], Asked) -> Result<usize, u8>;

fn word(file: &[u8], at: usize) -> usize {
    u16::from_le_bytes([file[at], file[at + 1]]) as usize
}

/// Begin and length of each core's code in the file, and of its data in the data buffer.
fn memories(file: &[u8], shown: Shown) -> Vec<(usize, usize)> {
    let cores = file[4] as usize;
    match shown {
        Shown::Data => (0..cores)
            .scan(0, |begin, k| {
                let size = word(file, 5 + 6 * k);
                *begin += size;
                Some((*begin - size, size))
            })
            .collect(),
        Shown::Code => (0..cores)
            .scan(5 + 6 * cores + 1 + 12 * file[5 + 6 * cores] as usize, |at, _| {
                let (begin, length) = (*at + 2, word(file, *at));
                *at = begin + length;
                Some((begin, length))
            })
            .collect(),
    }
}

pub fn find(file: &[u8], buffer: &[u8], asked: Asked) -> Result<usize, u8> {
    match reference::check_file(file) {
        reference::refusal::NONE => {}
        number => return Err(number),
    }
    if memories(file, Shown::Data).iter().map(|(_, size)| size).sum::<usize>() != buffer.len() {
        return Err(LENT);
    }
    let &(begin, length) = memories(file, asked.shown).get(asked.core as usize).ok_or(OUTSIDE)?;
    match asked.start.checked_add(asked.count) {
        Some(end) if end <= length => Ok(begin + asked.start),
        _ => Err(OUTSIDE),
    }
}

/// How often each answer came: its number, 0 for a window that is shown.
#[derive(Default)]
pub struct Tally(pub BTreeMap<u8, usize>);

impl Tally {
    pub fn missing(&self) -> Vec<String> {
        let numbers = (0..=7).chain([24, 31, LENT, OUTSIDE]);
        numbers.filter(|number| !self.0.contains_key(number)).map(|number| format!("{number} of a window")).collect()
    }

    pub fn print(&self) {
        let counts: Vec<String> = self.0.iter().map(|(number, count)| format!("{number}: {count}")).collect();
        println!("windows, by number {}", counts.join(", "));
    }
}

/// A question that is near the ends of a memory.
fn question(random: &mut Random, file: &[u8]) -> Asked {
    let shown = if random.once_in(2) { Shown::Code } else { Shown::Data };
    let core = random.byte() % if random.once_in(8) { 255 } else { 4 };
    let length = match reference::check_file(file) {
        reference::refusal::NONE => memories(file, shown).get(core as usize).map_or(9, |&(_, length)| length),
        _ => 9,
    };
    let near = |random: &mut Random, most: usize| match random.byte() % 5 {
        0 => 0,
        1 => most,
        2 => most + 1,
        3 => usize::MAX - random.byte() as usize % 2,
        _ => random.byte() as usize % (most + 1),
    };
    let start = near(random, length);
    let count = near(random, length.saturating_sub(start));
    Asked { shown, core, start, count }
}

/// Compares two on random files, sound and damaged; panics at the first difference.
pub fn compare(a: Find, b: Find, seed: u64, count: usize) -> Tally {
    let mut tally = Tally::default();
    for round in 0..count as u64 {
        let random = &mut Random::new(seed ^ round.wrapping_mul(0x9E37_79B9_7F4A_7C15));
        let file = if random.once_in(4) { random::damaged(random).file } else { random::task_set(random).bytes() };
        let sizes: usize = match reference::check_file(&file) {
            reference::refusal::NONE => memories(&file, Shown::Data).iter().map(|(_, size)| size).sum(),
            _ => 3,
        };
        let buffer = vec![0; if random.once_in(10) { sizes + 1 } else { sizes }];
        for _ in 0..4 {
            let asked = question(random, &file);
            let (of_a, of_b) = (a(&file, &buffer, asked), b(&file, &buffer, asked));
            assert_eq!(of_a, of_b, "seed {seed}, round {round}: the windows differ at {asked:?} on {file:02X?}");
            *tally.0.entry(of_a.err().unwrap_or(0)).or_default() += 1;
        }
    }
    tally
}
