//! The lines between cores (document 02, 2.9): whether two cores read each other and whether the lines form a ring, found here by joining groups of
//! cores, and the comparison of that test with another one on random files. It stands beside the machine: no state, no steps.

#![forbid(unsafe_code)]

use crate::draft::Draft;
use crate::random::{self, Random};
use crate::reference;
use std::collections::BTreeMap;

#[derive(Clone, Copy, PartialEq, Eq, PartialOrd, Ord, Debug)]
pub enum Lines {
    Refused(u8),
    /// No two cores read each other, and the lines form no ring.
    Free,
    EachOther,
    /// No two read each other, and there is a ring.
    Ringed,
}

/// An implementation under comparison.
pub type Check = fn(&[u8]) -> Lines;

/// Reader and writer of each variable, a pair for each reader, in file order.
pub fn reads(file: &[u8]) -> Vec<(usize, usize)> {
    const CORE_RECORD: usize = 6;
    const RECORD: usize = 12;
    let count_at = 5 + CORE_RECORD * file[4] as usize;
    let attributes = file[count_at + 1..].chunks_exact(RECORD).take(file[count_at] as usize).map(|record| record[3]);
    let pairs = |attribute: u8| {
        let writer = (attribute & 15).trailing_zeros() as usize;
        (0..4).filter(move |reader| attribute >> (4 + reader) & 1 == 1).map(move |reader| (reader, writer))
    };
    attributes.flat_map(pairs).collect()
}

pub fn lines_of(reads: &[(usize, usize)]) -> Lines {
    if reads.iter().any(|&(reader, writer)| reads.contains(&(writer, reader))) {
        return Lines::EachOther;
    }
    // A line within a group of joined cores closes a ring.
    let mut lines: Vec<(usize, usize)> = reads.iter().map(|&(j, k)| (j.min(k), j.max(k))).collect();
    lines.sort_unstable();
    lines.dedup();
    let mut group = [0, 1, 2, 3];
    for (j, k) in lines {
        let (a, b) = (group[j], group[k]);
        if a == b {
            return Lines::Ringed;
        }
        group.iter_mut().filter(|other| **other == b).for_each(|other| *other = a);
    }
    Lines::Free
}

pub fn check(file: &[u8]) -> Lines {
    match reference::check_file(file) {
        reference::refusal::NONE => lines_of(&reads(file)),
        number => Lines::Refused(number),
    }
}

/// A sound file, with other readers in some of its attribute bytes, so that rings come as often as none.
fn sound(random: &mut Random) -> Draft {
    let mut draft = random::task_set(random);
    let cores = draft.cores.len();
    for variable in &mut draft.variables {
        let readers = variable.attribute >> 4;
        // A reader fewer needs no other place.
        let kept = if random.once_in(2) { readers & random.byte() } else { readers };
        variable.attribute = variable.attribute & 15 | kept << 4;
        for k in (0..cores).filter(|k| readers >> k & 1 == 1 && kept >> k & 1 == 0) {
            variable.local[k] = 0;
        }
    }
    draft
}

/// How often each answer came.
#[derive(Default)]
pub struct Tally(pub BTreeMap<Lines, usize>);

impl Tally {
    pub fn missing(&self) -> Vec<String> {
        let answers = (1..=7).map(Lines::Refused).chain([Lines::Free, Lines::EachOther, Lines::Ringed]);
        answers.filter(|answer| !self.0.contains_key(answer)).map(|answer| format!("{answer:?} of the check of lines")).collect()
    }

    pub fn print(&self) {
        let counts: Vec<String> = self.0.iter().map(|(answer, count)| format!("{answer:?}: {count}")).collect();
        println!("lines between cores, by answer {}", counts.join(", "));
    }
}

/// Compares two on random files, sound and damaged; panics at the first difference.
pub fn compare(a: Check, b: Check, seed: u64, count: usize) -> Tally {
    let mut tally = Tally::default();
    for round in 0..count as u64 {
        let random = &mut Random::new(seed ^ round.wrapping_mul(0xC2B2_AE3D_27D4_EB4F));
        let file = if random.once_in(4) { random::damaged(random).file } else { sound(random).bytes() };
        let (of_a, of_b) = (a(&file), b(&file));
        assert_eq!(of_a, of_b, "seed {seed}, round {round}: the lines differ on {file:02X?}");
        *tally.0.entry(of_a).or_default() += 1;
    }
    tally
}
