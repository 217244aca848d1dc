//! The converters between the two forms of a file (document 02, 2.12): those of the reference, and the comparison with another pair on random files of both
//! forms, with outputs that are too short, just long enough and longer. What a converter makes is checked, converted back, and started from.

#![forbid(unsafe_code)]

use crate::random::{self, Random};
use crate::reference::{self, refusal, Core, Semaphore, MOST_CORES, NEW_MARK, SHARED_SIZE};
use std::collections::BTreeMap;

/// The length that was written at the front of the output, or the refusal number.
pub type Convert = fn(&[u8], &mut [u8]) -> Result<usize, u8>;

/// A pair under comparison.
#[derive(Clone, Copy)]
pub struct Converters {
    pub to_new: Convert,
    pub to_old: Convert,
}

pub const REFERENCE: Converters = Converters { to_new: reference::to_new, to_old: reference::to_old };

/// How often each answer came, by direction and number.
#[derive(Default)]
pub struct Tally(pub BTreeMap<(&'static str, u8), usize>);

impl Tally {
    pub fn missing(&self) -> Vec<String> {
        let both = [0, 1, 2, 3, 4, 5, 6, 7, 21, 24].into_iter().flat_map(|number| [("new", number), ("old", number)]);
        let wanted = both.chain([("old", refusal::START_PLACE), ("old", refusal::START_VALUES)]);
        wanted.filter(|key| !self.0.contains_key(key)).map(|(way, number)| format!("{number} of a file made {way}")).collect()
    }

    pub fn print(&self) {
        let counts: Vec<String> = self.0.iter().map(|((way, number), count)| format!("{way} {number}: {count}")).collect();
        println!("files converted, by number {}", counts.join(", "));
    }
}

/// A file of either form, mostly without start values, so that it can go back.
fn file(random: &mut Random) -> Vec<u8> {
    if random.once_in(4) {
        return random::damaged(random).file;
    }
    let draft = random::task_set(random);
    let none = draft.cores.iter().map(|_| Vec::new()).collect();
    let draft = if random.once_in(2) { draft.with_values(none) } else { draft };
    draft.bytes()
}

/// What the call for the fresh state leaves.
fn started(file: &[u8]) -> (u8, Vec<Core>, Vec<u8>, Vec<u8>) {
    let size = |k: usize| u16::from_le_bytes([file[5 + 6 * k], file[6 + 6 * k]]) as usize;
    let mut table = vec![Core::default(); MOST_CORES];
    let (mut buffer, mut shared) = (vec![9; (0..file[4] as usize).map(size).sum()], vec![9; SHARED_SIZE]);
    let number = reference::fresh(file, &mut table, &mut Semaphore::default(), &mut buffer, &mut shared);
    (number, table, buffer, shared)
}

/// Compares two pairs; panics at the first difference.
pub fn compare(a: Converters, b: Converters, seed: u64, count: usize) -> Tally {
    let mut tally = Tally::default();
    for round in 0..count as u64 {
        let random = &mut Random::new(seed ^ round.wrapping_mul(0xD6E8_FEB8_6659_FD93));
        let file = file(random);
        let name = format!("seed {seed}, round {round}, file {file:02X?}");
        let room = (file.len() + random.between(0, 12)).saturating_sub(random.below(9));
        let lent = random.bytes(room);
        for (way, of_a, of_b, back) in [("new", a.to_new, b.to_new, a.to_old), ("old", a.to_old, b.to_old, a.to_new)] {
            let (mut out_a, mut out_b) = (lent.clone(), lent.clone());
            let (made_a, made_b) = (of_a(&file, &mut out_a), of_b(&file, &mut out_b));
            assert_eq!((made_a, &out_a), (made_b, &out_b), "made {way}, they differ: {name}");
            *tally.0.entry((way, made_a.err().unwrap_or(refusal::NONE))).or_default() += 1;
            let Ok(length) = made_a else {
                assert_eq!(out_a, lent, "a refused call wrote: {name}");
                continue;
            };
            assert_eq!(out_a[length..], lent[length..], "bytes past the output changed: {name}");
            let made = &out_a[..length];
            assert_eq!(reference::check_file(made), refusal::NONE, "what was made is refused: {name}");
            assert_eq!(made[..4] == NEW_MARK, way == "new", "the mark: {name}");
            assert_eq!(started(made), started(&file), "it starts otherwise: {name}");
            let mut first = vec![0; file.len()];
            assert_eq!((back(made, &mut first), &first), (Ok(file.len()), &file), "both ways do not return the file: {name}");
        }
    }
    tally
}
