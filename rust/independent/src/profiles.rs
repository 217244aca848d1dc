//! The small profile (document 02, 2.10): a file checked and loaded under each profile, by two loaders, on random files that are small, nearly so, and not.
//! Calls on a state know no profile, so what is compared is the check of a file and the call for the fresh state.

#![forbid(unsafe_code)]

use crate::draft::Draft;
use crate::random::{self, Random};
use crate::reference::{self, command, refusal, types, Core, Profile, Semaphore, LENGTHS, MOST_CORES, SHARED_SIZE, SMALL_DATA};
use std::collections::BTreeMap;

pub type Fresh = fn(Profile, &[u8], &mut [Core], &mut Semaphore, &mut [u8], &mut [u8]) -> u8;

/// An implementation under comparison.
#[derive(Clone, Copy)]
pub struct Loader {
    pub check: fn(Profile, &[u8]) -> u8,
    pub fresh: Fresh,
}

pub const REFERENCE: Loader = Loader { check: reference::check_file_for, fresh: reference::fresh_for };

pub fn is_wide(kind: u8) -> bool {
    (types::LINT..=types::LREAL).contains(&kind)
}

/// The places of the type bytes of the instruction at `at`, as far as the code has them.
fn type_places(code: &[u8], at: usize) -> std::ops::Range<usize> {
    let count = match code[at] {
        command::ADD..=command::NE | command::PACK | command::UNPACK => 1,
        command::CONVERT => 2,
        _ => 0,
    };
    at + 1..code.len().min(at + 1 + count)
}

/// Where the instructions of a code start, as far as they are known.
fn starts(code: &[u8]) -> Vec<usize> {
    let (mut list, mut at) = (Vec::new(), 0);
    while at < code.len() && LENGTHS[code[at] as usize] != 0 {
        list.push(at);
        let added = if code[at] == command::MCD { code.get(at + 3).copied().unwrap_or(0) } else { 0 };
        at += LENGTHS[code[at] as usize] as usize + added as usize;
    }
    list
}

/// Changes the type bytes of a code: each with its command and whether it is the instruction's second.
pub fn retype(code: &mut [u8], change: impl Fn(u8, bool, u8) -> u8) {
    for at in starts(code) {
        for place in type_places(code, at) {
            code[place] = change(code[at], place == at + 2, code[place]);
        }
    }
}

/// A type of at most 32 bits that every command takes which takes the given one.
pub fn narrow(kind: u8) -> u8 {
    match kind {
        types::LINT | types::REAL | types::LREAL => types::DINT,
        types::LWORD => types::DWORD,
        kind => kind,
    }
}

/// The codes of a file whose head and variables are sound, as stretches.
pub fn codes(file: &[u8]) -> Vec<std::ops::Range<usize>> {
    let word = |at: usize| file.get(at..at + 2).map(|bytes| u16::from_le_bytes([bytes[0], bytes[1]]) as usize);
    let cores = file.get(4).map_or(0, |&n| (n as usize).min(MOST_CORES));
    let mut at = 6 + 6 * cores + 12 * file.get(5 + 6 * cores).copied().unwrap_or(0) as usize;
    let mut list = Vec::new();
    for _ in 0..cores {
        let Some(length) = word(at) else { break };
        list.push(at + 2..file.len().min(at + 2 + length));
        at += 2 + length;
    }
    list
}

/// A draft that the small profile takes, as far as its codes are sound.
fn made_small(draft: &mut Draft) {
    for core in &mut draft.cores {
        core.data_size = core.data_size.min(SMALL_DATA as u16);
        core.input_size = core.input_size.min(core.data_size);
    }
    for code in &mut draft.code {
        retype(&mut code.bytes, |_, _, kind| narrow(kind));
    }
}

/// One thing that it does not take, at most: a wide type in one place, or data about as long as may be.
fn nearly_small(random: &mut Random, draft: &mut Draft) {
    let k = random.below(draft.cores.len());
    match random.below(4) {
        0 => draft.cores[k].data_size = random.between(SMALL_DATA - 1, SMALL_DATA + 2) as u16,
        1 | 2 => {
            let code = &mut draft.code[k].bytes;
            let places: Vec<usize> = starts(code).into_iter().flat_map(|at| type_places(code, at)).collect();
            if !places.is_empty() {
                code[random.pick(&places)] = random.between(types::DWORD as usize, types::TIME as usize) as u8;
            }
        }
        _ => {}
    }
}

fn file(random: &mut Random) -> Vec<u8> {
    if random.once_in(8) {
        return random::damaged(random).file;
    }
    let mut draft = random::task_set(random);
    if !random.once_in(6) {
        made_small(&mut draft);
        nearly_small(random, &mut draft);
        if random.once_in(3) {
            nearly_small(random, &mut draft);
        }
    }
    if random.once_in(12) {
        draft.rest = random.bytes(2);
    }
    let mut file = draft.bytes();
    if random.once_in(6) {
        let at = random.below(file.len());
        file[at] = random.byte();
    }
    file
}

/// How often each pair of numbers came, full and small.
#[derive(Default)]
pub struct Tally(pub BTreeMap<(u8, u8), usize>);

impl Tally {
    pub fn missing(&self) -> Vec<String> {
        let same = [0, 1, 2, 3, 4, 5, 6, 7, 24, 31].map(|number| (number, number));
        // what the small profile refuses that the full one does not, and 27 before what comes later
        let narrower = [(0, 3), (0, 27), (6, 3), (6, 27), (7, 27), (24, 27)];
        let wanted = same.into_iter().chain(narrower);
        wanted.filter(|pair| !self.0.contains_key(pair)).map(|(full, small)| format!("{full} full and {small} small")).collect()
    }

    pub fn print(&self) {
        let counts: Vec<String> = self.0.iter().map(|((full, small), count)| format!("{full}/{small}: {count}")).collect();
        println!("files by number, full/small {}", counts.join(", "));
    }
}

/// A call for the fresh state over memories that are not clear, with everything that was lent.
fn fresh(loader: Loader, profile: Profile, file: &[u8], table: usize, buffer: usize) -> (u8, Vec<Core>, Semaphore, Vec<u8>, Vec<u8>) {
    let mut table = vec![Core { places: [7; 16], ..Core::default() }; table];
    let mut semaphore = Semaphore { holder: 9, waiting: 2, line: [3, 2, 1, 1] };
    let (mut buffer, mut shared) = (vec![0xA5; buffer], vec![0x5A; SHARED_SIZE]);
    let number = (loader.fresh)(profile, file, &mut table, &mut semaphore, &mut buffer, &mut shared);
    (number, table, semaphore, buffer, shared)
}

/// Compares two loaders; panics at the first difference.
pub fn compare(a: Loader, b: Loader, seed: u64, count: usize) -> Tally {
    let mut tally = Tally::default();
    for round in 0..count as u64 {
        let random = &mut Random::new(seed ^ round.wrapping_mul(0xA24B_AED4_963E_E407));
        let file = file(random);
        let name = format!("seed {seed}, round {round}, file {file:02X?}");
        let [full, small] = [Profile::Full, Profile::Small].map(|profile| {
            let (of_a, of_b) = ((a.check)(profile, &file), (b.check)(profile, &file));
            assert_eq!(of_a, of_b, "the numbers differ under {profile:?}: {name}");
            of_a
        });
        assert!(small == full || small == refusal::CORE_RECORD || small == refusal::WIDE_TYPE, "{full} became {small}: {name}");
        let size = |k: usize| u16::from_le_bytes([file[5 + 6 * k], file[6 + 6 * k]]) as usize;
        let buffer = if full == refusal::NONE { (0..file[4] as usize).map(size).sum() } else { 3 };
        let buffer = if random.once_in(8) { buffer + 1 } else { buffer };
        let records = random.below(6);
        let [whole, narrowed] = [Profile::Full, Profile::Small].map(|profile| {
            let (of_a, of_b) = (fresh(a, profile, &file, records, buffer), fresh(b, profile, &file, records, buffer));
            assert_eq!(of_a, of_b, "the fresh states differ under {profile:?}: {name}");
            of_a
        });
        if small == refusal::NONE {
            assert_eq!(whole, narrowed, "a small file starts otherwise: {name}");
        }
        *tally.0.entry((full, small)).or_default() += 1;
    }
    tally
}
