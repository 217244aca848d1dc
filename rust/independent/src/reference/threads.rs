//! Cores that truly run at once: a thread for each core, which takes its core's steps one after another through the reference's instructions, with
//! nothing between the threads but the semaphore, one atomic byte. Shared memory is touched by the semaphore's holder alone: its bytes are atomic
//! so that the program is a safe one, and are read and written with no ordering of their own. What orders them is that taking the semaphore
//! acquires and releasing it releases.
//!
//! The order of takings that came about is written down by the holder. Run again from it, alone (document 02, 2.13), the machine must end alike.

use super::command::{ADD, NOT};
use super::types::{DINT, DWORD};
use super::{execute_counted, flag, fresh, load_trace, mode, refusal, Core, Inputs, Moves, Registers, Semaphore, Task, TaskSet, Value};
use super::{FREE, MOST_CORES, SHARED_SIZE, TIME_SIZE, WRITING_MARK};
use crate::draft::{CoreRecord, Draft, Program, Variable};
use crate::random::{self, Random};
use crate::rerun::{Lent, Rerun};
use std::sync::atomic::{AtomicU8, AtomicUsize, Ordering};
use std::sync::Barrier;
use std::thread;

/// What all cores have in common.
struct Common {
    /// `FREE`, or k + 1 where core k holds it.
    semaphore: AtomicU8,
    shared: Vec<AtomicU8>,
    /// The order list, and how many bytes of it are written: by the holder alone.
    list: Vec<AtomicU8>,
    taken: AtomicUsize,
}

/// Runs every core of an accepted file on a sound trace from the fresh state, each in a thread of its own, until it is stopped or out of records; what the
/// cores left, and the order of takings.
pub fn run(file: &[u8], trace: &[u8], seed: u64) -> (Lent, Vec<u8>) {
    let set = TaskSet::load(file).unwrap_or_else(|number| panic!("the file is {number}"));
    let inputs = load_trace(&set, trace).unwrap_or_else(|number| panic!("the trace is {number}"));
    let mut lent = lent(&set);
    let number = fresh(file, &mut lent.table, &mut lent.semaphore, &mut lent.buffer, &mut lent.shared);
    assert_eq!(number, refusal::NONE);
    let most: usize = inputs.iter().map(|inputs| 2 * inputs.count as usize).sum();
    let atomic = |&byte: &u8| AtomicU8::new(byte);
    let common = Common {
        semaphore: AtomicU8::new(FREE),
        shared: lent.shared.iter().map(atomic).collect(),
        list: (0..most).map(|_| AtomicU8::new(0)).collect(),
        taken: AtomicUsize::new(0),
    };
    let together = Barrier::new(set.count);
    thread::scope(|scope| {
        let mut rest = &mut lent.buffer[..];
        for (k, ((task, inputs), core)) in set.tasks.iter().zip(&inputs).zip(&mut lent.table).enumerate() {
            let (data, after) = rest.split_at_mut(task.data_size);
            rest = after;
            let (common, together) = (&common, &together);
            let mut pauses = Random::new(seed ^ ((k as u64 + 1) << 32));
            scope.spawn(move || {
                together.wait();
                while step(k as u8, task, inputs, core, data, common, &mut pauses) {}
            });
        }
    });
    lent.shared = common.shared.into_iter().map(AtomicU8::into_inner).collect();
    let taken = common.taken.into_inner();
    (lent, common.list.into_iter().take(taken).map(AtomicU8::into_inner).collect())
}

/// Memory of the sizes that a task set asks for.
fn lent(set: &TaskSet) -> Lent {
    Lent {
        table: vec![Core::default(); set.count],
        semaphore: Semaphore::default(),
        buffer: vec![0; set.data_total()],
        shared: vec![0; SHARED_SIZE],
    }
}

/// What a demonstration met.
#[derive(Default, Debug)]
pub struct Met {
    pub runs: usize,
    pub takings: usize,
    /// Runs by their number of cores, from one on.
    pub by_cores: [usize; MOST_CORES],
    /// Takings that came right after one of another core.
    pub turns: usize,
    /// Pairs of variables that a core brought from another one, published together: the second is the first with every bit turned.
    pub pairs: usize,
}

/// Runs task sets with a thread for each core, so many times, and reruns each from its order of takings: the two must end alike. Every other set is a random one; in
/// the others every core publishes a pair in each cycle and reads those of all others, and no pair that it has read may be of two cycles.
pub fn demonstrate(rerun: Rerun, seed: u64, runs: usize) -> Met {
    let mut random = Random::new(seed);
    let mut met = Met::default();
    while met.runs < runs {
        let paired = met.runs % 2 == 0;
        let (file, trace) = if paired { pairs(&mut random) } else { any_set(&mut random) };
        let (ended, list) = run(&file, &trace, random.draw());
        let mut rerun_to = lent(&TaskSet::load(&file).expect("it was loaded before"));
        assert_eq!(rerun(&file, &trace, &list, &mut rerun_to), refusal::NONE, "the rerun takes the order of takings");
        assert!(rerun_to == ended, "run {}: the rerun ends as the threads did", met.runs);
        if paired {
            met.pairs += judge_pairs(&ended);
        }
        met.runs += 1;
        met.takings += list.len();
        met.by_cores[ended.table.len() - 1] += 1;
        met.turns += list.windows(2).filter(|pair| pair[0] % WRITING_MARK != pair[1] % WRITING_MARK).count();
    }
    met
}

fn any_set(random: &mut Random) -> (Vec<u8>, Vec<u8>) {
    let draft = random::task_set(random);
    let (trace, _) = random::trace(random, &draft);
    (draft.bytes(), trace)
}

/// Bytes of a variable of a pair, and of an input record without its time.
const NUMBER: u16 = 4;

/// Where the pair of core k stands in the data of every core, and in shared memory.
const fn pair_of(k: u16) -> u16 {
    NUMBER + 2 * NUMBER * k
}

/// Bytes of each core's data: its input, and the pairs of all cores.
const PAIRED_DATA: u16 = pair_of(MOST_CORES as u16);

/// Two to four cores. In each cycle core k makes the first of its pair the sum of its input and of the first that it has read from the core after it, and
/// the second the same with every bit turned.
fn pairs(random: &mut Random) -> (Vec<u8>, Vec<u8>) {
    let cores = random.between(2, MOST_CORES) as u16;
    let all = (1u8 << cores) - 1;
    let variable = |k: u16, place: u16| Variable {
        shared: place,
        width: NUMBER as u8,
        attribute: (all & !(1 << k)) << 4 | 1 << k,
        local: std::array::from_fn(|core| if (core as u16) < cores { place } else { 0 }),
    };
    let variables = (0..cores).flat_map(|k| [variable(k, pair_of(k)), variable(k, pair_of(k) + NUMBER)]).collect();
    let code = |k: u16| {
        let (own, read) = (pair_of(k), pair_of((k + 1) % cores));
        Program::new().typed(ADD, DINT, own, read, 0).typed(NOT, DWORD, own + NUMBER, own, 0).returns().code()
    };
    let core = CoreRecord { data_size: PAIRED_DATA, input_size: NUMBER, limit: 10 };
    let draft = Draft::new(vec![core; cores as usize], variables, (0..cores).map(code).collect());
    let mut trace = Vec::new();
    for _ in 0..cores {
        let records = random.between(1, 40);
        trace.extend((records as u16).to_le_bytes());
        trace.extend(random.bytes(records * (TIME_SIZE + NUMBER as usize)));
    }
    (draft.bytes(), trace)
}

/// Counts the pairs that cores have read from others and that these had published; fails on one that is of two cycles.
fn judge_pairs(ended: &Lent) -> usize {
    let number = |data: &[u8], place: u16| u32::of(&data[place as usize..][..NUMBER as usize]);
    let mut count = 0;
    for (k, data) in ended.buffer.chunks(PAIRED_DATA as usize).enumerate() {
        for other in (0..ended.table.len()).filter(|&other| other != k) {
            let place = pair_of(other as u16);
            match (number(data, place), number(data, place + NUMBER)) {
                (0, 0) => {} // the start values
                (first, second) => {
                    assert_eq!(second, !first, "core {k} joined two cycles of core {other}");
                    count += 1;
                }
            }
        }
    }
    count
}

/// One step of core k; tells whether it can take another.
#[allow(clippy::too_many_arguments)]
fn step(k: u8, task: &Task, inputs: &Inputs, core: &mut Core, data: &mut [u8], common: &Common, pauses: &mut Random) -> bool {
    pause(pauses);
    let r = &mut core.registers;
    match r.mode {
        mode::AWAITS_READING if r.cycles == inputs.count => return false,
        mode::AWAITS_READING => {
            if obtain(k, k, common) {
                let record = &inputs.records[r.cycles as usize * inputs.record_size..][..inputs.record_size];
                r.time = u32::of(&record[..TIME_SIZE]);
                data[..task.input_size].copy_from_slice(&record[TIME_SIZE..]);
                (r.mode, r.exchange) = (mode::READING, 0);
            }
        }
        mode::READING => {
            if let Some((local, shared)) = byte_of(&task.reads, r.exchange) {
                data[local] = common.shared[shared].load(Ordering::Relaxed);
                r.exchange += 1;
            }
            if r.exchange == task.reads.bytes {
                *r = Registers { mode: mode::EXECUTING, counter: 0, offset: 0, depth: 0, count: 0, exchange: 0, ..*r };
                common.semaphore.store(FREE, Ordering::Release);
            }
        }
        mode::EXECUTING => execute_counted(task, core, data),
        mode::AWAITS_WRITING => {
            if obtain(k, k + WRITING_MARK, common) {
                (r.mode, r.exchange) = (mode::WRITING, 0);
            }
        }
        mode::WRITING => {
            if let Some((local, shared)) = byte_of(&task.writes, r.exchange) {
                common.shared[shared].store(data[local], Ordering::Relaxed);
                r.exchange += 1;
            }
            if r.exchange == task.writes.bytes {
                r.exchange = 0;
                r.cycles += 1;
                r.flags &= !flag::COLD_START;
                r.mode = mode::AWAITS_READING;
                common.semaphore.store(FREE, Ordering::Release);
            }
        }
        _ => return false,
    }
    true
}

/// Takes the semaphore where it is free, and writes the taking down: tells whether it did.
fn obtain(k: u8, taking: u8, common: &Common) -> bool {
    if common.semaphore.compare_exchange(FREE, k + 1, Ordering::Acquire, Ordering::Relaxed).is_err() {
        thread::yield_now();
        return false;
    }
    let taken = common.taken.load(Ordering::Relaxed);
    common.list[taken].store(taking, Ordering::Relaxed);
    common.taken.store(taken + 1, Ordering::Relaxed);
    true
}

/// Local and shared place of byte number `exchanged` of an exchange, if it has so many.
fn byte_of(moves: &Moves, exchanged: u16) -> Option<(usize, usize)> {
    let mut byte = exchanged as usize;
    for step in &moves.list[..moves.count] {
        if byte < step.width as usize {
            return Some((step.local as usize + byte, step.shared as usize + byte));
        }
        byte -= step.width as usize;
    }
    None
}

/// Once in a while another thread gets its turn, or this one is late by a little.
fn pause(pauses: &mut Random) {
    match pauses.below(16) {
        0 => thread::yield_now(),
        1 => (0..pauses.below(200)).for_each(|_| std::hint::spin_loop()),
        _ => {}
    }
}
