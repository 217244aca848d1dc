//! Times two machines side by side on the same work, in one process: the reference and the proved machine, or, as `noise`, the reference twice. Calls
//! alternate, the least time of each call counts; what the machines leave is compared after each round.
//!
//! `bench [rounds [noise]]`

use independent::bounds::{self, Takes};
use independent::holding::{self, Lowest, Record};
use independent::interface::{Machine, Reference};
use independent::reference::{refusal, MOST_CODE};
use independent::rerun::{self, Rerun};
use std::hint::black_box;
use std::time::{Duration, Instant};
use trials::linked::{self, Linked};
use trials::workloads::{dint_loop, four_cores, largest, workloads, Plant, Turns, Work, JUMPED};

const STEPS: usize = 1_000_000;
/// So many in one call that the judging of the call hardly counts, and so few that a call is seldom interrupted.
const STEPS_IN_A_CALL: usize = 50_000;
const CALLS: usize = STEPS / STEPS_IN_A_CALL;
/// How often a file is judged.
const FILES: usize = 50;
/// How many steps are timed together where each is a call of its own.
const SINGLE_STEPS: usize = 200;
/// The workloads whose lists are rerun.
const WAITING: &str = "four cores exchanging";
const MOVING: &str = "exchange, every step moving";

fn main() {
    let mut arguments = std::env::args().skip(1);
    let rounds = arguments.next().map_or(15, |number| number.parse().expect("a number of rounds"));
    match arguments.next().as_deref() {
        None => bench(rounds, Linked, linked::rerun, linked::takes, linked::lowest),
        Some("noise") => bench(rounds, Reference, rerun::rerun, bounds::takes, holding::lowest),
        Some(other) => panic!("bench [rounds [noise]], not {other}"),
    }
}

/// Every table, with the second machine as the one beside the reference.
fn bench<M: Machine>(rounds: usize, second: M, second_rerun: Rerun, second_takes: Takes, second_lowest: Lowest) {
    println!("{:40} {:>12} {:>12} {:>8}", "ns", Reference.name(), second.name(), "ratio");
    let mut exchanging = Vec::new();
    for workload in workloads() {
        let work = workload.work(CALLS, STEPS_IN_A_CALL);
        let mut least = Least::new(CALLS);
        for round in 0..rounds {
            let (mut a, mut b) = (Plant::new(&work, &Reference), Plant::new(&work, &second));
            least.round(round, |call| a.run(&work, &Reference, call), |call| b.run(&work, &second, call));
            assert!(a == b, "the machines leave different things");
            assert!(a.cycles().all(|cycles| cycles > 0), "the work has cycles");
        }
        least.report(workload.name, STEPS);
        if let Some(name @ (WAITING | MOVING)) = workload.name.strip_suffix(", a step") {
            exchanging.push((name, work));
        }
    }
    for (name, draft) in [("single steps of a DINT loop, a call", dint_loop()), ("single steps of four cores, a call", four_cores())] {
        let work = Work::new(&draft, Turns::RoundRobin, 1, SINGLE_STEPS);
        let mut least = Least::new(CALLS);
        for round in 0..rounds {
            let (mut a, mut b) = (Plant::new(&work, &Reference), Plant::new(&work, &second));
            least.round(round, |call| a.steps(&work, &Reference, work.order(call)), |call| b.steps(&work, &second, work.order(call)));
            assert!(a == b, "the machines leave different things");
        }
        least.report(name, CALLS * SINGLE_STEPS);
    }
    let file = largest(0, MOST_CODE).bytes();
    let mut least = Least::new(FILES);
    for round in 0..rounds {
        least.round(round, |_| judge(&Reference, &file), |_| judge(&second, &file));
    }
    least.report(&format!("judging {} bytes, a byte", file.len()), FILES * file.len());
    for (name, work) in &exchanging {
        rerun_of_a_run(name, work, rounds, &second, second_rerun);
    }
    for length in [MOST_CODE / 8, MOST_CODE / 2, MOST_CODE] {
        what_it_takes(length, rounds, second_takes);
    }
    let times = [10, 10_000].map(|window| lowest(window, rounds.min(3), second_lowest));
    println!(
        "lowest: a record with 10,000 in its window takes {:.2} of the time of one with 10",
        times[1].as_secs_f64() / times[0].as_secs_f64()
    );
}

/// Times the rerun of the list that a run of all steps writes, beside that run, on the second machine. What the reruns of both machines leave is compared.
fn rerun_of_a_run<M: Machine>(name: &str, work: &Work, rounds: usize, machine: &M, rerun: Rerun) {
    let ran = |list: &mut Vec<u8>| -> Duration {
        let mut plant = Plant::new(work, machine);
        let run = |call| {
            let time = plant.run(work, machine, call);
            list.extend(&plant.list[..plant.taken]);
            time
        };
        (0..CALLS).map(run).sum()
    };
    let mut list = Vec::new();
    ran(&mut list);
    let reran = |rerun: Rerun, lent: &mut _| {
        let start = Instant::now();
        let number = rerun(&work.file, &work.trace, black_box(&list), lent);
        let time = start.elapsed();
        assert_eq!(number, refusal::NONE);
        time
    };
    let (mut of_a, mut of_b) = (work.lent(), work.lent());
    reran(rerun::rerun, &mut of_a);
    let mut least = Least::new(1);
    for round in 0..rounds {
        least.round(round, |_| ran(&mut Vec::new()), |_| reran(rerun, &mut of_b));
        assert!(of_a == of_b, "the reruns leave different things");
    }
    let [run, rerun] = least.0[0].map(|time| time.as_secs_f64());
    println!("a rerun of {} takings, of the time of its run, {name}: {:.3}", list.len(), rerun / run);
}

/// Times what a task takes on a file with so many bytes of code in each core, all jumps upward.
fn what_it_takes(length: usize, rounds: usize, second: Takes) {
    let file = largest(JUMPED, length).bytes();
    let timed = |takes: Takes, answer: &mut ([usize; 3], [u32; 4], [u32; 4])| {
        let start = Instant::now();
        let number = takes(black_box(&file), &mut answer.0, &mut answer.1, &mut answer.2);
        let time = start.elapsed();
        assert_eq!(number, refusal::NONE);
        time
    };
    let (mut of_a, mut of_b) = Default::default();
    let mut least = Least::new(FILES);
    for round in 0..rounds {
        least.round(round, |_| timed(bounds::takes, &mut of_a), |_| timed(second, &mut of_b));
        assert!(of_a == of_b, "the answers differ");
    }
    least.report(&format!("takes of {} bytes, a byte", file.len()), FILES * file.len());
}

/// Times the lowest reading over the holding time on a run with so many records in each window. The reference looks at each record of a window,
/// so that it is a yardstick of the answers alone.
fn lowest(window: usize, rounds: usize, second: Lowest) -> Duration {
    const RECORDS: usize = 50_000;
    const STEP: i32 = 20;
    let reading = |i: usize| (i.wrapping_mul(2_654_435_761) >> 7) as i16;
    let records: Vec<Record> = (0..RECORDS).map(|i| Record { time: STEP * i as i32, reading: reading(i) }).collect();
    let run = holding::run_of(&records);
    let span = STEP as u32 * (window as u32 - 1);
    let (mut of_a, mut of_b) = (vec![0; 2 * RECORDS], vec![0; 2 * RECORDS]);
    let timed = |lowest: Lowest, answers: &mut [u8]| {
        let start = Instant::now();
        let number = lowest(black_box(&run), span, answers);
        let time = start.elapsed();
        assert_eq!(number, holding::NONE);
        time
    };
    let mut least = Least::new(1);
    for round in 0..rounds {
        least.round(round, |_| timed(holding::lowest, &mut of_a), |_| timed(second, &mut of_b));
        assert!(of_a == of_b, "the answers differ");
    }
    // A call is short beside the reference's, so that it is made more often.
    for _ in 0..50 {
        least.0[0][1] = least.0[0][1].min(timed(second, &mut of_b));
    }
    least.report(&format!("lowest of {window} records, a record"), RECORDS);
    least.0[0][1]
}

/// The least time of each call, for both machines. The same call does the same work in every round, so that what is left is the work.
struct Least(Vec<[Duration; 2]>);

impl Least {
    fn new(calls: usize) -> Least {
        Least(vec![[Duration::MAX; 2]; calls])
    }

    /// Call by call in turns; who is first changes from round to round.
    fn round(&mut self, round: usize, mut a: impl FnMut(usize) -> Duration, mut b: impl FnMut(usize) -> Duration) {
        for (call, least) in self.0.iter_mut().enumerate() {
            let times = if round.is_multiple_of(2) {
                [a(call), b(call)]
            } else {
                let time_b = b(call);
                [a(call), time_b]
            };
            *least = [least[0].min(times[0]), least[1].min(times[1])];
        }
    }

    fn report(&self, name: &str, units: usize) {
        let [a, b] = [0, 1].map(|machine| self.0.iter().map(|least| least[machine]).sum::<Duration>());
        let each = |time: Duration| time.as_nanos() as f64 / units as f64;
        println!("{name:40} {:12.3} {:12.3} {:8.3}", each(a), each(b), b.as_secs_f64() / a.as_secs_f64());
    }
}

fn judge<M: Machine>(machine: &M, file: &[u8]) -> Duration {
    let start = Instant::now();
    let number = machine.check_file(black_box(file));
    let time = start.elapsed();
    assert_eq!(number, refusal::NONE);
    time
}
