//! One workload on one machine, a fixed number of units, for a tool that counts instructions (`counts.sh`). What is done beside the units, the judging of a run's
//! call included, is the same whatever their number, so that two numbers of units show what one unit takes.
//!
//! `counted names`, or `counted reference|rikzord NAME TIMES`, which prints how many units it did

use independent::bounds::{self, Takes};
use independent::holding::{self, Lowest, Record};
use independent::interface::{Machine, Reference};
use independent::reference::{refusal, MOST_CODE};
use independent::rerun::{self, Rerun};
use std::hint::black_box;
use trials::linked::{self, Linked};
use trials::workloads::{dint_loop, four_cores, largest, workloads, Plant, Turns, Work, JUMPED};

const MOST_TIMES: usize = 3;
const STEPS: usize = 12_000;
const SINGLE_STEPS: usize = 40;
const TAKINGS: usize = 80;
const RECORDS: usize = 2_000;

const SINGLE_DINT: &str = "single steps of a DINT loop, a call";
const SINGLE_FOUR: &str = "single steps of four cores, a call";
const JUDGING: &str = "judging 33574 bytes, a byte";
const RERUN: &str = "rerun, a taking";
const TAKES: &str = "takes of 33574 bytes, a byte";
const LOWEST: &str = "lowest of 10 records, a record";

fn main() {
    let arguments: Vec<String> = std::env::args().skip(1).collect();
    let arguments: Vec<&str> = arguments.iter().map(String::as_str).collect();
    match arguments[..] {
        ["names"] => {
            let others = [SINGLE_DINT, SINGLE_FOUR, JUDGING, RERUN, TAKES, LOWEST];
            workloads().iter().map(|workload| workload.name).chain(others).for_each(|name| println!("{name}"));
        }
        [machine, name, times] => {
            let times = times.parse().expect("a number of times");
            assert!((1..=MOST_TIMES).contains(&times), "1 to {MOST_TIMES} times");
            let units = match machine {
                "reference" => counted(name, times, Reference, rerun::rerun, bounds::takes, holding::lowest),
                "rikzord" => counted(name, times, Linked, linked::rerun, linked::takes, linked::lowest),
                other => panic!("reference or rikzord, not {other}"),
            };
            println!("{units}");
        }
        _ => panic!("counted names, or counted reference|rikzord NAME TIMES"),
    }
}

/// Does the work; how many units it had.
fn counted<M: Machine>(name: &str, times: usize, machine: M, rerun: Rerun, takes: Takes, lowest: Lowest) -> usize {
    match name {
        SINGLE_DINT | SINGLE_FOUR => {
            let draft = if name == SINGLE_DINT { dint_loop() } else { four_cores() };
            let work = Work::new(&draft, Turns::RoundRobin, 1, MOST_TIMES * SINGLE_STEPS);
            let mut plant = Plant::new(&work, &machine);
            // Into the first cycle, by the same call in each.
            plant.steps(&work, &machine, &work.order(0)[..SINGLE_STEPS]);
            plant.steps(&work, &machine, &work.order(0)[..times * SINGLE_STEPS]);
            times * SINGLE_STEPS
        }
        JUDGING => {
            let file = largest(0, MOST_CODE).bytes();
            (0..times).for_each(|_| assert_eq!(machine.check_file(black_box(&file)), refusal::NONE));
            times * file.len()
        }
        RERUN => {
            // Whole cycles of one core after another, which some order of steps produces.
            let list = [0, 16, 1, 17, 2, 18, 3, 19].repeat(MOST_TIMES * TAKINGS / 8);
            let list = &list[..times * TAKINGS];
            let work = Work::new(&four_cores(), Turns::RoundRobin, 1, 4);
            assert_eq!(rerun(&work.file, &work.trace, black_box(list), &mut work.lent()), refusal::NONE);
            list.len()
        }
        TAKES => {
            let file = largest(JUMPED, MOST_CODE).bytes();
            (0..times).for_each(|_| assert_eq!(takes(black_box(&file), &mut [0; 3], &mut [0; 4], &mut [0; 4]), refusal::NONE));
            times * file.len()
        }
        LOWEST => {
            let reading = |i: usize| (i.wrapping_mul(2_654_435_761) >> 7) as i16;
            let records: Vec<Record> = (0..MOST_TIMES * RECORDS).map(|i| Record { time: i as i32, reading: reading(i) }).collect();
            let run = holding::run_of(&records);
            let run = &run[..holding::RECORD * times * RECORDS];
            assert_eq!(lowest(black_box(run), 9, &mut [0; 2 * MOST_TIMES * RECORDS]), refusal::NONE);
            times * RECORDS
        }
        _ => {
            let all = workloads();
            let workload = all.iter().find(|workload| workload.name == name).expect("a name of `counted names`");
            let work = workload.work(1, MOST_TIMES * STEPS);
            Plant::new(&work, &machine).follow(&work, &machine, &work.order(0)[..times * STEPS]);
            times * STEPS
        }
    }
}
