//! Runs task sets with a thread for each core and nothing between them but the semaphore, and reruns each from the order of takings that came about (document
//! 02, 2.13), by the proved machine: both must end alike.
//!
//! `threads [runs [seed]]`

use independent::reference::threads::demonstrate;

fn main() {
    let mut numbers = std::env::args().skip(1).map(|number| number.parse().expect("a number"));
    let runs = numbers.next().unwrap_or(10_000);
    let seed = numbers.next().unwrap_or(1);
    let met = demonstrate(trials::linked::rerun, seed as u64, runs);
    let [one, two, three, four] = met.by_cores;
    println!("{} runs with a thread for each core: {one} of one core, {two} of two, {three} of three, {four} of four", met.runs);
    println!(
        "{} takings, {} of them right after one of another core; {} pairs read, none of two cycles",
        met.takings, met.turns, met.pairs
    );
    println!("each ended as the proved machine ends that reruns its order of takings");
}
