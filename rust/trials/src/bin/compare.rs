//! Compares the proved machine with the reference on random cases.
//!
//! `compare [rounds [seed]]`

use independent::bounds;
use independent::comparison::compare;
use independent::forms;
use independent::holding;
use independent::interface::{Reference, Stepwise};
use independent::lines;
use independent::profiles;
use independent::rerun;
use independent::window;
use trials::linked::{self, Linked};

fn main() {
    let mut numbers = std::env::args().skip(1).map(|number| number.parse().expect("a number"));
    let rounds = numbers.next().unwrap_or(10_000);
    let seed = numbers.next().unwrap_or(1);
    let tally = compare(&Reference, &Linked, seed as u64, rounds);
    compare(&Reference, &Stepwise(Linked), seed as u64, rounds / 10);
    tally.print();
    let lowest = holding::compare(holding::lowest, linked::lowest, seed as u64, 10 * rounds);
    lowest.print();
    let lines = lines::compare(lines::check, linked::check_cycles, seed as u64, rounds);
    lines.print();
    let windows = window::compare(window::find, linked::window, seed as u64, rounds);
    windows.print();
    let takes = bounds::compare(bounds::takes, linked::takes, seed as u64, 2 * rounds);
    takes.print();
    let loaded = profiles::compare(profiles::REFERENCE, linked::LOADER, seed as u64, 4 * rounds);
    loaded.print();
    let converted = forms::compare(forms::REFERENCE, linked::CONVERTERS, seed as u64, rounds);
    converted.print();
    let rerun = rerun::compare(rerun::rerun, linked::rerun, seed as u64, rounds);
    rerun.print();
    let reports = [
        tally.missing(),
        lowest.missing(),
        lines.missing(),
        windows.missing(),
        takes.missing(),
        loaded.missing(),
        converted.missing(),
        rerun.missing(),
    ];
    let missing = reports.concat();
    assert!(missing.is_empty(), "never came: {missing:?}");
    println!("{rounds} rounds: the reference and the proved machine agree");
}
