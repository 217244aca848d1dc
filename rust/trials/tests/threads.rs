//! Cores in threads of their own: what they leave is what the rerun of their order of takings leaves, and a rerun of another order is seen.

use independent::reference::threads::{demonstrate, run};
use independent::rerun::{rerun, rerun_with, Lent, Mistake};

#[test]
fn threads_end_as_their_rerun() {
    let met = demonstrate(rerun, 2, 300);
    assert_eq!(met.runs, 300);
    assert!(met.by_cores.iter().all(|&runs| runs > 0), "every number of cores came: {met:?}");
    assert!(met.turns > 0 && met.pairs > 0, "takings of different cores followed each other, and pairs were read: {met:?}");
}

/// A rerun that leaves the last taking out is one that the demonstration has to see.
#[test]
#[should_panic(expected = "the rerun ends as the threads did")]
fn a_wrong_rerun_is_seen() {
    fn last_left_out(file: &[u8], trace: &[u8], list: &[u8], lent: &mut Lent) -> u8 {
        rerun_with(Mistake::LastTakingLeftOut, file, trace, list, lent)
    }
    demonstrate(last_left_out, 2, 300);
}

#[test]
fn one_core_has_one_order() {
    // Document 01's listing: one core, one record.
    let file = b"MCS1\x01\x01\x00\x00\x00\x0a\x00\x00\x01\x00\x00";
    let trace = [1, 0, 0, 0, 0, 0];
    let (ended, list) = run(file, &trace, 1);
    assert_eq!(list, [0, 16]);
    assert_eq!(ended.table[0].registers.cycles, 1);
}
