//! Document 02, 2.13: lists that runs wrote, cut anywhere; damaged lists against a search of every order of steps; a short comparison, and wrong reruns that it
//! has to see.

use independent::random::{self, Random};
use independent::reference::{refusal, Core, Semaphore, SHARED_SIZE};
use independent::rerun::*;
use std::panic::catch_unwind;

fn all() -> Vec<Rerun> {
    vec![rerun, trials::linked::rerun]
}

fn empty(cores: usize, data: usize) -> Lent {
    Lent { table: vec![Core::fresh(); cores], semaphore: Semaphore::default(), buffer: vec![0; data], shared: vec![0; SHARED_SIZE] }
}

#[test]
fn runs_are_rerun() {
    let mut random = Random::new(213);
    let mut ends = 0;
    for _ in 0..400 {
        let (case, _, _) = random::sound(&mut random);
        let (list, left) = listed(&case, &mut random);
        for rerun in all() {
            let mut lent = empty(case.table.len(), case.buffer.len());
            lent.buffer.fill(7);
            lent.shared.fill(9);
            assert_eq!(rerun(&case.file, &case.trace, &list, &mut lent), refusal::NONE);
            if settled(&left) {
                assert_eq!(lent.table, left.table);
                assert_eq!((&lent.buffer, &lent.shared), (&left.buffer, &left.shared));
                assert_eq!(lent.semaphore, Semaphore::default());
                ends += 1;
            }
            let cut = random.below(list.len() + 1);
            assert_eq!(rerun(&case.file, &case.trace, &list[..cut], &mut lent), refusal::NONE);
        }
    }
    assert!(ends > 50, "{ends} runs ended settled");
}

/// Two cores with a variable each way: core 0 has two records and runs through, core 1 has one and is stopped by its limit.
fn small() -> (Vec<u8>, Vec<u8>) {
    let mut file = b"MCS1\x02".to_vec();
    file.extend([4, 0, 0, 0, 3, 0, 4, 0, 1, 0, 1, 0]);
    file.push(2);
    file.extend([0, 0, 1, 0x21, 1, 0, 1, 0, 0, 0, 0, 0]);
    file.extend([1, 0, 1, 0x12, 2, 0, 2, 0, 0, 0, 0, 0]);
    // NOT BOOL from place 2 to place 1, RETURN; JMP 0
    file.extend([7, 0, 27, 0, 1, 0, 2, 0, 0]);
    file.extend([3, 0, 1, 0, 0]);
    (file, vec![2, 0, 0, 0, 0, 0, 0, 0, 0, 0, 1, 0, 0, 0, 0, 0, 5])
}

#[test]
fn damaged_lists_are_those_that_no_order_produces() {
    let (file, trace) = small();
    let fresh = empty(2, 8);
    let mut random = Random::new(33);
    let (mut yes, mut no) = (0, 0);
    for _ in 0..300 {
        let length = random.below(6);
        let list: Vec<u8> = (0..length).map(|_| random.pick(&[0, 0, 16, 1, 17, 2, 32])).collect();
        let expected = produced(&file, &trace, &list, &fresh);
        for rerun in all() {
            let mut lent = fresh.clone();
            let number = rerun(&file, &trace, &list, &mut lent);
            assert_eq!(number, if expected { refusal::NONE } else { UNPRODUCED }, "{list:?}");
            if !expected {
                assert_eq!(lent, fresh);
            }
        }
        *(if expected { &mut yes } else { &mut no }) += 1;
    }
    assert!(yes > 20 && no > 100, "{yes} produced, {no} not");
}

#[test]
fn comparison() {
    for other in all() {
        let missing = compare(rerun, other, 2013, 600).missing();
        assert!(missing.is_empty(), "never came: {missing:?}");
    }
}

#[test]
fn wrong_reruns_are_seen() {
    let wrong: [(&str, Rerun); 8] = [
        ("a stopped core writes", |f, t, l, m| rerun_with(Mistake::StoppedCoreWrites, f, t, l, m)),
        ("a core reads with its records spent", |f, t, l, m| rerun_with(Mistake::SpentCoreReads, f, t, l, m)),
        ("a refused list leaves its memory", |f, t, l, m| rerun_with(Mistake::RefusedListLeavesItsMemory, f, t, l, m)),
        ("33 before 22", |f, t, l, m| rerun_with(Mistake::ListBeforeTrace, f, t, l, m)),
        ("bytes from 32 on name cores", |f, t, l, m| rerun_with(Mistake::HighBytesNameCores, f, t, l, m)),
        ("the last taking left out", |f, t, l, m| rerun_with(Mistake::LastTakingLeftOut, f, t, l, m)),
        ("the holder left", |f, t, l, m| rerun_with(Mistake::HolderLeft, f, t, l, m)),
        ("a reading out of turn", |f, t, l, m| rerun_with(Mistake::ReadingOutOfTurn, f, t, l, m)),
    ];
    for (name, rerun_wrong) in wrong {
        let seen = catch_unwind(|| compare(rerun, rerun_wrong, 1, 3000)).is_err();
        assert!(seen, "{name} is not seen");
    }
}
