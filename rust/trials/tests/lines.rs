//! Document 02, 2.9: the lines between cores by example, a short comparison, wrong tests that the comparison has to see; and the ring of three whose run
//! matches no order of whole cycles.

use independent::interface::{Machine, Reference};
use independent::lines::*;
use independent::reference::{mode, Core, Semaphore, SHARED_SIZE};
use std::panic::catch_unwind;

fn all() -> Vec<Check> {
    vec![check, trials::linked::check_cycles]
}

fn machines() -> Vec<Box<dyn Machine>> {
    vec![Box::new(Reference), Box::new(trials::linked::Linked)]
}

/// Variables of one byte, each with its writer and its readers. The code of each core is NOT BOOL from place 0 to place 1, and RETURN.
fn file(cores: u8, variables: &[(usize, &[usize])]) -> Vec<u8> {
    let mut file = [b"MCS1", &[cores][..]].concat();
    for _ in 0..cores {
        file.extend([16, 0, 0, 0, 2, 0]);
    }
    file.push(variables.len() as u8);
    // What a core reads goes to even places from 0 on, what it writes comes from odd ones from 1 on.
    let (mut even, mut odd) = ([0u8; 4], [1u8; 4]);
    let place = |next: &mut u8| std::mem::replace(next, *next + 2);
    for (number, &(writer, readers)) in variables.iter().enumerate() {
        let attribute = readers.iter().fold(1u8 << writer, |bits, reader| bits | 16 << reader);
        let mut local = [0; 4];
        local[writer] = place(&mut odd[writer]);
        for &reader in readers {
            local[reader] = place(&mut even[reader]);
        }
        file.extend([number as u8, 0, 1, attribute]);
        file.extend(local.iter().flat_map(|&place| [place, 0]));
    }
    for _ in 0..cores {
        file.extend([7, 0, 27, 0, 1, 0, 0, 0, 0]);
    }
    file
}

const RING: &[(usize, &[usize])] = &[(0, &[1]), (1, &[2]), (2, &[0])];

#[test]
fn the_lines() {
    for check in all() {
        assert_eq!(check(&file(1, &[])), Lines::Free);
        assert_eq!(check(&file(4, &[(0, &[1, 2, 3])])), Lines::Free);
        assert_eq!(check(&file(4, &[(0, &[1]), (1, &[2]), (2, &[3])])), Lines::Free);
        assert_eq!(check(&file(2, &[(0, &[1]), (0, &[1])])), Lines::Free);
        assert_eq!(check(&file(3, RING)), Lines::Ringed);
        assert_eq!(check(&file(3, &RING[..2])), Lines::Free);
        // Direction put aside.
        assert_eq!(check(&file(3, &[(0, &[1, 2]), (1, &[2])])), Lines::Ringed);
        assert_eq!(check(&file(4, &[(0, &[2]), (2, &[1]), (1, &[3]), (3, &[0])])), Lines::Ringed);
        assert_eq!(check(&file(2, &[(0, &[1]), (1, &[0])])), Lines::EachOther);
        assert_eq!(check(&file(3, &[RING, &[(1, &[0])]].concat())), Lines::EachOther);
        assert_eq!(check(&[]), Lines::Refused(1));
        assert_eq!(check(b"MCS3"), Lines::Refused(2));
    }
}

/// What a run of the order leaves from the fresh state: shared memory, and every core between cycles.
fn shared_after(machine: &dyn Machine, file: &[u8], order: &[u8]) -> Vec<u8> {
    let trace = [1, 0, 0, 0, 0, 0].repeat(3);
    let (mut table, mut semaphore) = (vec![Core::default(); 3], Semaphore::default());
    let (mut buffer, mut shared) = (vec![0; 48], vec![0; SHARED_SIZE]);
    assert_eq!(machine.fresh(file, &mut table, &mut semaphore, &mut buffer, &mut shared), 0);
    let mut list = vec![0; order.len()];
    assert_eq!(machine.run(file, &trace, &mut table, &mut semaphore, &mut buffer, &mut shared, order, &mut list, &mut 0), 0);
    assert!(table.iter().all(|core| core.registers.mode == mode::AWAITS_READING && core.registers.cycles == 1));
    shared[..3].to_vec()
}

/// All read, all execute, all write. In a ring each core then has written NOT of a start value, which no order of whole cycles leaves.
#[test]
fn a_ring_matches_no_order() {
    let together = [0, 0, 1, 1, 2, 2, 0, 0, 1, 1, 2, 2, 0, 0, 1, 1, 2, 2];
    let orders = [[0, 1, 2], [0, 2, 1], [1, 0, 2], [1, 2, 0], [2, 0, 1], [2, 1, 0]];
    for machine in machines() {
        for (variables, matches) in [(RING, false), (&RING[..2], true)] {
            let file = file(3, variables);
            let ended = shared_after(&*machine, &file, &together);
            let whole = orders.map(|cores| shared_after(&*machine, &file, &cores.map(|core| [core; 6]).concat()));
            assert_eq!(whole.contains(&ended), matches);
        }
    }
}

#[test]
fn comparisons_are_complete() {
    for other in all() {
        assert_eq!(compare(check, other, 7, 20_000).missing(), Vec::<String>::new());
    }
}

#[test]
fn wrong_tests_are_seen() {
    fn with(file: &[u8], wrong: fn(&[(usize, usize)]) -> Lines) -> Lines {
        match check(file) {
            Lines::Refused(number) => Lines::Refused(number),
            _ => wrong(&reads(file)),
        }
    }
    let mistakes: &[(&str, Check)] = &[
        ("the last variable left out", |file| with(file, |reads| lines_of(&reads[..reads.len().saturating_sub(1)]))),
        ("rings of three alone", |file| {
            with(file, |reads| match lines_of(reads) {
                Lines::Ringed => {
                    let line = |j, k| reads.contains(&(j, k)) || reads.contains(&(k, j));
                    let threes = [[0, 1, 2], [0, 1, 3], [0, 2, 3], [1, 2, 3]];
                    if threes.iter().any(|&[a, b, c]| line(a, b) && line(b, c) && line(c, a)) {
                        Lines::Ringed
                    } else {
                        Lines::Free
                    }
                }
                answer => answer,
            })
        }),
        ("rings along the reads alone", |file| {
            with(file, |reads| match lines_of(reads) {
                Lines::Ringed => {
                    let mut sorted = reads.to_vec();
                    sorted.retain(|&(reader, _)| reads.iter().any(|&(_, writer)| writer == reader));
                    if sorted.is_empty() {
                        Lines::Free
                    } else {
                        Lines::Ringed
                    }
                }
                answer => answer,
            })
        }),
        ("a pair told as a ring", |file| match check(file) {
            Lines::EachOther => Lines::Ringed,
            answer => answer,
        }),
    ];
    for (name, mistake) in mistakes {
        assert!(catch_unwind(|| compare(check, *mistake, 8, 20_000)).is_err(), "{name} went unseen");
    }
}
