//! Document 02, 2.7: what a task takes by example; the numbers against a walk of every path; a limit at the count against one below it; a short
//! comparison; wrong ones that the comparison has to see.

use independent::bounds::*;
use independent::draft::{CoreRecord, Draft, Program};
use independent::interface::{Machine, Reference};
use independent::random::Random;
use independent::reference::command::*;
use independent::reference::{flag, mode, Core, Semaphore, SHARED_SIZE};
use std::panic::catch_unwind;

fn all() -> Vec<Takes> {
    vec![takes, trials::linked::takes]
}

fn machines() -> Vec<Box<dyn Machine>> {
    vec![Box::new(Reference), Box::new(trials::linked::Linked)]
}

/// The refusal number, the lengths, counts and depths with more places than any file needs.
fn answer(takes: Takes, file: &[u8]) -> (u8, [usize; 3], [u32; 4], [u32; 4]) {
    let (mut lengths, mut counts, mut depths) = ([0; 3], [0; 4], [0; 4]);
    (takes(file, &mut lengths, &mut counts, &mut depths), lengths, counts, depths)
}

fn refused(number: u8) -> (u8, [usize; 3], [u32; 4], [u32; 4]) {
    (number, [0; 3], [0; 4], [0; 4])
}

/// Each core has 10 bytes of data more than the one before, from 10 on, and a limit of 1, which is not asked for.
fn file(programs: Vec<Program>) -> Vec<u8> {
    let cores = (1..=programs.len() as u16).map(|k| CoreRecord { data_size: 10 * k, input_size: 0, limit: 1 }).collect();
    Draft::new(cores, Vec::new(), programs.into_iter().map(Program::code).collect()).bytes()
}

/// A chain of calls, each of the place after it, with so many instructions before them: 2 ^ (calls + 1) - 1 and those.
fn chain(before: usize, calls: usize) -> Program {
    let mut program = Program::new();
    for _ in 0..before {
        program = program.register(CYCLE_TIME, 0);
    }
    for _ in 0..calls {
        let after = program.here() + 3;
        program = program.call(after);
    }
    program.returns()
}

fn to_itself() -> Program {
    Program::new().jump(0)
}

#[test]
fn by_example() {
    for takes in all() {
        let listing = [77, 67, 83, 49, 1, 1, 0, 0, 0, 1, 0, 0, 1, 0, 0];
        assert_eq!(answer(takes, &listing), (0, [1, 1024, 1], [1, 0, 0, 0], [0; 4]));
        // Either way of a conditional jump.
        let either = Program::new().jump_if(JZ, 0, 8).register(CYCLE_TIME, 0).returns();
        assert_eq!(answer(takes, &file(vec![either.clone()])), (0, [10, 1024, 1], [3, 0, 0, 0], [0; 4]));
        assert_eq!(answer(takes, &file(vec![chain(0, 1), either, chain(0, 15)])), (0, [60, 1024, 3], [3, 3, 65_535, 0], [1, 0, 15, 0]));
        // One conditional jump in two calls of a subroutine may go either way in each.
        let subroutine = Program::new().call(7).call(7).returns().jump_if(JNZ, 0, 15).register(CYCLE_TIME, 0).returns();
        assert_eq!(answer(takes, &file(vec![subroutine])), (0, [10, 1024, 1], [9, 0, 0, 0], [1, 0, 0, 0]));
        assert_eq!(answer(takes, &file(vec![to_itself()])), refused(25));
        assert_eq!(answer(takes, &file(vec![Program::new().returns().jump(0)])), refused(25), "never reached, and 25 all the same");
        assert_eq!(answer(takes, &file(vec![chain(1, 15)])), refused(26));
        // A count that is never reached.
        let unreached = (0..17).fold(Program::new().returns(), |program, k| program.call(4 + 3 * k));
        assert_eq!(answer(takes, &file(vec![unreached.returns()])), (0, [10, 1024, 1], [1, 0, 0, 0], [0; 4]));
        // For each core in turn, 25 before 26.
        assert_eq!(answer(takes, &file(vec![chain(1, 15), to_itself()])), refused(26));
        assert_eq!(answer(takes, &file(vec![to_itself(), chain(1, 15)])), refused(25));
        let both = (0..17).fold(Program::new(), |program, k| program.call(3 * k + 3)).jump(51);
        assert_eq!(answer(takes, &file(vec![both])), refused(25));
        assert_eq!(answer(takes, &[]), refused(1));
        let mut long = file(vec![to_itself()]);
        long.push(0);
        assert_eq!(answer(takes, &long).0, independent::reference::check_file(&long), "leftovers before 25");
    }
}

#[test]
fn outputs() {
    let accepted = file(vec![chain(0, 1), chain(0, 2)]);
    for takes in all() {
        for (lengths, counts, depths) in [(2, 2, 2), (3, 1, 2), (3, 2, 1), (0, 0, 0)] {
            let (mut a, mut b, mut c) = (vec![7; lengths], vec![8; counts], vec![9; depths]);
            assert_eq!(takes(&accepted, &mut a, &mut b, &mut c), 21);
            assert_eq!((a, b, c), (vec![7; lengths], vec![8; counts], vec![9; depths]));
            assert_eq!(takes(&file(vec![to_itself()]), &mut vec![7; lengths], &mut [], &mut []), 25, "25 before 21");
        }
        let (mut a, mut b, mut c) = (vec![7; 4], vec![8; 3], vec![9; 2]);
        assert_eq!(takes(&accepted, &mut a, &mut b, &mut c), 0);
        assert_eq!((a, b, c), (vec![30, 1024, 2, 7], vec![3, 7, 8], vec![1, 2]));
    }
}

/// Every path from a place to RETURN at depth 0: the greatest count and depth. `left` bounds the work.
fn walk(code: &[u8], place: usize, stack: &mut Vec<usize>, left: &mut usize) -> Option<(u64, u64)> {
    *left = left.checked_sub(1)?;
    let Instruction { code: byte, after, target } = instruction(code, place);
    let depth = stack.len() as u64;
    let (count, deepest) = match (byte, target) {
        (RETURN, _) => match stack.pop() {
            None => (0, 0),
            Some(back) => {
                let numbers = walk(code, back, stack, left)?;
                stack.push(back);
                numbers
            }
        },
        (JMP, Some(target)) => walk(code, target, stack, left)?,
        (JZ | JNZ, Some(target)) => {
            let (stays, leaves) = (walk(code, after, stack, left)?, walk(code, target, stack, left)?);
            (stays.0.max(leaves.0), stays.1.max(leaves.1))
        }
        (_, Some(target)) => {
            stack.push(after);
            let numbers = walk(code, target, stack, left)?;
            stack.pop();
            numbers
        }
        _ => walk(code, after, stack, left)?,
    };
    Some((count + 1, deepest.max(depth)))
}

#[test]
fn every_path_was_walked() {
    let random = &mut Random::new(5);
    let mut walked = 0;
    for _ in 0..3_000 {
        let code = code(random).bytes;
        if let Ok(numbers) = measured(&code) {
            if let Some(of_paths) = walk(&code, 0, &mut Vec::new(), &mut 2_000) {
                assert_eq!(numbers, of_paths, "{code:02X?}");
                walked += 1;
            }
        }
    }
    assert!(walked > 1_000, "{walked}");
}

/// A cycle that takes the longer way has the count, so that a limit at the count lets it through and one below stops it; the seventeenth nested
/// call stops a core with bit 5, which a depth of 16 does not.
#[test]
fn limits_and_calls() {
    let end = |machine: &dyn Machine, limit: u16, program: Program| {
        let file = Draft::single(4, 0, limit, program).bytes();
        let (mut table, mut semaphore) = (vec![Core::default()], Semaphore::default());
        let (mut buffer, mut shared) = (vec![0; 4], vec![0; SHARED_SIZE]);
        assert_eq!(machine.fresh(&file, &mut table, &mut semaphore, &mut buffer, &mut shared), 0);
        let order = vec![0; 70_000];
        let (mut list, mut taken) = (vec![0; order.len()], 0);
        let number =
            machine.run(&file, &[1, 0, 0, 0, 0, 0], &mut table, &mut semaphore, &mut buffer, &mut shared, &order, &mut list, &mut taken);
        assert_eq!(number, 0);
        let registers = &table[0].registers;
        (registers.mode, registers.flags, registers.count)
    };
    // NOT of the byte 0 is 1, so that JZ stays and JNZ jumps.
    let either = || Program::new().typed(NOT, 0, 0, 0, 0).jump_if(JZ, 0, 14).register(CYCLE_TIME, 0).returns();
    let numbers = |program: Program| measured(&program.code().bytes);
    assert_eq!(numbers(either()), Ok((4, 0)));
    assert_eq!(numbers(chain(0, 15)), Ok((65_535, 15)));
    let rising = |calls: u16| {
        let program = (0..calls).fold(Program::new(), |program, k| program.call(4 * k + 4).returns());
        program.returns()
    };
    assert_eq!(numbers(rising(16)), Ok((33, 16)));
    assert_eq!(numbers(rising(17)), Ok((35, 17)));
    for machine in machines() {
        assert_eq!(end(&*machine, 4, either()), (mode::AWAITS_READING, 0, 4));
        assert_eq!(end(&*machine, 3, either()), (mode::STOPPED, flag::COLD_START | flag::INSTRUCTION_LIMIT, 3));
        assert_eq!(end(&*machine, 65_535, chain(0, 15)), (mode::AWAITS_READING, 0, 65_535));
        assert_eq!(end(&*machine, 65_535, rising(16)), (mode::AWAITS_READING, 0, 33));
        assert_eq!(end(&*machine, 65_535, rising(17)), (mode::STOPPED, flag::COLD_START | flag::NESTED_CALL, 16));
    }
}

#[test]
fn comparisons_are_complete() {
    for other in all() {
        assert_eq!(compare(takes, other, 3, 20_000).missing(), Vec::<String>::new());
    }
}

#[test]
fn wrong_ones_are_seen() {
    /// An accepted answer with one number changed, or a refusal told otherwise.
    fn changed(file: &[u8], a: &mut [usize], b: &mut [u32], c: &mut [u32], change: fn(&mut [usize], &mut [u32], &mut [u32])) -> u8 {
        let number = takes(file, a, b, c);
        if number == 0 {
            change(a, b, c);
        }
        number
    }
    let mistakes: &[(&str, Takes)] = &[
        ("RETURN uncounted", |file, a, b, c| changed(file, a, b, c, |_, counts, _| counts[0] -= 1)),
        ("a call without its depth", |file, a, b, c| changed(file, a, b, c, |_, _, depths| depths[0] = depths[0].saturating_sub(1))),
        ("core 1's count told of core 0", |file, a, b, c| changed(file, a, b, c, |_, counts, _| counts[0] = counts[1])),
        ("the table counted in bytes", |file, a, b, c| changed(file, a, b, c, |lengths, _, _| lengths[2] *= 84)),
        ("a count of 65,536 is the limit", |file, a, b, c| match takes(file, a, b, c) {
            0 if b[0] == 65_535 => 26,
            number => number,
        }),
        ("26 told as 25", |file, a, b, c| match takes(file, a, b, c) {
            26 => 25,
            number => number,
        }),
        ("21 before 25 and 26", |file, a, b, c| match takes(file, a, b, c) {
            25 | 26 if a.len() < 3 => 21,
            number => number,
        }),
        ("places past the cores cleared", |file, a, b, c| {
            let number = takes(file, a, b, c);
            if number == 0 {
                b[file[4] as usize..].fill(0);
            }
            number
        }),
    ];
    for (name, mistake) in mistakes {
        assert!(catch_unwind(|| compare(takes, *mistake, 4, 20_000)).is_err(), "{name} went unseen");
    }
}
