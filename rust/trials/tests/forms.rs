//! Document 02, 2.12 by example: start values in the fresh state and in what a reader brings before the first writing, files of the new form and their numbers,
//! both converters; a short comparison of converters; wrong ones.

use independent::draft::{CoreRecord, Draft, Program, Variable};
use independent::forms::{compare, Convert, Converters, REFERENCE};
use independent::reference::{self, cores, mode, refusal, Core, Semaphore, FILE_MARK, LONGEST_TASK, NEW_MARK, SHARED_SIZE};
use std::panic::catch_unwind;

fn all() -> Vec<Converters> {
    vec![REFERENCE, trials::linked::CONVERTERS]
}

type Check = fn(&[u8]) -> u8;
type Fresh = fn(&[u8], &mut [Core], &mut Semaphore, &mut [u8], &mut [u8]) -> u8;

fn machines() -> Vec<(Check, Fresh)> {
    use independent::interface::Machine;
    use trials::linked::Linked;
    vec![
        (reference::check_file, reference::fresh),
        (|file| Linked.check_file(file), |file, table, semaphore, buffer, shared| Linked.fresh(file, table, semaphore, buffer, shared)),
    ]
}

/// Core 0 writes the word at 2, core 1 reads it at 4; core 0 has one input byte.
fn plant() -> Draft {
    let core = |data_size, input_size| CoreRecord { data_size, input_size, limit: 9 };
    let set_point = Variable { shared: 10, width: 2, attribute: 0b0010_0001, local: [2, 4, 0, 0] };
    let code = || Program::new().returns().code();
    Draft::new(vec![core(6, 1), core(8, 0)], vec![set_point], vec![code(), code()])
}

#[test]
fn the_fresh_state_holds_start_values() {
    let draft = plant().with_values(vec![vec![(0, 7), (2, 0x2C), (3, 1), (5, 9)], vec![(4, 3), (7, 8)]]);
    for (check, fresh) in machines() {
        assert_eq!(check(&draft.bytes()), refusal::NONE);
        let (mut table, mut semaphore) = (vec![Core::default(); 2], Semaphore::default());
        let (mut buffer, mut shared) = (vec![0xEE; 14], vec![0xEE; SHARED_SIZE]);
        assert_eq!(fresh(&draft.bytes(), &mut table, &mut semaphore, &mut buffer, &mut shared), refusal::NONE);
        assert_eq!(buffer, [7, 0, 0x2C, 1, 0, 9, 0, 0, 0, 0, 3, 0, 0, 8], "zeros but for the start values");
        // The writer's start bytes, not the reader's.
        assert_eq!(shared[10..12], [0x2C, 1]);
        assert!(shared.iter().enumerate().all(|(place, &byte)| byte == 0 || place == 10 || place == 11));
    }
}

#[test]
fn a_reader_sees_the_start_bytes_before_the_first_writing() {
    let file = plant().with_values(vec![vec![(0, 7), (2, 0x2C), (3, 1)], vec![(5, 99)]]).bytes();
    let (mut table, mut semaphore) = (vec![Core::default(); 2], Semaphore::default());
    let (mut buffer, mut shared) = (vec![0; 14], vec![0; SHARED_SIZE]);
    reference::fresh(&file, &mut table, &mut semaphore, &mut buffer, &mut shared);
    // Core 1 reads before core 0 has moved.
    let number = reference::run(&file, &[], &mut table, &mut semaphore, &mut buffer, &mut shared, &[1, 1, 1], &mut [0; 3], &mut 0);
    assert_eq!((number, table[1].registers.mode), (refusal::NONE, mode::EXECUTING));
    assert_eq!(buffer[10..12], [0x2C, 1]);
    // Core 0's reading overwrites the start value of its input byte, here with the record of a trace of no bytes.
    assert_eq!(buffer[0], 7);
    reference::run(&file, &[], &mut table, &mut semaphore, &mut buffer, &mut shared, &[0], &mut [0; 1], &mut 0);
    assert_eq!(buffer[0], 0);
}

#[test]
fn numbers_of_a_new_file() {
    let with = |pairs: Vec<Vec<(u16, u8)>>| plant().with_values(pairs).bytes();
    for (check, _) in machines() {
        assert_eq!(check(b"MCS3"), refusal::MARK, "the sample of 2");
        assert_eq!(check(b"MCS2"), refusal::FILE_END);
        assert_eq!(check(&with(vec![vec![], vec![]])), refusal::NONE);
        assert_eq!(check(&with(vec![vec![(5, 1)], vec![(0, 1), (7, 2)]])), refusal::NONE);
        assert_eq!(check(&with(vec![vec![(6, 1)], vec![]])), refusal::START_PLACE, "beyond the data");
        assert_eq!(check(&with(vec![vec![], vec![(7, 1), (8, 1)]])), refusal::START_PLACE, "beyond core 1's data");
        assert_eq!(check(&with(vec![vec![(3, 1), (3, 2)], vec![]])), refusal::START_PLACE, "not rising");
        assert_eq!(check(&with(vec![vec![], vec![(4, 1), (3, 2)]])), refusal::START_PLACE, "falling");
        // No start values at all, none for the last core, a place without its byte.
        let whole = with(vec![vec![(1, 1)], vec![]]);
        let end = plant().bytes().len();
        for length in end..whole.len() {
            assert_eq!(check(&whole[..length]), refusal::FILE_END, "cut at {length}");
        }
        // 31 with its pair, ahead of 24 and of what a later pair lacks.
        let followed = |mut file: Vec<u8>| {
            file.push(0);
            file
        };
        assert_eq!(check(&followed(whole.clone())), refusal::LEFT_OVER);
        assert_eq!(check(&followed(with(vec![vec![], vec![(9, 1)]]))), refusal::START_PLACE);
        let mut early = with(vec![vec![(6, 1)], vec![]]);
        early[end] = 9;
        assert_eq!(check(&early), refusal::START_PLACE, "the first pair before the ones that are missing");
        // In an old file what stands there is left over.
        let mut old = whole.clone();
        old[..4].copy_from_slice(&FILE_MARK);
        assert_eq!(check(&old), refusal::LEFT_OVER);
    }
}

#[test]
fn the_longest_file() {
    let cores_of = (0..4).map(|_| CoreRecord { data_size: 4096, input_size: 0, limit: 1 }).collect();
    let variable = |i: u16| Variable { shared: 8 * i, width: 8, attribute: 1, local: [8 * i, 0, 0, 0] };
    let code = || {
        let mut program = Program::new();
        while program.here() < 8192 {
            program = program.returns();
        }
        program.code()
    };
    let draft = Draft::new(cores_of, (0..64).map(variable).collect(), (0..4).map(|_| code()).collect());
    let all = (0..4096).map(|place| (place, place as u8)).collect::<Vec<_>>();
    let file = draft.with_values(vec![all; 4]).bytes();
    assert_eq!(file.len(), 82_734);
    assert_eq!(LONGEST_TASK, 82_800);
    for (check, _) in machines() {
        assert_eq!(check(&file), refusal::NONE);
    }
    assert!(cores(&file, &[], &[]).starts_with("core mode"));
    assert_eq!(cores(&[file, vec![0; 66]].concat(), &[], &[]), "refused 24\n");
    assert_eq!(cores(&[0; 82_801], &[], &[]), "long\n");
}

#[test]
fn both_ways() {
    let old = plant().bytes();
    let new = plant().with_values(vec![vec![], vec![]]).bytes();
    let valued = plant().with_values(vec![vec![], vec![(1, 0)]]).bytes();
    for Converters { to_new, to_old } in all() {
        let made = |convert: Convert, file: &[u8], room: usize| {
            let mut out = vec![0xAB; room];
            let answer = convert(file, &mut out);
            let written = answer.unwrap_or(0);
            assert!(out[written..].iter().all(|&byte| byte == 0xAB), "bytes past the output stay");
            answer.map(|length| out[..length].to_vec())
        };
        assert_eq!(made(to_new, &old, new.len()), Ok(new.clone()));
        assert_eq!(made(to_new, &old, new.len() + 5), Ok(new.clone()));
        assert_eq!(made(to_new, &old, new.len() - 1), Err(refusal::SIZES));
        assert_eq!(made(to_new, &new, 0), Err(refusal::MARK), "already new, ahead of 21");
        assert_eq!(made(to_old, &new, old.len()), Ok(old.clone()));
        assert_eq!(made(to_old, &new, old.len() + 3), Ok(old.clone()));
        assert_eq!(made(to_old, &new, old.len() - 1), Err(refusal::SIZES));
        assert_eq!(made(to_old, &old, 99), Err(refusal::MARK), "already old");
        assert_eq!(made(to_old, &valued, 0), Err(refusal::START_VALUES), "32 ahead of 21");
        assert_eq!(made(to_old, &[&valued[..], &[0]].concat(), 99), Err(refusal::LEFT_OVER), "24 ahead of 32");
        assert_eq!(made(to_old, b"MCS3", 99), Err(refusal::MARK));
        // A mark that is already there wins over all that follows in the file.
        for (convert, mark) in [(to_new, NEW_MARK), (to_old, FILE_MARK)] {
            assert_eq!(made(convert, &mark[..3], 9), Err(refusal::FILE_END));
            assert_eq!(made(convert, &[&mark[..], &[9]].concat(), 9), Err(refusal::MARK));
        }
        assert_eq!(made(to_new, &[&FILE_MARK[..], &[9]].concat(), 9), Err(refusal::CORE_RECORD));
    }
}

#[test]
fn short_comparison() {
    for other in all() {
        let tally = compare(REFERENCE, other, 5, 4_000);
        assert_eq!(tally.missing(), Vec::<String>::new());
    }
}

fn mark_not_changed(file: &[u8], out: &mut [u8]) -> Result<usize, u8> {
    let length = reference::to_new(file, out)?;
    out[..4].copy_from_slice(&FILE_MARK);
    Ok(length)
}

fn last_count_ignored(file: &[u8], out: &mut [u8]) -> Result<usize, u8> {
    match reference::to_old(file, out) {
        // As if the last core had no start values.
        Err(refusal::START_VALUES) if file.ends_with(&[0, 0]) => Err(refusal::SIZES),
        answer => answer,
    }
}

fn judged_before_the_mark(file: &[u8], out: &mut [u8]) -> Result<usize, u8> {
    match reference::check_file(file) {
        refusal::NONE => reference::to_old(file, out),
        number => Err(number),
    }
}

fn the_rest_cleared(file: &[u8], out: &mut [u8]) -> Result<usize, u8> {
    let length = reference::to_old(file, out)?;
    out[length..].fill(0);
    Ok(length)
}

#[test]
fn wrong_converters_are_seen() {
    let news: [Convert; 1] = [mark_not_changed];
    let olds: [Convert; 3] = [last_count_ignored, judged_before_the_mark, the_rest_cleared];
    let wrong =
        news.map(|to_new| Converters { to_new, ..REFERENCE }).into_iter().chain(olds.map(|to_old| Converters { to_old, ..REFERENCE }));
    for wrong in wrong {
        assert!(catch_unwind(|| compare(REFERENCE, wrong, 5, 2_000)).is_err());
    }
}
