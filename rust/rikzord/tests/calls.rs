//! The wrappers on the documents' own examples.

use rikzord::{check, flag_words, lowest, records, to_new, to_old};
use rikzord::{
    Exchange, Form, InputRecord, Lines, Local, Longest, Mode, Profile, Record, Refusal, State, Taking, TaskSet, Trace, Variable,
};

/// Document 01's listing: one core with one byte of data, limit 1, RETURN.
const LISTING: &[u8] = &[0x4D, 0x43, 0x53, 0x31, 1, 1, 0, 0, 0, 1, 0, 0, 1, 0, 0];
const LISTING_TRACE: &[u8] = &[1, 0, 0, 0, 0, 0];

/// Two cores: core 0 has two input bytes and writes the word at 2, core 1 reads it at 4; start values in the new form.
const PAIR: &[u8] = &[
    0x4D, 0x43, 0x53, 0x32, 2, 6, 0, 2, 0, 9, 0, 8, 0, 0, 0, 9, 0, 1, 10, 0, 2, 0x21, 2, 0, 4, 0, 0, 0, 0, 0, 1, 0, 0, 1, 0, 0, 2, 0, 2, 0,
    0x2C, 3, 0, 1, 0, 0,
];

#[test]
fn refusals_have_the_documents_numbers() {
    let numbers: Vec<u8> = (1..=7).chain(20..=34).collect();
    assert_eq!(Refusal::ALL.iter().map(|refusal| refusal.number()).collect::<Vec<_>>(), numbers);
    for number in 0..=255 {
        let refusal = Refusal::from_number(number);
        assert_eq!(refusal.is_some(), numbers.contains(&number));
        assert!(refusal.is_none_or(|refusal| refusal.number() == number && !refusal.words().is_empty()));
    }
    assert_eq!(Refusal::ALL.iter().filter(|refusal| refusal.is_cut_in_transit()).collect::<Vec<_>>(), [&Refusal::FileCut]);
    assert_eq!(Refusal::BytesLeftOver.to_string(), "refused, 24: bytes follow the file's last section");
}

#[test]
fn files_are_judged() {
    assert_eq!(check(LISTING, Profile::Full), Ok(()));
    assert_eq!(check(LISTING, Profile::Small), Ok(()));
    assert_eq!(TaskSet::load(&LISTING[..14]), Err(Refusal::FileCut));
    assert_eq!(TaskSet::load(&[LISTING, &[0]].concat()), Err(Refusal::BytesLeftOver));
    assert_eq!(TaskSet::load(b"MCS3"), Err(Refusal::Mark));
    assert_eq!(TaskSet::load(&[]), Err(Refusal::FileCut));
    // A data size of 1,025 is for the full profile alone.
    let mut larger = LISTING.to_vec();
    larger[5..7].copy_from_slice(&1_025u16.to_le_bytes());
    assert_eq!(TaskSet::load_for(Profile::Small, &larger), Err(Refusal::CoreRecord));
    assert!(TaskSet::load_for(Profile::Full, &larger).is_ok());
}

#[test]
fn a_task_set_is_read() {
    let set = TaskSet::load(PAIR).expect("an accepted file");
    assert_eq!((set.form(), set.cores(), set.data_total(), set.file()), (Form::New, 2, 14, PAIR));
    let task = &set.tasks()[0];
    assert_eq!((task.data_size, task.input_size, task.limit, &task.code[..]), (6, 2, 9, &[0][..]));
    assert_eq!(task.start_values, [(2, 0x2C), (3, 1)]);
    assert!(set.tasks()[1].start_values.is_empty());
    let variable = Variable { shared: 10, width: 2, writer: Local { core: 0, place: 2 }, readers: vec![Local { core: 1, place: 4 }] };
    assert_eq!(set.variables(), [variable]);
    assert_eq!(set.lines(), Lines::Free);
    let takes = set.takes().expect("no jumps");
    assert_eq!((takes.data_buffer, takes.shared_memory, takes.core_table), (14, 1_024, 2));
    assert_eq!(takes.cores, [Longest { count: 1, depth: 0 }; 2]);
    let jump = [&LISTING[..12], &[3, 0, 1, 0, 0]].concat();
    assert_eq!(TaskSet::load(&jump).expect("JMP 0").takes(), Err(Refusal::TargetNotAbove));
}

#[test]
fn traces_are_judged_and_read() {
    let set = TaskSet::load(PAIR).expect("an accepted file");
    let trace = [&[1, 0][..], &5_000i32.to_le_bytes(), &[7, 8], &[2, 0], &(-1i32).to_le_bytes(), &6i32.to_le_bytes()].concat();
    let read = Trace::new(&set, &trace).expect("a sound trace");
    assert_eq!(read.records(0), [InputRecord { time: 5_000, inputs: vec![7, 8] }]);
    assert_eq!(read.records(1), [InputRecord { time: -1, inputs: vec![] }, InputRecord { time: 6, inputs: vec![] }]);
    assert_eq!(read.records(2), []);
    assert_eq!(Trace::new(&set, &trace[..trace.len() - 1]), Err(Refusal::Trace));
    assert_eq!(Trace::new(&set, &[&trace[..], &[0]].concat()), Err(Refusal::Trace));
    assert_eq!(Trace::new(&set, &[0]), Err(Refusal::Trace));
    let none = Trace::none(&set);
    assert_eq!((none.records(0), none.bytes()), (&[InputRecord { time: 0, inputs: vec![0, 0] }][..], &[][..]));
}

#[test]
fn steps_take_and_wait_in_line() {
    let set = TaskSet::load(PAIR).expect("an accepted file");
    let trace = Trace::none(&set);
    let mut state = State::fresh(&set);
    assert_eq!((state.data(0), state.data(1), state.data(2)), (&[0, 0, 0x2C, 1, 0, 0][..], &[0; 8][..], &[][..]));
    assert_eq!(state.shared()[10..12], [0x2C, 1], "the writer's start bytes");
    let reading = |core| Some(Taking { core, exchange: Exchange::Reading });
    assert_eq!(state.next_core(&set, &trace, 1), Ok(Some(0)));
    assert_eq!(state.step(&set, &trace, 0), Ok(reading(0)));
    assert_eq!((state.semaphore().held_by(), state.semaphore().in_line()), (Some(0), &[][..]));
    assert_eq!(state.step(&set, &trace, 1), Ok(None));
    assert_eq!((state.semaphore().held_by(), state.semaphore().in_line()), (Some(0), &[1][..]));
    assert_eq!(state.step(&set, &trace, 0), Ok(None));
    assert_eq!(state.step(&set, &trace, 1), Ok(reading(1)));
    assert_eq!(state.table().iter().map(|core| core.mode()).collect::<Vec<_>>(), [Mode::Executing, Mode::Reading]);
    let before = state.clone();
    assert_eq!(state.step(&set, &trace, 2), Err(Refusal::NoSuchCore));
    assert_eq!(state.run(&set, &trace, &[0, 1, 2]), Err(Refusal::NoSuchCore));
    assert_eq!(state.next_core(&set, &trace, 2), Err(Refusal::NoSuchCore));
    assert_eq!(state, before, "a refused call changes nothing");
    // What core 1 brings are the start bytes: core 0 has not written yet.
    state.run(&set, &trace, &[1, 1]).expect("two bytes");
    assert_eq!(state.data_window(&set, 1, 4, 2), Ok(&[0x2C, 1][..]));
    assert_eq!(state.data_window(&set, 1, 7, 2), Err(Refusal::Window));
    assert_eq!(state.data_window(&set, 1, 8, 0), Ok(&[][..]));
    assert_eq!(state.code_window(&set, 0, 0, 1), Ok(&[0][..]));
    assert_eq!(state.code_window(&set, 2, 0, 0), Err(Refusal::Window));
}

#[test]
fn a_run_and_its_rerun_end_alike() {
    let set = TaskSet::load(LISTING).expect("an accepted file");
    let trace = Trace::new(&set, LISTING_TRACE).expect("a sound trace");
    let mut state = State::fresh(&set);
    let takings = state.run(&set, &trace, &[0; 5]).expect("core 0");
    let list: Vec<u8> = takings.iter().map(|taking| taking.to_byte()).collect();
    assert_eq!((&list[..], takings[1].to_string()), (&[0, 16][..], "0w".to_string()));
    assert!(takings.iter().all(|&taking| Taking::from_byte(taking.to_byte()) == Some(taking)));
    assert_eq!(Taking::from_byte(4), None);
    assert_eq!(State::rerun(&set, &trace, &list), Ok(state.clone()));
    assert_eq!(State::rerun(&set, &trace, &[]), Ok(State::fresh(&set)));
    assert_eq!(State::rerun(&set, &trace, &[16]), Err(Refusal::ListNotProduced));
    assert_eq!(State::rerun(&set, &trace, &[1]), Err(Refusal::ListNotProduced));
    assert_eq!(state.next_core(&set, &trace, 0), Ok(None));
}

/// A state knows no task set; with another one the library refuses it.
#[test]
fn a_state_of_another_task_set_is_refused() {
    let (listing, pair) = (TaskSet::load(LISTING).expect("accepted"), TaskSet::load(PAIR).expect("accepted"));
    let mut state = State::fresh(&listing);
    assert_eq!(state.step(&pair, &Trace::none(&pair), 0), Err(Refusal::LentMemory));
    assert_eq!(state.next_core(&pair, &Trace::none(&pair), 0), Err(Refusal::UnfitState));
}

#[test]
fn flags_have_words() {
    assert_eq!(flag_words(0), Vec::<&str>::new());
    assert_eq!(flag_words(6), ["instruction limit", "cold start"]);
    assert_eq!(flag_words(127).len(), 7);
}

#[test]
fn forms_go_there_and_back() {
    let new = to_new(LISTING).expect("an old file");
    assert_eq!((new.len(), TaskSet::load(&new).expect("accepted").form()), (17, Form::New));
    assert_eq!(to_old(&new), Ok(LISTING.to_vec()));
    assert_eq!((to_new(&new), to_old(LISTING)), (Err(Refusal::Mark), Err(Refusal::Mark)));
    assert_eq!(to_old(PAIR), Err(Refusal::StartValues));
    assert_eq!(to_new(b"MCS"), Err(Refusal::FileCut));
}

#[test]
fn lowest_readings() {
    let run = [(0i32, 740i16), (1_000, 719), (2_000, 730)]
        .map(|(time, reading)| [&time.to_le_bytes()[..], &reading.to_le_bytes()].concat())
        .concat();
    assert_eq!(records(&run)[1], Record { time: 1_000, reading: 719 });
    assert_eq!(lowest(&run, 999), Ok(vec![740, 719, 730]));
    assert_eq!(lowest(&run, 0), Err(Refusal::Span));
    assert_eq!(lowest(&run[..17], 1_000), Err(Refusal::RunOfRecords));
    assert_eq!(lowest(&[], 1_000), Ok(vec![]));
}
