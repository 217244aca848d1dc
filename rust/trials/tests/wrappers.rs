//! The wrappers of `rikzord` on random cases, against the independent machine: what a file and a trace say, and where runs, steps and reruns lead.

use independent::random::{self, Random};
use independent::reference::{self, refusal, Core, Semaphore};
use independent::rerun::{listed, Lent};
use rikzord::{State, TaskSet, Trace};

/// Whether a state of the proved machine is one of the independent machine's.
fn same(state: &State, lent: &Lent) {
    let records = |core: &Core| {
        let r = &core.registers;
        let registers = (r.time, r.counter, r.offset, r.count, r.exchange, r.cycles, r.mode, r.depth, r.flags);
        (registers, core.places, core.offsets)
    };
    let wrapped = |core: &rikzord::Core| {
        let registers = (core.time, core.counter, core.offset, core.count, core.exchange, core.cycles, core.mode, core.depth, core.flags);
        (registers, core.places, core.offsets)
    };
    assert_eq!(state.table().iter().map(wrapped).collect::<Vec<_>>(), lent.table.iter().map(records).collect::<Vec<_>>());
    assert_eq!(state.semaphore().in_line(), lent.semaphore.in_line());
    assert_eq!(state.semaphore().held_by().map_or(0, |core| core + 1), lent.semaphore.holder);
    let data: Vec<u8> = (0..state.table().len() as u8).flat_map(|core| state.data(core).to_vec()).collect();
    assert_eq!((data, state.shared()), (lent.buffer.clone(), &lent.shared[..]));
}

fn fresh(file: &[u8], set: &TaskSet) -> Lent {
    let mut lent = Lent {
        table: vec![Core::default(); set.tasks().len()],
        semaphore: Semaphore::default(),
        buffer: vec![0; set.data_total()],
        shared: vec![0; rikzord::SHARED_SIZE],
    };
    assert_eq!(reference::fresh(file, &mut lent.table, &mut lent.semaphore, &mut lent.buffer, &mut lent.shared), refusal::NONE);
    lent
}

#[test]
fn files_are_read_as_they_were_written() {
    let random = &mut Random::new(1);
    for _ in 0..500 {
        let draft = random::task_set(random);
        let set = TaskSet::load(&draft.bytes()).expect("a sound file");
        for (task, core) in set.tasks().iter().zip(&draft.cores) {
            assert_eq!((task.data_size, task.input_size, task.limit), (core.data_size, core.input_size, core.limit));
        }
        assert!(set.tasks().iter().map(|task| &task.code).eq(draft.code.iter().map(|code| &code.bytes)));
        if draft.values.is_empty() {
            assert!(set.tasks().iter().all(|task| task.start_values.is_empty()));
        } else {
            assert!(set.tasks().iter().map(|task| &task.start_values).eq(draft.values.iter().map(|values| &values.pairs)));
        }
        assert_eq!(set.variables().len(), draft.variables.len());
        for (variable, record) in set.variables().iter().zip(&draft.variables) {
            assert_eq!((variable.shared, variable.width), (record.shared, record.width));
            let readers = variable.readers.iter().fold(0, |bits, reader| bits | 16 << reader.core);
            assert_eq!(1 << variable.writer.core | readers, record.attribute);
            let mut locals = variable.readers.iter().chain([&variable.writer]);
            assert!(locals.all(|local| record.local[local.core as usize] == local.place));
        }
    }
}

#[test]
fn runs_steps_and_reruns_end_alike() {
    let random = &mut Random::new(2);
    for _ in 0..200 {
        let (case, _, _) = random::sound(random);
        let set = TaskSet::load(&case.file).expect("a sound file");
        let trace = Trace::new(&set, &case.trace).expect("a sound trace");
        let mut lent = fresh(&case.file, &set);
        let mut state = State::fresh(&set);
        same(&state, &lent);
        let order: Vec<u8> = (0..random.below(6)).flat_map(|_| random::order(random, set.tasks().len())).collect();
        let (mut list, mut taken) = (vec![0; order.len()], 0);
        let Lent { table, semaphore, buffer, shared } = &mut lent;
        let number = reference::run(&case.file, &case.trace, table, semaphore, buffer, shared, &order, &mut list, &mut taken);
        assert_eq!(number, refusal::NONE);
        let mut stepped = state.clone();
        let takings = state.run(&set, &trace, &order).expect("a sound order");
        same(&state, &lent);
        assert_eq!(takings.iter().map(|taking| taking.to_byte()).collect::<Vec<_>>(), list[..taken]);
        let steps: Vec<_> = order.iter().filter_map(|&core| stepped.step(&set, &trace, core).expect("a sound step")).collect();
        assert_eq!((stepped, steps), (state, takings), "a run is its steps");
    }
}

#[test]
fn lists_are_rerun_alike() {
    let random = &mut Random::new(3);
    for _ in 0..200 {
        let (case, _, _) = random::sound(random);
        let set = TaskSet::load(&case.file).expect("a sound file");
        let trace = Trace::new(&set, &case.trace).expect("a sound trace");
        let (mut list, _) = listed(&case, random);
        if random.once_in(3) {
            list.push(random.byte() % 20);
        }
        let mut lent = fresh(&case.file, &set);
        let number = independent::rerun::rerun(&case.file, &case.trace, &list, &mut lent);
        match State::rerun(&set, &trace, &list) {
            Ok(state) => same(&state, &lent),
            Err(refusal) => assert_eq!(refusal.number(), number),
        }
    }
}
