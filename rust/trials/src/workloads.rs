//! The work of the commands `bench`, `growth` and `counted`: task sets with a trace and the orders of their calls, and the memory that a machine works on.

use independent::draft::{Code, CoreRecord, Draft, Program, Variable};
use independent::interface::{Machine, Next, Reference};
use independent::random::{typed_commands, Random};
use independent::reference::command::*;
use independent::reference::types::*;
use independent::reference::{mode, refusal, takes_type, Core, Semaphore, SHARED_SIZE};
use independent::rerun::Lent;
use std::hint::black_box;
use std::time::{Duration, Instant};

/// Which core takes the next step.
#[derive(Clone, Copy, PartialEq)]
pub enum Turns {
    /// Each in turn, whether its step changes something or not.
    RoundRobin,
    /// The next core to move after the one before, so that every step changes something.
    Moving,
}

/// A task set with the way in which its cores are stepped.
pub struct Workload {
    pub name: &'static str,
    pub draft: Draft,
    pub turns: Turns,
}

impl Workload {
    pub fn work(&self, calls: usize, steps: usize) -> Work {
        Work::new(&self.draft, self.turns, calls, steps)
    }
}

pub fn workloads() -> Vec<Workload> {
    let in_turn = |name, draft| Workload { name, draft, turns: Turns::RoundRobin };
    vec![
        in_turn("DINT loop, a step", dint_loop()),
        in_turn("REAL loop, a step", single(real_arithmetic(Program::new(), 1000))),
        in_turn("calls, a step", single(calls(Program::new(), 1000))),
        in_turn("four cores exchanging, a step", four_cores()),
        in_turn("MEMCP of 2,000 bytes, a step", single(copies())),
        in_turn("array access, a step", single(arrays(Program::new(), 400))),
        in_turn("900 mixed typed commands, a step", mixed()),
        Workload { name: "exchange, every step moving, a step", draft: four_cores(), turns: Turns::Moving },
        in_turn("four DINT loops in turn, a step", four_loops()),
        in_turn("four tasks in turn, exchanging, a step", four_tasks()),
        in_turn("conversions, a step", conversions()),
        in_turn("packed decimal, a step", single(packed_decimal())),
    ]
}

// ---- a task set at work

/// A task set with its trace and the order of each call.
pub struct Work {
    pub file: Vec<u8>,
    pub trace: Vec<u8>,
    /// Call by call, from the first one again after the last.
    pub orders: Vec<Vec<u8>>,
    pub cores: usize,
    pub data_total: usize,
}

impl Work {
    /// So many steps in each call. Moving turns are made for so many calls; the others are the same in each.
    pub fn new(draft: &Draft, turns: Turns, calls: usize, steps: usize) -> Work {
        // More records than the steps can use.
        const RECORDS: u16 = 60_000;
        let cores = draft.cores.len();
        let mut trace = Vec::new();
        for core in &draft.cores {
            trace.extend(RECORDS.to_le_bytes());
            trace.extend((0..RECORDS as usize * (4 + core.input_size as usize)).map(|at| at as u8));
        }
        let mut work = Work { file: draft.bytes(), trace, orders: Vec::new(), cores, data_total: draft.data_total() };
        work.orders = match turns {
            Turns::RoundRobin => {
                assert!(steps.is_multiple_of(cores), "the next call goes on with the next core");
                vec![(0..steps).map(|step| (step % cores) as u8).collect()]
            }
            Turns::Moving => work.moving(calls * steps).chunks(steps).map(<[u8]>::to_vec).collect(),
        };
        work
    }

    /// So many steps from the fresh state on, each of the next core to move after the one before.
    fn moving(&self, steps: usize) -> Vec<u8> {
        let Plant { mut table, mut semaphore, mut buffer, mut shared, .. } = Plant::new(self, &Reference);
        let mut before = self.cores as u8 - 1;
        let next = |_| {
            let Next::Core(core) = Reference.next_core(&self.file, &self.trace, &table, &semaphore, before) else {
                panic!("a core can move");
            };
            let number = Reference.step(&self.file, &self.trace, &mut table, &mut semaphore, &mut buffer, &mut shared, core, &mut None);
            assert_eq!(number, refusal::NONE);
            before = core;
            core
        };
        (0..steps).map(next).collect()
    }

    pub fn order(&self, call: usize) -> &[u8] {
        &self.orders[call % self.orders.len()]
    }

    /// Memory for a rerun.
    pub fn lent(&self) -> Lent {
        Lent {
            table: vec![Core::default(); self.cores],
            semaphore: Semaphore::default(),
            buffer: vec![0; self.data_total],
            shared: vec![0; SHARED_SIZE],
        }
    }
}

/// What one machine works on; it is carried on from call to call.
#[derive(Clone, PartialEq)]
pub struct Plant {
    pub table: Vec<Core>,
    pub semaphore: Semaphore,
    pub buffer: Vec<u8>,
    pub shared: Vec<u8>,
    pub list: Vec<u8>,
    pub taken: usize,
}

impl Plant {
    pub fn new<M: Machine>(work: &Work, machine: &M) -> Plant {
        let Lent { table, semaphore, buffer, shared } = work.lent();
        let longest = work.orders.iter().map(Vec::len).max().unwrap_or(0);
        let mut plant = Plant { table, semaphore, buffer, shared, list: vec![0; longest], taken: 0 };
        let number = machine.fresh(&work.file, &mut plant.table, &mut plant.semaphore, &mut plant.buffer, &mut plant.shared);
        assert_eq!(number, refusal::NONE);
        plant
    }

    /// The order of one call as a run.
    pub fn run<M: Machine>(&mut self, work: &Work, machine: &M, call: usize) -> Duration {
        self.follow(work, machine, work.order(call))
    }

    /// A run of an order.
    pub fn follow<M: Machine>(&mut self, work: &Work, machine: &M, order: &[u8]) -> Duration {
        let Plant { table, semaphore, buffer, shared, list, taken } = self;
        let start = Instant::now();
        let number = machine.run(&work.file, &work.trace, table, semaphore, buffer, shared, black_box(order), list, taken);
        let time = start.elapsed();
        assert_eq!(number, refusal::NONE);
        self.works();
        time
    }

    /// An order by single steps, each a call of its own.
    pub fn steps<M: Machine>(&mut self, work: &Work, machine: &M, order: &[u8]) -> Duration {
        let Plant { table, semaphore, buffer, shared, .. } = self;
        let mut refused = refusal::NONE;
        let start = Instant::now();
        for &core in black_box(order) {
            refused |= machine.step(&work.file, &work.trace, table, semaphore, buffer, shared, core, &mut None);
        }
        let time = start.elapsed();
        assert_eq!(refused, refusal::NONE);
        self.works();
        time
    }

    fn works(&self) {
        assert!(self.table.iter().all(|core| core.registers.mode != mode::STOPPED), "the work goes on");
    }

    /// How many cycles each core has done.
    pub fn cycles(&self) -> impl Iterator<Item = u16> + '_ {
        self.table.iter().map(|core| core.registers.cycles)
    }
}

// ---- loops of one core

fn single(program: Program) -> Draft {
    Draft::single(4096, 8, 65_535, program)
}

// Places of the loops' variables; inputs lie before them.
const NUMBER: u16 = 8;
const ONE: u16 = 12;
const BOUND: u16 = 16;
const SUM: u16 = 20;
const PRODUCT: u16 = 24;
const GOES_ON: u16 = 28;

/// Sets the loop's variables.
fn prepared(program: Program, one: [u8; 4], bound: [u8; 4]) -> Program {
    program.constant(NUMBER, &[0; 4]).constant(SUM, &[0; 4]).constant(ONE, &one).constant(BOUND, &bound)
}

/// The same with whole numbers.
fn counting(program: Program, bound: u16) -> Program {
    prepared(program, 1i32.to_le_bytes(), (bound as i32).to_le_bytes())
}

/// Counts, and jumps back until the bound is reached.
fn looped(program: Program, kind: u8, start: u16) -> Program {
    program.typed(ADD, kind, NUMBER, NUMBER, ONE).typed(LT, kind, GOES_ON, NUMBER, BOUND).jump_if(JNZ, GOES_ON, start).returns()
}

fn arithmetic(program: Program, kind: u8) -> Program {
    let start = program.here();
    let program = program.typed(MUL, kind, PRODUCT, NUMBER, NUMBER).typed(ADD, kind, SUM, SUM, PRODUCT).typed(SUB, kind, SUM, SUM, NUMBER);
    looped(program, kind, start)
}

fn dint_arithmetic(program: Program, bound: u16) -> Program {
    arithmetic(counting(program, bound), DINT)
}

fn real_arithmetic(program: Program, bound: u16) -> Program {
    arithmetic(prepared(program, 1f32.to_le_bytes(), (bound as f32).to_le_bytes()), REAL)
}

pub fn dint_loop() -> Draft {
    single(dint_arithmetic(Program::new(), 1000))
}

/// Three calls deep, one with an instance.
fn calls(program: Program, bound: u16) -> Program {
    let program = counting(program, bound);
    let start = program.here();
    let mut program = looped(program.call(0), DINT, start);
    let first = program.here();
    program.patch(start + 1, first);
    let program = program.call_instance(64, first + 6).returns();
    let program = program.call(first + 10).returns();
    program.returns()
}

fn copies() -> Program {
    let mut program = counting(Program::new(), 1000);
    let start = program.here();
    for turn in 0..8 {
        program = program.copy(2048 + turn, 40, 2000).copy(41, 2040 + turn, 2000);
    }
    looped(program, DINT, start)
}

fn arrays(program: Program, count: u16) -> Program {
    const INDEX: u16 = NUMBER;
    let program = counting(program, count);
    let start = program.here();
    let program = program.element(AURD, SUM, 100, INDEX, 4, count).element(AUWD, SUM, 2100, INDEX, 4, count);
    let program = program.element(AURD, PRODUCT, 2100, INDEX, 4, count).element(AUWD, NUMBER, 100, INDEX, 4, count);
    looped(program, DINT, start)
}

// ---- commands of every type

/// Values of each type stand in a stretch of their own, so that a REAL is never the bytes of some whole number.
const STRETCH: usize = 128;
const VALUES: usize = 512;
/// Where the values stand that a cycle starts with.
const FIRST_VALUES: usize = VALUES + 12 * STRETCH;
/// A divisor of each type that no command writes.
const DIVISORS: usize = 256;

/// A small value of a type, above 0.
fn value(random: &mut Random, kind: u8) -> Vec<u8> {
    let number = random.between(1, 100) as u8;
    match kind {
        BOOL => vec![number % 2],
        REAL => (number as f32 + 0.5).to_le_bytes().to_vec(),
        LREAL => (number as f64 + 0.5).to_le_bytes().to_vec(),
        _ => {
            let mut bytes = vec![0; WIDTHS[kind as usize] as usize];
            bytes[0] = number;
            bytes
        }
    }
}

/// 900 typed commands one after another, each command as likely as the others, then each of its types, on random values of the type. One MEMCP ahead of them
/// sets the values back, so that each cycle is like the first.
fn mixed() -> Draft {
    const COMMANDS: usize = 900;
    let random = &mut Random::new(1);
    let codes: Vec<u8> = typed_commands().collect();
    let stretch = |kind: u8| (VALUES + STRETCH * kind as usize) as u16;
    let place = |random: &mut Random, kind: u8| {
        let width = WIDTHS[kind as usize] as usize;
        stretch(kind) + (width * random.below(STRETCH / width)) as u16
    };
    let mut program = Program::new().copy(VALUES as u16, FIRST_VALUES as u16, 12 * STRETCH as u16);
    for _ in 0..COMMANDS {
        let code = random.pick(&codes);
        let kind = random.pick(&(BOOL..=TIME).filter(|&kind| takes_type(code, kind)).collect::<Vec<u8>>());
        let result = if matches!(code, GT..=NE) { BOOL } else { kind };
        let b = match code {
            DIV => (DIVISORS + 8 * kind as usize) as u16,
            SHL..=ROR => place(random, BYTE),
            _ => place(random, kind),
        };
        program = program.typed(code, kind, place(random, result), place(random, kind), b);
    }
    let mut data = vec![0; 4096];
    for kind in BOOL..=TIME {
        let width = WIDTHS[kind as usize] as usize;
        for number in 0..STRETCH / width {
            data[FIRST_VALUES + STRETCH * kind as usize + width * number..][..width].copy_from_slice(&value(random, kind));
        }
        data[DIVISORS + 8 * kind as usize..][..width].copy_from_slice(&value(random, kind));
    }
    with_data(program.returns(), &data)
}

/// A task set of one core whose data start so.
fn with_data(program: Program, data: &[u8]) -> Draft {
    let pairs = (0u16..).zip(data.iter().copied()).filter(|&(_, byte)| byte != 0).collect();
    single(program).with_values(vec![pairs])
}

/// Each of the hundred conversions in turn, of a number that every type can hold once it is rounded.
fn conversions() -> Draft {
    let place = |from: u8, to: u8| 64 + 8 * (16 * to as u16 + from as u16);
    let program = counting(Program::new(), 200);
    let start = program.here();
    let pairs = (SINT..=LREAL).flat_map(|from| (SINT..=LREAL).map(move |to| (from, to)));
    let program = pairs.fold(program, |program, (from, to)| program.convert(from, to, place(from, to), place(from, 0)));
    let mut data = vec![0; 4096];
    for from in SINT..=LREAL {
        let bytes = value(&mut Random::new(from as u64), from);
        data[place(from, 0) as usize..][..bytes.len()].copy_from_slice(&bytes);
    }
    with_data(looped(program, DINT, start), &data)
}

/// For each type a number with as many digits as fit, packed and unpacked; and the number of the turn.
fn packed_decimal() -> Program {
    const NUMBERS: [(u8, u64); 4] = [(BYTE, 98), (WORD, 9_876), (DWORD, 98_765_432), (LWORD, 9_876_543_210_987_654)];
    let mut program = counting(Program::new(), 1000);
    for (at, (_, number)) in (64..).step_by(8).zip(NUMBERS) {
        program = program.constant(at, &number.to_le_bytes());
    }
    let start = program.here();
    for (at, (kind, _)) in (64..).step_by(8).zip(NUMBERS) {
        program = program.digits(PACK, kind, at + 32, at).digits(UNPACK, kind, at + 64, at + 32);
    }
    looped(program.digits(PACK, WORD, 160, NUMBER).digits(UNPACK, WORD, 168, 160), DINT, start)
}

// ---- several cores

/// 64 variables of 8 bytes, from a place of each core's data on: each core writes 16 of them and reads the others.
fn exchanged(local: u16) -> Vec<Variable> {
    (0..64u16)
        .map(|number| {
            let writer = 1 << (number % 4);
            Variable { shared: 8 * number, width: 8, attribute: (15 & !writer) << 4 | writer, local: [local + 8 * number; 4] }
        })
        .collect()
}

/// A core's first written variable becomes the sum of two that it reads and of its inputs.
fn summed(program: Program, core: u16, local: u16) -> Program {
    let (written, read) = (local + 8 * core, local + 8 * ((core + 1) % 4));
    program.typed(ADD, LINT, written, read, 0).typed(ADD, LINT, written, written, read + 32)
}

pub fn four_cores() -> Draft {
    let core = CoreRecord { data_size: 1024, input_size: 8, limit: 100 };
    let code = |k| summed(Program::new(), k, 8).returns().code();
    Draft::new(vec![core; 4], exchanged(8), (0..4).map(code).collect())
}

fn four_loops() -> Draft {
    let core = CoreRecord { data_size: 4096, input_size: 8, limit: 65_535 };
    Draft::new(vec![core; 4], Vec::new(), vec![dint_arithmetic(Program::new(), 1000).code(); 4])
}

/// A DINT loop, a REAL loop, calls and arrays, some hundred instructions a cycle, with 64 variables that they exchange.
fn four_tasks() -> Draft {
    /// Free of what the loops use.
    const LOCAL: u16 = 1024;
    const TURNS: u16 = 100;
    let core = CoreRecord { data_size: 4096, input_size: 8, limit: 65_535 };
    let tasks = [dint_arithmetic, real_arithmetic, calls, arrays];
    let code = |(k, task): (u16, fn(Program, u16) -> Program)| task(summed(Program::new(), k, LOCAL), TURNS).code();
    Draft::new(vec![core; 4], exchanged(LOCAL), (0..4).zip(tasks).map(code).collect())
}

// ---- large files

/// The bytes from the start of a turn of the code below to the place after its conditional jump.
pub const JUMPED: u16 = 8 + 8 + 5;
/// The bytes of a turn.
pub const TURN: usize = 52;

/// Instructions of every layout. The conditional jump goes `jump` bytes on from the start of the turn.
fn turn(program: Program, jump: u16) -> Program {
    let here = program.here();
    let program = program.typed(ADD, DINT, 8, 12, 16).typed(LT, REAL, 8, 12, 16).jump_if(JZ, 8, here + jump).constant(8, &[1, 2, 3, 4]);
    program.element(AURD, 8, 12, 16, 4, 100).typed(NOT, BOOL, 8, 9, 0).copy(8, 2000, 1000)
}

/// As large as a file of the old form can be where the code has `MOST_CODE` bytes: four cores, 64 variables, code up to its last byte.
pub fn largest(jump: u16, length: usize) -> Draft {
    let core = CoreRecord { data_size: 4096, input_size: 8, limit: 65_535 };
    let code = || -> Code {
        let mut program = Program::new();
        while (program.here() as usize) < length - 64 {
            program = turn(program, jump);
        }
        while (program.here() as usize) < length {
            program = program.returns();
        }
        program.code()
    };
    Draft::new(vec![core; 4], exchanged(8), (0..4).map(|_| code()).collect())
}

/// Four cores without variables, so many turns of code in each.
pub fn unshared(jump: u16, turns: usize) -> Draft {
    let core = CoreRecord { data_size: 4096, input_size: 8, limit: 65_535 };
    let code = || (0..turns).fold(Program::new(), |program, _| turn(program, jump)).returns().code();
    Draft::new(vec![core; 4], Vec::new(), (0..4).map(|_| code()).collect())
}
