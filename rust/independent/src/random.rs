//! Random cases from a seed: task sets that keep every rule, traces, states and orders, and single damages whose refusal is known.
//!
//! A sound case is made first; damages then break one rule each, with its name and number. Several in one case test the order of judging.

use crate::draft::{Code, CoreRecord, Draft, Program, Variable};
use crate::reference::command::*;
use crate::reference::types::*;
use crate::reference::*;

// ---- the generator

/// Splitmix64: small, and the same on every machine.
pub struct Random(u64);

impl Random {
    pub fn new(seed: u64) -> Random {
        Random(seed)
    }

    pub fn draw(&mut self) -> u64 {
        self.0 = self.0.wrapping_add(0x9E37_79B9_7F4A_7C15);
        let mut z = self.0;
        z = (z ^ (z >> 30)).wrapping_mul(0xBF58_476D_1CE4_E5B9);
        z = (z ^ (z >> 27)).wrapping_mul(0x94D0_49BB_1331_11EB);
        z ^ (z >> 31)
    }

    pub fn below(&mut self, bound: usize) -> usize {
        (self.draw() % bound as u64) as usize
    }

    /// A number from `low` to `high`, both included.
    pub fn between(&mut self, low: usize, high: usize) -> usize {
        low + self.below(high - low + 1)
    }

    /// True once in `count` times.
    pub fn once_in(&mut self, count: usize) -> bool {
        self.below(count) == 0
    }

    pub fn pick<T: Copy>(&mut self, list: &[T]) -> T {
        list[self.below(list.len())]
    }

    pub fn byte(&mut self) -> u8 {
        self.draw() as u8
    }

    pub fn bytes(&mut self, count: usize) -> Vec<u8> {
        (0..count).map(|_| self.byte()).collect()
    }
}

// ---- sound task sets

pub fn task_set(random: &mut Random) -> Draft {
    let cores: Vec<CoreRecord> = (0..random.between(1, MOST_CORES)).map(|_| core_record(random)).collect();
    let variables = variables(random, &cores);
    let code = cores.iter().map(|core| code(random, core.data_size as usize)).collect();
    let draft = Draft::new(cores, variables, code);
    if random.once_in(2) {
        return draft;
    }
    let pairs = draft.cores.iter().map(|core| start_values(random, core.data_size)).collect();
    draft.with_values(pairs)
}

/// Start values with rising places: none, a few, the first and the last place, or the whole data.
fn start_values(random: &mut Random, data_size: u16) -> Vec<(u16, u8)> {
    let share = random.pick(&[0, 1, 1, 4, 16]);
    let ends = random.once_in(4);
    let chosen = |random: &mut Random, place| (share > 0 && random.below(16) < share) || (ends && (place == 0 || place == data_size - 1));
    (0..data_size).filter(|&place| chosen(random, place)).collect::<Vec<u16>>().into_iter().map(|place| (place, random.byte())).collect()
}

fn core_record(random: &mut Random) -> CoreRecord {
    let data_size = match random.below(16) {
        0 => random.between(1, 8),
        1 => MOST_DATA,
        _ => random.between(24, 200),
    };
    let input_size = match random.below(16) {
        0 => data_size,
        1..=4 => 0,
        _ => random.between(0, data_size.min(12)),
    };
    let limit = match random.below(16) {
        0 => 1,
        1 => 65_535,
        _ => random.between(2, 60),
    };
    CoreRecord { data_size: data_size as u16, input_size: input_size as u16, limit: limit as u16 }
}

/// Mostly few, so that cycles end within short orders; sometimes as many as fit.
fn variables(random: &mut Random, cores: &[CoreRecord]) -> Vec<Variable> {
    let tries = if random.once_in(12) { 90 } else { random.below(7) };
    let mut shared_used = vec![false; SHARED_SIZE];
    let mut data_used: Vec<Vec<bool>> = cores.iter().map(|core| vec![false; core.data_size as usize]).collect();
    let mut list: Vec<Variable> = Vec::new();
    for _ in 0..tries {
        let Some(variable) = variable(random, cores, list.last()) else { continue };
        let width = variable.width as usize;
        let mut stretches: Vec<&mut [bool]> = vec![&mut shared_used[variable.shared as usize..][..width]];
        for (k, used) in data_used.iter_mut().enumerate() {
            if names(variable.attribute, k) {
                stretches.push(&mut used[variable.local[k] as usize..][..width]);
            }
        }
        if list.len() < MOST_VARIABLES && stretches.iter().all(|stretch| !stretch.contains(&true)) {
            stretches.iter_mut().for_each(|stretch| stretch.fill(true));
            list.push(variable);
        }
    }
    list
}

fn names(attribute: u8, core: usize) -> bool {
    (attribute | attribute >> 4) >> core & 1 == 1
}

/// A record that is sound alone, if its cores have room for it. It often touches the one before, without sharing a byte.
fn variable(random: &mut Random, cores: &[CoreRecord], before: Option<&Variable>) -> Option<Variable> {
    let width = random.pick(&[1, 2, 4, 8]);
    let writer = random.below(cores.len());
    let readers = random.byte() & 15 & !(1 << writer) & ((1 << cores.len()) - 1);
    let mut made = Variable { width: width as u8, attribute: 1 << writer | readers << 4, ..Variable::default() };
    let touching = before.filter(|_| random.once_in(3));
    made.shared = match touching {
        Some(before) => before.shared + before.width as u16,
        None => random.below(SHARED_SIZE - width + 1) as u16,
    };
    if made.shared as usize + width > SHARED_SIZE {
        return None;
    }
    for (k, core) in cores.iter().enumerate() {
        if names(made.attribute, k) {
            let last = (core.data_size as usize).checked_sub(width)?;
            let first = core.input_size as usize;
            made.local[k] = if first <= last { random.between(first, last) as u16 } else { return None };
        }
    }
    Some(made)
}

/// The typed commands by code byte.
pub fn typed_commands() -> impl Iterator<Item = u8> {
    (ADD..=NE).filter(|&code| LENGTHS[code as usize] != 0)
}

fn any_typed(random: &mut Random) -> (u8, u8) {
    let code = random.pick(&typed_commands().collect::<Vec<u8>>());
    let kinds: Vec<u8> = (BOOL..=TIME).filter(|&kind| takes_type(code, kind)).collect();
    (code, random.pick(&kinds))
}

fn any_conversion(random: &mut Random) -> (u8, u8) {
    let kinds: Vec<u8> = (SINT..=LREAL).collect();
    (random.pick(&kinds), random.pick(&kinds))
}

fn any_packing(random: &mut Random) -> (u8, u8) {
    (random.pick(&[PACK, UNPACK]), random.pick(&[BYTE, WORD, DWORD, LWORD]))
}

/// A number that mostly can be packed or unpacked, at times by one too much or with one digit above 9.
fn near_digits(random: &mut Random, code: u8, width: usize) -> [u8; 8] {
    let digits = 2 * width;
    if code == PACK {
        let most = 10u64.pow(digits as u32);
        let numbers = [most - 1, most, most + 1, random.draw() % most, random.draw() % most, random.draw() % 100];
        let number = random.pick(&numbers);
        return number.to_le_bytes();
    }
    let mut packed = (0..digits).fold(0, |packed, _| (packed << 4) | (random.draw() % 10));
    if random.once_in(3) {
        let at = 4 * random.below(digits);
        packed = packed & !(15 << at) | (9 + random.draw() % 7) << at;
    }
    packed.to_le_bytes()
}

/// An address that mostly lies within the data, often at its end, sometimes anywhere.
fn address(random: &mut Random, data_size: usize, width: usize) -> u16 {
    let last = data_size.saturating_sub(width);
    let place = match random.below(40) {
        0 => return random.draw() as u16,
        1 => random.between(last, last + 2),
        2..=4 => last,
        _ => random.between(0, last),
    };
    place as u16 + if random.once_in(3) { ABSOLUTE } else { 0 }
}

/// Sound code: instructions laid end to end, targets that start one, RETURN or JMP last. Loops end by the limit.
fn code(random: &mut Random, data_size: usize) -> Code {
    let mut program = Program::new();
    let mut targets = Vec::new();
    for _ in 0..random.below(24) {
        program = any_instruction(random, program, data_size, &mut targets);
    }
    if random.once_in(64) {
        while (program.here() as usize) < MOST_CODE - 3 {
            program = program.returns();
        }
    }
    if random.once_in(4) {
        targets.push(program.here() + 1);
        program = program.jump(0);
    } else {
        program = program.returns();
    }
    for target in targets {
        let start = random.pick(program.starts());
        program.patch(target, start);
    }
    program.code()
}

/// One instruction, at times with another before it that gives an index or a divisor. Places of targets are noted for later.
fn any_instruction(random: &mut Random, program: Program, data_size: usize, targets: &mut Vec<u16>) -> Program {
    let at = |random: &mut Random, width| address(random, data_size, width);
    match random.below(27) {
        0 => program.returns(),
        1 => {
            targets.push(program.here() + 1);
            program.jump(0)
        }
        2..=3 => {
            targets.push(program.here() + 3);
            program.jump_if(random.pick(&[JZ, JNZ]), at(random, 1), 0)
        }
        4 => {
            targets.push(program.here() + 1);
            program.call(0)
        }
        5 => {
            targets.push(program.here() + 3);
            let instance = match random.below(8) {
                0 => at(random, 1),
                1 => ABSOLUTE + data_size as u16,
                _ => random.below(4) as u16,
            };
            program.call_instance(instance, 0)
        }
        6..=8 => {
            let count = random.between(1, 8);
            program.constant(at(random, count), &random.bytes(count))
        }
        9 => {
            let count = if random.once_in(8) { random.draw() as u16 as usize } else { random.between(0, data_size / 2) };
            program.copy(at(random, count), at(random, count), count as u16)
        }
        10..=12 => {
            let (size, count) = (random.pick(&[1, 2, 4, 8]), random.pick(&[1, 2, 5, 4096]));
            let index = at(random, 2);
            let chosen = random.between(0, count as usize + 1).min(6) as u16;
            let program = if random.once_in(5) { program } else { program.constant(index, &chosen.to_le_bytes()) };
            program.element(random.pick(&[AURD, AUWD]), at(random, size), at(random, 3 * size), index, size as u8, count)
        }
        13 => program.register(random.pick(&[CYCLE_TIME, FLAG_BYTE]), at(random, 4)),
        16 => {
            let (code, kind) = any_packing(random);
            let width = WIDTHS[kind as usize] as usize;
            let source = at(random, width);
            let number = near_digits(random, code, width);
            let program = if random.once_in(3) { program } else { program.constant(source, &number[..width]) };
            program.digits(code, kind, at(random, width), source)
        }
        14..=15 => {
            let (from, to) = any_conversion(random);
            let [width, wide] = [from, to].map(|kind| WIDTHS[kind as usize] as usize);
            let source = at(random, width);
            let number = operand(random, from);
            let program = if random.once_in(2) { program } else { program.constant(source, &number[..width]) };
            program.convert(from, to, at(random, wide), source)
        }
        _ => {
            let (code, kind) = any_typed(random);
            let width = WIDTHS[kind as usize] as usize;
            let b = at(random, width);
            let divides = matches!(code, DIV | MOD) && !random.once_in(4);
            // By zero MOD is 0, DIV a fault.
            let divisor = if code == MOD && random.once_in(3) { [0; 8] } else { operand(random, kind) };
            let program = if divides { program.constant(b, &divisor[..width]) } else { program };
            program.typed(code, kind, at(random, width), at(random, width), b)
        }
    }
}

/// A value of a type, low byte first: limits and special floats as often as any other.
fn operand(random: &mut Random, kind: u8) -> [u8; 8] {
    let width = WIDTHS[kind as usize] as usize;
    let top = 1u64 << (8 * width - 1);
    let whole = [0, 1, 2, 7, top, top - 1, top + 1, u64::MAX, u64::MAX - 1, random.draw() % 20, random.draw()];
    let reals = [0.0, 1.0, 2.5, 0.1, 16_777_216.0, f32::MAX, f32::MIN_POSITIVE, f32::INFINITY, f32::NAN, f32::EPSILON, 1e-40, 3.0];
    let lreals =
        [0.0, 1.0, 2.5, 0.1, 9_007_199_254_740_992.0, f64::MAX, f64::MIN_POSITIVE, f64::INFINITY, f64::NAN, f64::EPSILON, 1e-310, 3.0];
    let number = match kind {
        REAL if !random.once_in(3) => (random.pick(&reals).to_bits() as u64 + random.below(3) as u64) ^ random.pick(&[0, top]),
        LREAL if !random.once_in(3) => (random.pick(&lreals).to_bits() + random.below(3) as u64) ^ random.pick(&[0, top]),
        _ => random.pick(&whole),
    };
    number.to_le_bytes()
}

// ---- traces, memories, states

/// A sound trace and its counts; once in eight one of no bytes, which means one record for every core.
pub fn trace(random: &mut Random, draft: &Draft) -> (Vec<u8>, Vec<u16>) {
    let mut trace = Vec::new();
    if random.once_in(8) {
        return (trace, vec![1; draft.cores.len()]);
    }
    let counts: Vec<u16> = draft.cores.iter().map(|_| random.below(7) as u16).collect();
    for (core, &count) in draft.cores.iter().zip(&counts) {
        trace.extend(count.to_le_bytes());
        trace.extend(random.bytes(count as usize * (4 + core.input_size as usize)));
    }
    (trace, counts)
}

/// Zero, any bytes, or mostly small numbers, which serve as indexes and conditions.
fn memory(random: &mut Random, size: usize) -> Vec<u8> {
    match random.below(3) {
        0 => vec![0; size],
        1 => random.bytes(size),
        _ => (0..size).map(|_| if random.once_in(3) { random.below(4) as u8 } else { 0 }).collect(),
    }
}

/// The bytes that core k reads or writes in an exchange.
fn exchange_bytes(draft: &Draft, k: usize, writes: bool) -> u16 {
    let bit = if writes { k } else { 4 + k };
    draft.variables.iter().filter(|variable| variable.attribute >> bit & 1 == 1).map(|variable| variable.width as u16).sum()
}

/// A state that keeps every rule of fitness, whether a run can reach it or not.
fn fit_state(random: &mut Random, draft: &Draft, counts: &[u16]) -> (Vec<Core>, Semaphore) {
    let exchanging = random.below(2 * draft.cores.len());
    let mut semaphore = Semaphore::default();
    let mut able = Vec::new();
    let mut table = Vec::new();
    for (k, &records) in counts.iter().enumerate() {
        let mut core = Core::default();
        let r = &mut core.registers;
        let data_size = draft.cores[k].data_size as usize;
        r.mode = match records {
            0 => random.pick(&[mode::AWAITS_READING, mode::STOPPED]),
            _ if k == exchanging => random.pick(&[mode::READING, mode::WRITING]),
            _ => random.pick(&[mode::AWAITS_READING, mode::EXECUTING, mode::EXECUTING, mode::AWAITS_WRITING, mode::STOPPED]),
        };
        let past_records = matches!(r.mode, mode::AWAITS_READING | mode::STOPPED);
        r.cycles = random.below(records as usize + past_records as usize) as u16;
        r.counter = random.pick(&draft.code[k].starts);
        r.offset = if random.once_in(2) { 0 } else { random.below(data_size) as u16 };
        r.count = draft.cores[k].limit.min(random.below(64) as u16);
        r.flags = if random.once_in(2) { flag::COLD_START } else { random.byte() & !flag::UNUSED };
        r.time = random.draw() as u32;
        r.spare = [random.byte(), 0, random.byte()];
        if matches!(r.mode, mode::READING | mode::WRITING) {
            let most = exchange_bytes(draft, k, r.mode == mode::WRITING) as usize;
            r.exchange = if random.once_in(4) { most } else { random.between(0, most) } as u16;
            semaphore.holder = k as u8 + 1;
        }
        if matches!(r.mode, mode::EXECUTING | mode::STOPPED) {
            r.depth = random.pick(&[0, 0, 1, 2, 15, 16]);
            for entry in 0..r.depth as usize {
                core.places[entry] = random.pick(&draft.code[k].starts);
                core.offsets[entry] = random.below(data_size) as u16;
            }
        }
        if matches!(r.mode, mode::AWAITS_READING | mode::AWAITS_WRITING) && r.cycles < records {
            able.push(k as u8);
        }
        table.push(core);
    }
    // Any of those that may stand in line, in any order; what is past the line is not judged.
    semaphore.line = [(); MOST_CORES].map(|()| random.byte());
    while !able.is_empty() && !random.once_in(3) {
        let core = able.swap_remove(random.below(able.len()));
        semaphore.line[semaphore.waiting as usize] = core;
        semaphore.waiting += 1;
    }
    (table, semaphore)
}

// ---- cases

/// The arguments of every call.
#[derive(Clone)]
pub struct Case {
    pub file: Vec<u8>,
    pub trace: Vec<u8>,
    pub table: Vec<Core>,
    pub semaphore: Semaphore,
    pub buffer: Vec<u8>,
    pub shared: Vec<u8>,
    pub order: Vec<u8>,
    pub list: Vec<u8>,
    /// The argument of `step` and `next_core`.
    pub core: u8,
    /// What was damaged.
    pub damages: Vec<&'static str>,
    /// What a run of the order must answer, where that is known.
    pub expected: Option<u8>,
}

/// A case without damage, and what it was made from.
pub fn sound(random: &mut Random) -> (Case, Draft, Vec<u16>) {
    let draft = task_set(random);
    let (trace, counts) = trace(random, &draft);
    let cores = draft.cores.len();
    let order = order(random, cores);
    let mut case = Case {
        file: draft.bytes(),
        trace,
        table: vec![Core::fresh(); cores],
        semaphore: Semaphore::default(),
        buffer: vec![0; draft.data_total()],
        shared: vec![0; SHARED_SIZE],
        list: random.bytes(order.len()),
        order,
        core: random.below(cores) as u8,
        damages: Vec::new(),
        expected: Some(refusal::NONE),
    };
    if random.once_in(4) {
        case.list.extend(random.bytes(3));
    }
    match random.below(4) {
        0 => {}
        1 => reach(&mut case, random),
        _ => (case.table, case.semaphore) = fit_state(random, &draft, &counts),
    }
    if random.once_in(2) {
        case.buffer = memory(random, case.buffer.len());
        case.shared = memory(random, SHARED_SIZE);
    }
    (case, draft, counts)
}

/// Steps in stretches of one core, as well as mixed.
pub fn order(random: &mut Random, cores: usize) -> Vec<u8> {
    let length = random.pick(&[0, 1, 2, 10, 60, 300]);
    let stretch = random.pick(&[1, 1, 7, 40]);
    let mut order = Vec::new();
    while order.len() < length {
        let core = random.below(cores) as u8;
        order.extend(vec![core; random.between(1, stretch)]);
    }
    order
}

/// A state that a run reaches.
fn reach(case: &mut Case, random: &mut Random) {
    let order = order(random, case.table.len());
    let Case { file, trace, table, semaphore, buffer, shared, .. } = case;
    let number = run(file, trace, table, semaphore, buffer, shared, &order, &mut vec![0; order.len()], &mut 0);
    assert_eq!(number, refusal::NONE, "a sound run from the fresh state");
}

/// A core in the middle of one command, with telling operands; the order is that one step and the next.
pub fn command(random: &mut Random) -> Case {
    const SIZE: usize = 48;
    let mut core = Core::fresh();
    core.registers.mode = mode::EXECUTING;
    core.registers.offset = random.pick(&[0, 0, 1, 8, 20]);
    core.registers.depth = random.pick(&[0, 0, 15, 16]);
    core.registers.flags = random.byte() & !flag::UNUSED;
    core.registers.time = random.draw() as u32;
    core.registers.spare = [0, random.byte(), 0];
    let mut buffer = memory(random, SIZE);
    let program = if random.once_in(5) {
        any_instruction(random, Program::new(), SIZE, &mut Vec::new())
    } else if random.once_in(40) {
        // An element whose place passes 65,535 by so little that its low 16 bits lie within the data.
        let (index, last) = (ABSOLUTE, MOST_ELEMENTS - 1);
        Program::new().constant(index, &last.to_le_bytes()).element(random.pick(&[AURD, AUWD]), 0, ABSOLUTE - 1, index, 8, MOST_ELEMENTS)
    } else if random.once_in(3) {
        conversion(random, &mut buffer)
    } else if random.once_in(6) {
        packing(random, &mut buffer)
    } else {
        let (code, kind) = any_typed(random);
        let width = WIDTHS[kind as usize] as usize;
        // Absolute, so that the operands are where they are put.
        let [to, a, b] = [(); 3].map(|()| random.between(0, SIZE - width));
        for place in [a, b] {
            buffer[place..place + width].copy_from_slice(&operand(random, kind)[..width]);
        }
        if random.once_in(3) {
            let twin = buffer[a..a + width].to_vec();
            buffer[b..b + width].copy_from_slice(&twin);
        }
        if matches!(code, SHL..=ROR) && !random.once_in(3) {
            buffer[b] = random.below(8 * width + 2) as u8;
        }
        let [to, a, b] = [to, a, b].map(|place| place as u16 + ABSOLUTE);
        let to = if random.once_in(20) { ABSOLUTE + SIZE as u16 } else { to };
        Program::new().typed(code, kind, to, a, b)
    };
    let draft = Draft::single(SIZE as u16, 0, 50, program.returns());
    Case {
        file: draft.bytes(),
        trace: vec![1, 0, 0, 0, 0, 0],
        table: vec![core],
        semaphore: Semaphore::default(),
        buffer,
        shared: vec![0; SHARED_SIZE],
        order: vec![0; 2],
        list: vec![0; 2],
        core: 0,
        damages: Vec::new(),
        expected: Some(refusal::NONE),
    }
}

/// A conversion of a telling number; both places are absolute, the destination's at times one byte past the data.
fn conversion(random: &mut Random, buffer: &mut [u8]) -> Program {
    let (from, to) = any_conversion(random);
    let [width, wide] = [from, to].map(|kind| WIDTHS[kind as usize] as usize);
    let source = random.between(0, buffer.len() - width);
    let number = if random.once_in(2) { near_an_edge(random, from, to) } else { operand(random, from) };
    buffer[source..source + width].copy_from_slice(&number[..width]);
    let last = buffer.len() - wide;
    let destination = if random.once_in(20) { last + 1 } else { random.between(0, last) };
    Program::new().convert(from, to, destination as u16 + ABSOLUTE, source as u16 + ABSOLUTE)
}

/// The same of packed decimal.
fn packing(random: &mut Random, buffer: &mut [u8]) -> Program {
    let (code, kind) = any_packing(random);
    let width = WIDTHS[kind as usize] as usize;
    let last = buffer.len() - width;
    let source = random.between(0, last);
    let number = near_digits(random, code, width);
    buffer[source..source + width].copy_from_slice(&number[..width]);
    let destination = if random.once_in(20) { last + 1 } else { random.between(0, last) };
    Program::new().digits(code, kind, destination as u16 + ABSOLUTE, source as u16 + ABSOLUTE)
}

/// A number of the first type near a power of two, or halfway between two numbers of the second.
fn near_an_edge(random: &mut Random, from: u8, to: u8) -> [u8; 8] {
    let power = (1u128 << random.between(0, 64)) as f64;
    let half = random.pick(&[0.0, 0.5, 1.0, 1.5, -0.5, -1.0, 0.25, 0.75]);
    let sign = random.pick(&[1.0, -1.0]);
    let digits = random.draw() >> random.below(64);
    match from {
        REAL => ((sign * (power + half)) as f32).to_bits().wrapping_add(random.below(3) as u32).wrapping_sub(1) as u64,
        // Halfway between two neighbouring REALs, and beside it.
        LREAL if to == REAL => {
            let low = f32::from_bits(random.draw() as u32 % 0x7F80_0000);
            let high = f32::from_bits(low.to_bits() + 1) as f64;
            let high = if high.is_finite() { high } else { 2f64.powi(128) };
            (sign * ((low as f64 + high) / 2.0)).to_bits().wrapping_add(random.below(3) as u64).wrapping_sub(1)
        }
        LREAL => (sign * (power + half)).to_bits().wrapping_add(random.below(3) as u64).wrapping_sub(1),
        // Longer than a float's digits, with a one far below.
        _ => (digits & !0xFF_FFFF_FFFF) | (random.draw() % 3) | 1 << random.below(64),
    }
    .to_le_bytes()
}

// ---- damages

/// Name, refusal number, and the damage; it tells whether it could be done.
pub type FileDamage = (&'static str, u8, fn(&mut Random, &mut Draft) -> bool);

/// A core and one of its instructions that a test picks, as core, place and index.
fn instruction(random: &mut Random, draft: &Draft, picked: impl Fn(u8, usize) -> bool) -> Option<(usize, usize)> {
    let k = random.below(draft.code.len());
    let code = &draft.code[k];
    let ends = code.starts[1..].iter().copied().chain([code.length]);
    let found: Vec<usize> = code
        .starts
        .iter()
        .zip(ends)
        .filter(|(&start, end)| picked(code.bytes[start as usize], (end - start) as usize))
        .map(|(&start, _)| start as usize)
        .collect();
    if found.is_empty() {
        None
    } else {
        Some((k, random.pick(&found)))
    }
}

/// Sets one byte of an instruction that a test picks.
fn set_operand(random: &mut Random, draft: &mut Draft, codes: &[u8], at: usize, value: u8) -> bool {
    let Some((k, start)) = instruction(random, draft, |code, _| codes.contains(&code)) else { return false };
    draft.code[k].bytes[start + at] = value;
    true
}

/// A place that starts no instruction: inside one, or past the code.
fn no_start(random: &mut Random, code: &Code) -> u16 {
    let inside: Vec<u16> = (0..code.length).filter(|place| !code.starts.contains(place)).collect();
    match random.below(3) {
        0 => code.length,
        1 => random.between(code.length as usize, 65_535) as u16,
        _ if inside.is_empty() => code.length,
        _ => random.pick(&inside),
    }
}

/// Changes the record of any variable.
fn with_variable(random: &mut Random, draft: &mut Draft, change: impl FnOnce(&mut Random, &mut Variable, &[CoreRecord]) -> bool) -> bool {
    if draft.variables.is_empty() {
        return false;
    }
    let chosen = random.below(draft.variables.len());
    let Draft { variables, cores, .. } = draft;
    change(random, &mut variables[chosen], cores)
}

fn with_core(random: &mut Random, draft: &mut Draft, change: impl FnOnce(&mut Random, &mut CoreRecord) -> bool) -> bool {
    let chosen = random.below(draft.cores.len());
    change(random, &mut draft.cores[chosen])
}

/// Lays one variable over another, in shared memory or in the data of one core.
fn overlap(random: &mut Random, draft: &mut Draft, in_shared: bool) -> bool {
    let count = draft.variables.len();
    if count < 2 {
        return false;
    }
    let first = random.below(count);
    let second = (first + random.between(1, count - 1)) % count;
    let (base, k) = (draft.variables[first].clone(), random.below(draft.cores.len()));
    let data_size = draft.cores[k].data_size as usize;
    let over = &mut draft.variables[second];
    let shift = random.below((base.width as usize).max(1));
    let (place, size) = if in_shared { (base.shared, SHARED_SIZE) } else { (base.local[k], data_size) };
    let place = place.saturating_add(shift as u16);
    if place as usize + over.width as usize > size {
        return false;
    }
    if in_shared {
        over.shared = place;
    } else if names(base.attribute, k) && names(over.attribute, k) {
        over.local[k] = place;
    } else {
        return false;
    }
    true
}

/// Changes the start values of a core that has so many at least, and states their number; with the core's data size.
fn with_pairs(random: &mut Random, draft: &mut Draft, least: usize, change: impl FnOnce(&mut Random, &mut Vec<(u16, u8)>, u16)) -> bool {
    let k = random.below(draft.cores.len());
    let data_size = draft.cores[k].data_size;
    let Some(values) = draft.values.get_mut(k).filter(|values| values.pairs.len() >= least) else { return false };
    change(random, &mut values.pairs, data_size);
    values.count = values.pairs.len() as u16;
    true
}

pub const FILE_DAMAGES: &[FileDamage] = &[
    ("bytes after the last section", refusal::LEFT_OVER, |random, draft| {
        let count = random.between(1, 3);
        draft.rest = random.bytes(count);
        true
    }),
    ("a start place twice", refusal::START_PLACE, |random, draft| {
        with_pairs(random, draft, 1, |random, pairs, _| {
            let at = random.below(pairs.len());
            let again = (pairs[at].0, random.byte());
            pairs.insert(at + 1, again);
        })
    }),
    ("a start place below the one before", refusal::START_PLACE, |random, draft| {
        with_pairs(random, draft, 2, |random, pairs, _| {
            let at = random.below(pairs.len() - 1);
            pairs.swap(at, at + 1);
        })
    }),
    ("a start place beyond the data", refusal::START_PLACE, |random, draft| {
        with_pairs(random, draft, 0, |random, pairs, data_size| {
            let beyond = random.pick(&[data_size, data_size + 1, 65_535]);
            pairs.push((beyond, random.byte()));
        })
    }),
    ("a start place beyond the data, and bytes after it", refusal::START_PLACE, |random, draft| {
        draft.rest = random.bytes(3);
        with_pairs(random, draft, 0, |random, pairs, data_size| pairs.push((data_size, random.byte())))
    }),
    ("a start value that is not there", refusal::FILE_END, |random, draft| {
        let Some(last) = draft.values.last_mut() else { return false };
        last.count += random.between(1, 3) as u16;
        draft.rest.clear();
        true
    }),
    ("mark", refusal::MARK, |random, draft| {
        draft.mark[random.below(4)] ^= random.between(1, 255) as u8;
        draft.mark != FILE_MARK && draft.mark != NEW_MARK
    }),
    ("core count", refusal::CORE_RECORD, |random, draft| {
        draft.core_count = if random.once_in(2) { 0 } else { random.between(5, 255) as u8 };
        true
    }),
    ("data size", refusal::CORE_RECORD, |random, draft| {
        with_core(random, draft, |random, core| {
            core.data_size = random.pick(&[0, 4097, 65_535]);
            true
        })
    }),
    ("input size", refusal::CORE_RECORD, |random, draft| {
        with_core(random, draft, |random, core| {
            core.input_size = random.between(core.data_size as usize + 1, core.data_size as usize + 9) as u16;
            true
        })
    }),
    ("instruction limit", refusal::CORE_RECORD, |random, draft| {
        with_core(random, draft, |_, core| {
            core.limit = 0;
            true
        })
    }),
    ("variable count", refusal::VARIABLE_RECORD, |random, draft| {
        draft.variable_count = random.between(65, 255) as u8;
        true
    }),
    ("width", refusal::VARIABLE_RECORD, |random, draft| {
        with_variable(random, draft, |random, variable, _| {
            variable.width = random.pick(&[0, 3, 5, 6, 7, 9, 16, 255]);
            true
        })
    }),
    ("no writer", refusal::VARIABLE_RECORD, |random, draft| {
        with_variable(random, draft, |_, variable, _| {
            variable.attribute &= 0xF0;
            true
        })
    }),
    ("two writers", refusal::VARIABLE_RECORD, |random, draft| {
        with_variable(random, draft, |random, variable, _| {
            let before = variable.attribute;
            variable.attribute |= 1 << random.below(4);
            variable.attribute != before
        })
    }),
    ("read and written by one core", refusal::VARIABLE_RECORD, |random, draft| {
        with_variable(random, draft, |_, variable, _| {
            variable.attribute |= variable.attribute << 4;
            true
        })
    }),
    ("a reader that isn't there", refusal::VARIABLE_RECORD, |random, draft| {
        with_variable(random, draft, |random, variable, cores| {
            if cores.len() < 4 {
                variable.attribute |= 16 << random.between(cores.len(), 3);
            }
            cores.len() < 4
        })
    }),
    ("a writer that isn't there", refusal::VARIABLE_RECORD, |random, draft| {
        with_variable(random, draft, |random, variable, cores| {
            if cores.len() < 4 {
                variable.attribute = variable.attribute & 0xF0 | 1 << random.between(cores.len(), 3);
            }
            cores.len() < 4
        })
    }),
    ("beyond shared memory", refusal::VARIABLE_RECORD, |random, draft| {
        with_variable(random, draft, |random, variable, _| {
            variable.shared = random.pick(&[(SHARED_SIZE - variable.width as usize + 1) as u16, 1024, 65_535]);
            true
        })
    }),
    ("beyond a core's data", refusal::VARIABLE_RECORD, |random, draft| {
        with_variable(random, draft, |random, variable, cores| {
            let k = random.below(cores.len());
            if names(variable.attribute, k) {
                variable.local[k] = random.pick(&[
                    cores[k].data_size.saturating_add(1).saturating_sub(variable.width as u16),
                    cores[k].data_size,
                    65_535 - 8,
                ]);
            }
            names(variable.attribute, k)
        })
    }),
    ("touches input bytes", refusal::VARIABLE_RECORD, |random, draft| {
        with_variable(random, draft, |random, variable, cores| {
            let k = random.below(cores.len());
            let possible = names(variable.attribute, k) && cores[k].input_size > 0;
            if possible {
                variable.local[k] = cores[k].input_size - 1;
            }
            possible
        })
    }),
    ("place of an unnamed core", refusal::VARIABLE_RECORD, |random, draft| {
        with_variable(random, draft, |random, variable, _| {
            let k = random.below(4);
            if !names(variable.attribute, k) {
                variable.local[k] = random.between(1, 20) as u16;
            }
            !names(variable.attribute, k)
        })
    }),
    ("overlap in shared memory", refusal::OVERLAP, |random, draft| overlap(random, draft, true)),
    ("overlap in a core's data", refusal::OVERLAP, |random, draft| overlap(random, draft, false)),
    ("code length", refusal::CODE, |random, draft| {
        let k = random.below(draft.code.len());
        draft.code[k].length = random.pick(&[0, 8193, 65_535]);
        true
    }),
    ("unknown code byte", refusal::CODE, |random, draft| {
        let unknown: Vec<u8> = (0..=255).filter(|&code| LENGTHS[code as usize] == 0).collect();
        let (k, start) = instruction(random, draft, |_, _| true).expect("code has an instruction");
        draft.code[k].bytes[start] = random.pick(&unknown);
        true
    }),
    ("type", refusal::CODE, |random, draft| {
        let Some((k, start)) = instruction(random, draft, |code, _| (ADD..=NE).contains(&code)) else { return false };
        let bytes = &mut draft.code[k].bytes;
        let others: Vec<u8> = (0..=255).filter(|&kind| !takes_type(bytes[start], kind) && !(32..=250).contains(&kind)).collect();
        bytes[start + 1] = random.pick(&others);
        true
    }),
    ("type of a conversion", refusal::CODE, |random, draft| {
        let (at, kind) = (random.between(1, 2), random.pick(&[BOOL, TIME, 12, 255]));
        set_operand(random, draft, &[CONVERT], at, kind)
    }),
    ("type of a packed decimal", refusal::CODE, |random, draft| {
        let kind = random.pick(&[BOOL, SINT, INT, LINT, REAL, LREAL, TIME, 12, 255]);
        set_operand(random, draft, &[PACK, UNPACK], 1, kind)
    }),
    ("MCD length", refusal::CODE, |random, draft| {
        let count = random.pick(&[0, 9, 255]);
        set_operand(random, draft, &[MCD], 3, count)
    }),
    ("element size", refusal::CODE, |random, draft| {
        let size = random.pick(&[0, 3, 5, 6, 7, 9, 16, 255]);
        set_operand(random, draft, &[AURD, AUWD], 7, size)
    }),
    ("element count", refusal::CODE, |random, draft| {
        let Some((k, start)) = instruction(random, draft, |code, _| matches!(code, AURD | AUWD)) else { return false };
        let count: u16 = random.pick(&[0, 4097, 65_535]);
        draft.code[k].bytes[start + 8..start + 10].copy_from_slice(&count.to_le_bytes());
        true
    }),
    ("instruction cut", refusal::CODE, |random, draft| {
        let Some((k, start)) = instruction(random, draft, |_, length| length > 1) else { return false };
        let code = &mut draft.code[k];
        let end = code.starts.iter().copied().find(|&next| next as usize > start).unwrap_or(code.length);
        code.length = random.between(start + 1, end as usize - 1) as u16;
        code.bytes.truncate(code.length as usize);
        true
    }),
    ("target", refusal::TARGET, |random, draft| {
        let Some((k, start)) = instruction(random, draft, |code, _| (JMP..=CALF).contains(&code)) else { return false };
        let target = no_start(random, &draft.code[k]);
        let bytes = &mut draft.code[k].bytes;
        let at = start + if matches!(bytes[start], JMP | CALF) { 1 } else { 3 };
        bytes[at..at + 2].copy_from_slice(&target.to_le_bytes());
        true
    }),
    ("last instruction", refusal::TARGET, |random, draft| {
        let k = random.below(draft.code.len());
        let code = &mut draft.code[k];
        let more = [random.pick(&[CYCLE_TIME, FLAG_BYTE]), 0, 0];
        if code.bytes.len() + more.len() > MOST_CODE {
            return false;
        }
        code.starts.push(code.length);
        code.bytes.extend(more);
        code.length = code.bytes.len() as u16;
        true
    }),
];

/// Name and damage of a fit state; each gives 23.
pub type StateDamage = (&'static str, fn(&mut Random, &Draft, &[u16], &mut Case) -> bool);

/// Changes a core whose mode is in the list.
fn in_modes(random: &mut Random, case: &mut Case, modes: &[u8], change: impl FnOnce(&mut Random, usize, &mut Core) -> bool) -> bool {
    let k = random.below(case.table.len());
    modes.contains(&case.table[k].registers.mode) && change(random, k, &mut case.table[k])
}

/// Changes a line that isn't empty.
fn in_line(random: &mut Random, case: &mut Case, change: impl FnOnce(&mut Random, &mut Semaphore) -> bool) -> bool {
    case.semaphore.waiting > 0 && change(random, &mut case.semaphore)
}

/// A change for one of the cores.
fn named(random: &mut Random, case: &mut Case, change: impl FnOnce(u8, &mut Case) -> bool) -> bool {
    let k = random.below(case.table.len()) as u8;
    change(k, case)
}

const EVERY_MODE: &[u8] = &[0, 1, 2, 3, 4, 5];

pub const STATE_DAMAGES: &[StateDamage] = &[
    ("mode", |random, _, _, case| {
        in_modes(random, case, EVERY_MODE, |random, _, core| {
            core.registers.mode = if random.once_in(2) { 6 } else { random.between(6, 255) as u8 };
            true
        })
    }),
    ("program counter", |random, draft, _, case| {
        in_modes(random, case, EVERY_MODE, |random, k, core| {
            core.registers.counter = no_start(random, &draft.code[k]);
            true
        })
    }),
    ("return place", |random, draft, _, case| {
        in_modes(random, case, &[2, 5], |random, k, core| {
            core.registers.depth = core.registers.depth.max(1);
            core.places[random.below(core.registers.depth as usize)] = no_start(random, &draft.code[k]);
            true
        })
    }),
    ("data offset", |random, draft, _, case| {
        in_modes(random, case, EVERY_MODE, |random, k, core| {
            core.registers.offset = draft.cores[k].data_size + random.below(3) as u16;
            true
        })
    }),
    ("offset in the stack", |random, draft, _, case| {
        in_modes(random, case, &[2, 5], |random, k, core| {
            core.registers.depth = core.registers.depth.max(1);
            core.offsets[random.below(core.registers.depth as usize)] = draft.cores[k].data_size + random.below(3) as u16;
            true
        })
    }),
    ("depth above 16", |random, _, _, case| {
        in_modes(random, case, &[2, 5], |random, _, core| {
            core.registers.depth = random.pick(&[17, 18, 255]);
            true
        })
    }),
    ("depth outside modes 2 and 5", |random, _, _, case| {
        in_modes(random, case, &[0, 1, 3, 4], |random, _, core| {
            core.registers.depth = random.between(1, 16) as u8;
            true
        })
    }),
    ("instruction count", |random, draft, _, case| {
        in_modes(random, case, EVERY_MODE, |random, k, core| {
            let limit = draft.cores[k].limit as usize;
            core.registers.count = random.pick(&[limit + 1, 65_535]) as u16;
            limit < 65_535
        })
    }),
    ("exchange number past the bytes", |random, draft, _, case| {
        in_modes(random, case, &[1, 4], |random, k, core| {
            let bytes = exchange_bytes(draft, k, core.registers.mode == mode::WRITING);
            core.registers.exchange = bytes + random.between(1, 3) as u16;
            true
        })
    }),
    ("exchange number outside modes 1 and 4", |random, _, _, case| {
        in_modes(random, case, &[0, 2, 3, 5], |random, _, core| {
            core.registers.exchange = random.between(1, 3) as u16;
            true
        })
    }),
    ("cycles above the records", |random, _, counts, case| {
        in_modes(random, case, &[0, 5], |random, k, core| {
            core.registers.cycles = counts[k] + random.between(1, 3) as u16;
            true
        })
    }),
    ("cycles spent in modes 1 to 4", |random, _, counts, case| {
        in_modes(random, case, &[1, 2, 3, 4], |_, k, core| {
            core.registers.cycles = counts[k];
            true
        })
    }),
    ("two cores exchanging", |random, _, counts, case| {
        let held = case.semaphore.holder != FREE;
        held && in_modes(random, case, &[0, 2, 3], |random, k, core| {
            *core = Core { registers: Registers { mode: random.pick(&[1, 4]), depth: 0, ..core.registers }, ..Core::default() };
            core.registers.cycles < counts[k]
        })
    }),
    ("a core exchanging without the semaphore", |random, _, counts, case| {
        let free = case.semaphore.holder == FREE;
        free && in_modes(random, case, &[0, 2, 3], |random, k, core| {
            *core = Core { registers: Registers { mode: random.pick(&[1, 4]), depth: 0, ..core.registers }, ..Core::default() };
            core.registers.cycles < counts[k]
        })
    }),
    ("holder is another core, or free", |random, _, _, case| {
        let before = case.semaphore.holder;
        case.semaphore.holder = random.between(0, case.table.len()) as u8;
        before != FREE && case.semaphore.holder != before
    }),
    ("held by a core that doesn't exchange", |random, _, _, case| {
        let before = case.semaphore.holder;
        case.semaphore.holder = random.between(1, case.table.len()) as u8;
        before == FREE
    }),
    ("holder is no core", |random, _, _, case| {
        case.semaphore.holder = random.pick(&[case.table.len() as u8 + 1, 255]);
        true
    }),
    ("a core twice in line", |random, _, _, case| {
        in_line(random, case, |random, semaphore| {
            let before = semaphore.waiting as usize;
            let place = random.below(before);
            semaphore.line[before.min(MOST_CORES - 1)] = semaphore.line[place];
            semaphore.waiting = MOST_CORES.min(before + 1) as u8;
            before < MOST_CORES || place + 1 < MOST_CORES
        })
    }),
    ("line names a core from n on", |random, _, _, case| {
        let cores = case.table.len() as u8;
        in_line(random, case, |random, semaphore| {
            semaphore.line[random.below(semaphore.waiting as usize)] = random.pick(&[cores, 255]);
            true
        })
    }),
    ("line names a core in no mode 0 or 3", |random, _, _, case| {
        named(random, case, |k, case| {
            case.semaphore.line[0] = k;
            case.semaphore.waiting = 1;
            !matches!(case.table[k as usize].registers.mode, mode::AWAITS_READING | mode::AWAITS_WRITING)
        })
    }),
    ("line names a core out of records", |random, _, counts, case| {
        named(random, case, |k, case| {
            case.semaphore.line[0] = k;
            case.semaphore.waiting = 1;
            let r = &case.table[k as usize].registers;
            r.mode == mode::AWAITS_READING && r.cycles == counts[k as usize]
        })
    }),
    ("more than four in line", |random, _, _, case| {
        case.semaphore.waiting = random.pick(&[5, 255]);
        true
    }),
    ("return place above the depth", |random, draft, _, case| {
        in_modes(random, case, EVERY_MODE, |random, k, core| {
            let depth = core.registers.depth as usize;
            if depth == CALL_DEPTH {
                return false;
            }
            let place = random.pick(&draft.code[k].starts);
            core.places[random.between(depth, 15)] = place;
            place != 0
        })
    }),
    ("offset above the depth", |random, _, _, case| {
        in_modes(random, case, EVERY_MODE, |random, _, core| {
            let depth = core.registers.depth as usize;
            if depth == CALL_DEPTH {
                return false;
            }
            core.offsets[random.between(depth, 15)] = 1;
            true
        })
    }),
    ("flag bit 7", |random, _, _, case| {
        in_modes(random, case, EVERY_MODE, |random, _, core| {
            core.registers.flags |= random.pick(&[128, 192]);
            true
        })
    }),
    ("core table too short", |_, _, _, case| {
        case.table.pop();
        true
    }),
    ("core table too long", |_, _, _, case| {
        case.table.push(Core::fresh());
        true
    }),
];

/// Name, number and damage of what else is lent.
pub type LentDamage = (&'static str, u8, fn(&mut Random, &mut Case) -> bool);

/// One byte or record more, or fewer.
fn resize(random: &mut Random, bytes: &mut Vec<u8>) {
    let length = bytes.len();
    bytes.resize(random.pick(&[length - 1, length + 1, 0, length + 100]), 0);
}

pub const LENT_DAMAGES: &[LentDamage] = &[
    ("data buffer size", refusal::SIZES, |random, case| {
        resize(random, &mut case.buffer);
        true
    }),
    ("shared memory size", refusal::SIZES, |random, case| {
        resize(random, &mut case.shared);
        true
    }),
    ("order list too short", refusal::SIZES, |random, case| {
        let short = case.order.len().checked_sub(1).map(|most| random.between(0, most));
        case.list.truncate(short.unwrap_or(case.list.len()));
        short.is_some()
    }),
    ("trace cut", refusal::TRACE, |random, case| {
        if case.trace.is_empty() {
            return false;
        }
        let length = random.between(1, case.trace.len() - 1);
        case.trace.truncate(length);
        true
    }),
    ("trace too long", refusal::TRACE, |random, case| {
        let count = random.between(1, 9);
        case.trace.extend(random.bytes(count));
        true
    }),
    ("order names a core that isn't there", refusal::NO_SUCH_CORE, |random, case| {
        let cores = case.file[4];
        let at = random.below(case.order.len().max(1));
        let Some(core) = case.order.get_mut(at) else { return false };
        *core = random.pick(&[cores, cores + 1, 16, 255]);
        case.core = *core;
        true
    }),
];

/// A file cut anywhere.
pub const CUT: &str = "file cut";
/// Bytes of the file changed at random; what it is then isn't known beforehand.
pub const FLIPPED: &str = "bytes flipped";

/// A sound case with one damage, or with several.
pub fn damaged(random: &mut Random) -> Case {
    let (mut case, mut draft, counts) = sound(random);
    // The last to be judged first: what a later damage finds has the earlier number.
    let parts = match random.below(3) {
        0 => random.below(32),
        _ => 1 << random.below(5),
    };
    if parts & 1 != 0 {
        damage_lent(random, &mut case, refusal::NO_SUCH_CORE);
    }
    if parts & 2 != 0 {
        let (name, damage) = random.pick(STATE_DAMAGES);
        let mut changed = case.clone();
        if damage(random, &draft, &counts, &mut changed) {
            case = changed;
            note(&mut case, name, refusal::UNFIT);
        }
    }
    if parts & 4 != 0 {
        damage_lent(random, &mut case, refusal::TRACE);
    }
    if parts & 8 != 0 {
        damage_lent(random, &mut case, refusal::SIZES);
    }
    if parts & 16 != 0 {
        damage_file(random, &mut draft, &mut case);
    }
    case
}

fn note(case: &mut Case, name: &'static str, number: u8) {
    case.damages.push(name);
    case.expected = Some(number);
}

fn damage_lent(random: &mut Random, case: &mut Case, wanted: u8) {
    let fitting: Vec<LentDamage> = LENT_DAMAGES.iter().copied().filter(|(_, number, _)| *number == wanted).collect();
    let (name, number, damage) = random.pick(&fitting);
    if damage(random, case) {
        note(case, name, number);
    }
}

fn damage_file(random: &mut Random, draft: &mut Draft, case: &mut Case) {
    match random.below(12) {
        0 => {
            cut(random, case);
            note(case, CUT, refusal::FILE_END);
        }
        1 | 2 => {
            for _ in 0..random.between(1, 3) {
                let at = random.below(case.file.len());
                case.file[at] = random.byte();
            }
            case.damages.push(FLIPPED);
            case.expected = None;
        }
        3..=5 => {
            // Two at once, perhaps with a cut: which is judged first is for the machines to agree on. The first leaves the code's layout.
            let first = |damage: &FileDamage| {
                damage.1 <= refusal::OVERLAP || matches!(damage.1, refusal::TARGET | refusal::LEFT_OVER | refusal::START_PLACE)
            };
            let firsts: Vec<FileDamage> = FILE_DAMAGES.iter().copied().filter(first).collect();
            let one = random.pick(&firsts);
            damage_draft(random, draft, case, one);
            let other = random.pick(FILE_DAMAGES);
            damage_draft(random, draft, case, other);
            if random.once_in(2) {
                cut(random, case);
            }
            case.expected = None;
        }
        _ => {
            let one = random.pick(FILE_DAMAGES);
            damage_draft(random, draft, case, one);
        }
    }
}

/// Anywhere, or within the mark and the first record.
fn cut(random: &mut Random, case: &mut Case) {
    let length = if random.once_in(2) { random.below(12) } else { random.below(case.file.len()) };
    case.file.truncate(length);
}

fn damage_draft(random: &mut Random, draft: &mut Draft, case: &mut Case, (name, number, damage): FileDamage) {
    let mut changed = draft.clone();
    if damage(random, &mut changed) {
        *draft = changed;
        case.file = draft.bytes();
        note(case, name, number);
    }
}
