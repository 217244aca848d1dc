//! The multi-core task machine of document 01 in plain safe Rust, in the document's order: names and limits, the task set file, the trace,
//! states, one instruction, one step, the calls, the listing of `cores`.
//!
//! It serves as the yardstick of the benchmark: a call judges everything once, then steps without judging again and without allocating.
//! A data address is tested by the slice access that uses it.

#![forbid(unsafe_code)]

pub mod threads;

// ---- names and limits

/// Refusals by the number of document 01, or of document 02 from 24 on; 0 where there is none.
pub mod refusal {
    pub const NONE: u8 = 0;
    pub const FILE_END: u8 = 1;
    pub const MARK: u8 = 2;
    pub const CORE_RECORD: u8 = 3;
    pub const VARIABLE_RECORD: u8 = 4;
    pub const OVERLAP: u8 = 5;
    pub const CODE: u8 = 6;
    pub const TARGET: u8 = 7;
    pub const NO_SUCH_CORE: u8 = 20;
    pub const SIZES: u8 = 21;
    pub const TRACE: u8 = 22;
    pub const UNFIT: u8 = 23;
    pub const LEFT_OVER: u8 = 24;
    pub const WIDE_TYPE: u8 = 27;
    pub const START_PLACE: u8 = 31;
    pub const START_VALUES: u8 = 32;

    /// Whether a task set file is refused with this number.
    pub fn of_file(number: u8) -> bool {
        matches!(number, FILE_END..=TARGET | LEFT_OVER | WIDE_TYPE | START_PLACE)
    }
}

/// The commands by code byte.
pub mod command {
    pub const RETURN: u8 = 0;
    pub const JMP: u8 = 1;
    pub const JZ: u8 = 2;
    pub const JNZ: u8 = 3;
    pub const CALB: u8 = 4;
    pub const CALF: u8 = 5;
    pub const MCD: u8 = 6;
    pub const MEMCP: u8 = 7;
    pub const AURD: u8 = 8;
    pub const AUWD: u8 = 9;
    pub const ADD: u8 = 16;
    pub const SUB: u8 = 17;
    pub const MUL: u8 = 18;
    pub const DIV: u8 = 19;
    pub const MOD: u8 = 20;
    pub const AND: u8 = 24;
    pub const OR: u8 = 25;
    pub const XOR: u8 = 26;
    pub const NOT: u8 = 27;
    pub const SHL: u8 = 28;
    pub const SHR: u8 = 29;
    pub const ROL: u8 = 30;
    pub const ROR: u8 = 31;
    pub const GT: u8 = 32;
    pub const GE: u8 = 33;
    pub const EQ: u8 = 34;
    pub const LE: u8 = 35;
    pub const LT: u8 = 36;
    pub const NE: u8 = 37;
    pub const CYCLE_TIME: u8 = 41;
    pub const FLAG_BYTE: u8 = 42;
    pub const CONVERT: u8 = 43;
    pub const PACK: u8 = 44;
    pub const UNPACK: u8 = 45;
}

/// The types by type byte.
pub mod types {
    pub const BOOL: u8 = 0;
    pub const SINT: u8 = 1;
    pub const BYTE: u8 = 2;
    pub const INT: u8 = 3;
    pub const WORD: u8 = 4;
    pub const DINT: u8 = 5;
    pub const DWORD: u8 = 6;
    pub const LINT: u8 = 7;
    pub const LWORD: u8 = 8;
    pub const REAL: u8 = 9;
    pub const LREAL: u8 = 10;
    pub const TIME: u8 = 11;
    /// The width in bytes of each type.
    pub const WIDTHS: [u8; 12] = [1, 1, 1, 2, 2, 4, 4, 8, 8, 4, 8, 4];
}

/// The modes of a core.
pub mod mode {
    pub const AWAITS_READING: u8 = 0;
    pub const READING: u8 = 1;
    pub const EXECUTING: u8 = 2;
    pub const AWAITS_WRITING: u8 = 3;
    pub const WRITING: u8 = 4;
    pub const STOPPED: u8 = 5;
}

/// The bits of the flag byte, as masks.
pub mod flag {
    pub const ARRAY_INDEX: u8 = 1 << 0;
    pub const INSTRUCTION_LIMIT: u8 = 1 << 1;
    pub const COLD_START: u8 = 1 << 2;
    pub const ZERO_DIVISOR: u8 = 1 << 3;
    pub const BEYOND_DATA: u8 = 1 << 4;
    pub const NESTED_CALL: u8 = 1 << 5;
    pub const NOT_HELD: u8 = 1 << 6;
    /// Bit 7 is never set in a fit state.
    pub const UNUSED: u8 = 1 << 7;
}

pub const FILE_MARK: [u8; 4] = *b"MCS1";
/// The mark of a file that has start values after its code.
pub const NEW_MARK: [u8; 4] = *b"MCS2";
pub const SHARED_SIZE: usize = 1024;
pub const MOST_CORES: usize = 4;
pub const MOST_VARIABLES: usize = 64;
pub const MOST_DATA: usize = 4096;
pub const MOST_CODE: usize = 8192;
pub const MOST_ELEMENTS: u16 = 4096;
pub const CALL_DEPTH: usize = 16;
/// Addresses from here on are absolute.
pub const ABSOLUTE: u16 = 32_768;
/// The semaphore's holder where it is free; core k holds it as k + 1.
pub const FREE: u8 = 0;
/// A byte of the order list is the core, plus this for a writing.
pub const WRITING_MARK: u8 = 16;

use command::*;
use types::*;

type Judged<T> = Result<T, u8>;

/// The length of each instruction by its code byte, 0 where the code is unknown. MCD adds its n.
pub const LENGTHS: [u8; 256] = lengths();

const fn lengths() -> [u8; 256] {
    let mut table = [0; 256];
    let mut code = 0;
    while code < 256 {
        table[code] = match code as u8 {
            RETURN => 1,
            JMP | CALF | CYCLE_TIME | FLAG_BYTE => 3,
            JZ | JNZ | CALB => 5,
            MCD => 4,
            MEMCP | CONVERT => 7,
            AURD | AUWD => 10,
            NOT | PACK | UNPACK => 6,
            ADD..=MOD | AND..=XOR | SHL..=ROR | GT..=NE => 8,
            _ => 0,
        };
        code += 1;
    }
    table
}

/// The types that a typed command takes by its code byte, bit t for type t; 0 for the other commands.
const TYPES: [u16; 256] = types_taken();

const fn types_taken() -> [u16; 256] {
    let mut table = [0; 256];
    let mut code = 0;
    while code < 256 {
        table[code] = match code as u8 {
            ADD | SUB => 0b1111_1111_1110,
            MUL | DIV => 0b0111_1111_1110,
            MOD => 0b0001_1111_1110,
            AND..=NOT => 0b0001_0101_0101,
            SHL..=ROR => 0b0001_0101_0100,
            GT..=NE => 0b1111_1111_1111,
            _ => 0,
        };
        code += 1;
    }
    table
}

/// Whether the command `code` exists with the type byte `kind`.
pub fn takes_type(code: u8, kind: u8) -> bool {
    kind <= TIME && TYPES[code as usize] >> kind & 1 == 1
}

/// What the machine carries that loads a file: all of document 01, or what the smallest controller does (document 02, 2.10).
#[derive(Clone, Copy, PartialEq, Eq, Debug)]
pub enum Profile {
    Full,
    Small,
}

/// The most data of a core under the small profile.
pub const SMALL_DATA: usize = 1_024;

/// The type bytes of an instruction.
fn types_named(instruction: &[u8]) -> &[u8] {
    match instruction[0] {
        ADD..=NE | PACK | UNPACK => &instruction[1..2],
        CONVERT => &instruction[1..3],
        _ => &[],
    }
}

// ---- the state that a caller lends

/// Bytes of a record that hold nothing. They are never judged; an accepted call that changes the table leaves zeros there.
pub const SPARE: usize = 3;

/// The fields stand so that no byte lies between them.
#[repr(C)]
#[derive(Clone, Copy, PartialEq, Eq, Debug, Default)]
pub struct Registers {
    /// The time of the input record, as taken.
    pub time: u32,
    /// The program counter.
    pub counter: u16,
    /// The data offset.
    pub offset: u16,
    /// The instruction count of the cycle.
    pub count: u16,
    /// The exchange number: bytes copied since the taking.
    pub exchange: u16,
    pub cycles: u16,
    pub mode: u8,
    /// The number of calls under way.
    pub depth: u8,
    pub flags: u8,
    pub spare: [u8; SPARE],
}

/// A record of the core table: registers and call stack. Stack entries from the depth on are 0.
#[repr(C)]
#[derive(Clone, Copy, PartialEq, Eq, Debug, Default)]
pub struct Core {
    pub registers: Registers,
    /// Return places.
    pub places: [u16; CALL_DEPTH],
    /// Data offsets to return to.
    pub offsets: [u16; CALL_DEPTH],
}

// Every byte of a record belongs to a field.
const _: () = assert!(size_of::<Core>() == 4 + 5 * 2 + 3 + SPARE + 2 * CALL_DEPTH * 2);

impl Core {
    pub fn fresh() -> Core {
        Core { registers: Registers { flags: flag::COLD_START, ..Registers::default() }, ..Core::default() }
    }
}

/// The semaphore and the line of cores that wait for it (document 02, 2.4), the first one first. Entries past `waiting` are not judged; an
/// accepted call that changes the state leaves zeros there.
#[repr(C)]
#[derive(Clone, Copy, PartialEq, Eq, Debug, Default)]
pub struct Semaphore {
    /// `FREE`, or k + 1 where core k holds it.
    pub holder: u8,
    /// How many cores stand in line.
    pub waiting: u8,
    pub line: [u8; MOST_CORES],
}

const _: () = assert!(size_of::<Semaphore>() == 2 + MOST_CORES);

impl Semaphore {
    /// The cores in line; of more than there are places, those that have one.
    pub fn in_line(&self) -> &[u8] {
        &self.line[..MOST_CORES.min(self.waiting as usize)]
    }
}

// ---- the task set file

/// A set of places below 64 * WORDS, a bit each.
#[derive(Clone, Copy)]
struct Places<const WORDS: usize>([u64; WORDS]);

impl<const WORDS: usize> Places<WORDS> {
    const NONE: Self = Places([0; WORDS]);

    fn add(&mut self, place: usize) {
        self.0[place / 64] |= 1 << (place % 64);
    }

    fn has(&self, place: usize) -> bool {
        self.0.get(place / 64).is_some_and(|word| word >> (place % 64) & 1 == 1)
    }

    /// Adds a stretch of at most 64 places; tells whether it shared one with those before.
    fn claim(&mut self, place: usize, width: usize) -> bool {
        let stretch = ((1u128 << width) - 1) << (place % 64);
        let mut shared = false;
        for (word, part) in self.0[place / 64..].iter_mut().zip([stretch as u64, (stretch >> 64) as u64]) {
            shared |= *word & part != 0;
            *word |= part;
        }
        shared
    }
}

type CodePlaces = Places<{ MOST_CODE / 64 }>;

/// One variable in one core's exchange.
#[derive(Clone, Copy, Default)]
struct Move {
    shared: u16,
    local: u16,
    width: u8,
}

/// What one core reads, or writes, in file order.
#[derive(Clone, Copy)]
struct Moves {
    list: [Move; MOST_VARIABLES],
    count: usize,
    bytes: u16,
}

impl Moves {
    const NONE: Moves = Moves { list: [Move { shared: 0, local: 0, width: 0 }; MOST_VARIABLES], count: 0, bytes: 0 };

    fn push(&mut self, step: Move) {
        self.list[self.count] = step;
        self.count += 1;
        self.bytes += step.width as u16;
    }
}

#[derive(Clone, Copy)]
struct Task<'f> {
    data_size: usize,
    input_size: usize,
    limit: u16,
    code: &'f [u8],
    /// Where instructions start.
    starts: CodePlaces,
    reads: Moves,
    writes: Moves,
    /// Start values, three bytes each: a place and a byte.
    values: &'f [u8],
}

struct TaskSet<'f> {
    count: usize,
    tasks: [Task<'f>; MOST_CORES],
}

/// Takes items off the front of the file.
struct Reader<'f>(&'f [u8]);

impl<'f> Reader<'f> {
    fn bytes(&mut self, count: usize) -> Judged<&'f [u8]> {
        let (item, rest) = self.0.split_at_checked(count).ok_or(refusal::FILE_END)?;
        self.0 = rest;
        Ok(item)
    }

    fn byte(&mut self) -> Judged<u8> {
        Ok(self.bytes(1)?[0])
    }
}

#[inline(always)]
fn word(bytes: &[u8], at: usize) -> u16 {
    u16::from_le_bytes([bytes[at], bytes[at + 1]])
}

fn demand(kept: bool, number: u8) -> Judged<()> {
    if kept {
        Ok(())
    } else {
        Err(number)
    }
}

impl<'f> TaskSet<'f> {
    fn load(file: &'f [u8]) -> Judged<TaskSet<'f>> {
        TaskSet::load_for(Profile::Full, file)
    }

    /// Judges the file front to back: presence of each item, then the item.
    fn load_for(profile: Profile, file: &'f [u8]) -> Judged<TaskSet<'f>> {
        let mut reader = Reader(file);
        let mark = reader.bytes(FILE_MARK.len())?;
        demand(mark == FILE_MARK || mark == NEW_MARK, refusal::MARK)?;
        let count = reader.byte()? as usize;
        demand((1..=MOST_CORES).contains(&count), refusal::CORE_RECORD)?;
        const EMPTY: Task = Task {
            data_size: 0,
            input_size: 0,
            limit: 0,
            code: &[],
            starts: CodePlaces::NONE,
            reads: Moves::NONE,
            writes: Moves::NONE,
            values: &[],
        };
        let mut set = TaskSet { count, tasks: [EMPTY; MOST_CORES] };
        for task in &mut set.tasks[..count] {
            load_core(profile, &mut reader, task)?;
        }
        set.load_variables(&mut reader)?;
        for task in &mut set.tasks[..count] {
            let length = word(reader.bytes(2)?, 0) as usize;
            demand((1..=MOST_CODE).contains(&length), refusal::CODE)?;
            task.code = reader.bytes(length)?;
            judge_code(profile, task.code, &mut task.starts)?;
        }
        if mark == NEW_MARK {
            for task in &mut set.tasks[..count] {
                task.values = load_values(&mut reader, task.data_size)?;
            }
        }
        demand(reader.0.is_empty(), refusal::LEFT_OVER)?;
        Ok(set)
    }

    /// All records before any overlap.
    fn load_variables(&mut self, reader: &mut Reader) -> Judged<()> {
        let count = reader.byte()? as usize;
        demand(count <= MOST_VARIABLES, refusal::VARIABLE_RECORD)?;
        let mut in_shared = Places::<{ SHARED_SIZE / 64 }>::NONE;
        let mut in_data = [Places::<{ MOST_DATA / 64 }>::NONE; MOST_CORES];
        let mut overlap = false;
        for _ in 0..count {
            let record = reader.bytes(12)?;
            let (shared, width, attribute) = (word(record, 0), record[2], record[3]);
            let named = judge_attribute(attribute, self.count)?;
            demand(matches!(width, 1 | 2 | 4 | 8), refusal::VARIABLE_RECORD)?;
            demand(shared as usize + width as usize <= SHARED_SIZE, refusal::VARIABLE_RECORD)?;
            for (k, task) in self.tasks.iter_mut().enumerate() {
                let local = word(record, 4 + 2 * k);
                if named >> k & 1 == 0 {
                    demand(local == 0, refusal::VARIABLE_RECORD)?;
                    continue;
                }
                demand(local as usize + width as usize <= task.data_size, refusal::VARIABLE_RECORD)?;
                demand(local as usize >= task.input_size, refusal::VARIABLE_RECORD)?;
                overlap |= in_data[k].claim(local as usize, width as usize);
                let moves = if attribute >> k & 1 == 1 { &mut task.writes } else { &mut task.reads };
                moves.push(Move { shared, local, width });
            }
            overlap |= in_shared.claim(shared as usize, width as usize);
        }
        demand(!overlap, refusal::OVERLAP)
    }

    /// The fresh memories: zeros and the start values; in shared memory, what each writer has of its variables.
    fn fill(&self, buffer: &mut [u8], shared: &mut [u8]) {
        buffer.fill(0);
        shared.fill(0);
        let mut rest = buffer;
        for task in &self.tasks[..self.count] {
            let (data, after) = rest.split_at_mut(task.data_size);
            for value in task.values.chunks_exact(3) {
                data[word(value, 0) as usize] = value[2];
            }
            for write in &task.writes.list[..task.writes.count] {
                let width = write.width as usize;
                shared[write.shared as usize..][..width].copy_from_slice(&data[write.local as usize..][..width]);
            }
            rest = after;
        }
    }

    fn data_total(&self) -> usize {
        self.tasks[..self.count].iter().map(|task| task.data_size).sum()
    }
}

fn load_core(profile: Profile, reader: &mut Reader, task: &mut Task) -> Judged<()> {
    let record = reader.bytes(6)?;
    task.data_size = word(record, 0) as usize;
    task.input_size = word(record, 2) as usize;
    task.limit = word(record, 4);
    let most = if profile == Profile::Small { SMALL_DATA } else { MOST_DATA };
    demand((1..=most).contains(&task.data_size), refusal::CORE_RECORD)?;
    demand(task.input_size <= task.data_size, refusal::CORE_RECORD)?;
    demand(task.limit >= 1, refusal::CORE_RECORD)
}

/// A count, then so many start values; each place lies in the data and above the one before.
fn load_values<'f>(reader: &mut Reader<'f>, data_size: usize) -> Judged<&'f [u8]> {
    let count = word(reader.bytes(2)?, 0) as usize;
    let all = reader.0;
    let mut before = None;
    for _ in 0..count {
        let place = word(reader.bytes(3)?, 0);
        demand((place as usize) < data_size, refusal::START_PLACE)?;
        demand(before.is_none_or(|before| before < place), refusal::START_PLACE)?;
        before = Some(place);
    }
    Ok(&all[..3 * count])
}

/// The cores that a sound attribute byte names, bit k for core k.
fn judge_attribute(attribute: u8, cores: usize) -> Judged<u8> {
    let (writers, readers) = (attribute & 15, attribute >> 4);
    let named = writers | readers;
    demand(writers.count_ones() == 1, refusal::VARIABLE_RECORD)?;
    demand(writers & readers == 0, refusal::VARIABLE_RECORD)?;
    demand(named >> cores == 0, refusal::VARIABLE_RECORD)?;
    Ok(named)
}

/// All instructions first (6, and right after it 27 by the profile), then targets and the last instruction (7).
fn judge_code(profile: Profile, code: &[u8], starts: &mut CodePlaces) -> Judged<()> {
    let mut targets = CodePlaces::NONE;
    let mut outside = false;
    let mut target = |place: u16| {
        if (place as usize) < code.len() {
            targets.add(place as usize);
        } else {
            outside = true;
        }
    };
    let (mut at, mut last) = (0, RETURN);
    while at < code.len() {
        last = code[at];
        let mut length = LENGTHS[last as usize] as usize;
        demand(length != 0, refusal::CODE)?;
        let instruction = code.get(at..at + length).ok_or(refusal::CODE)?;
        match last {
            JMP | CALF => target(word(instruction, 1)),
            JZ | JNZ | CALB => target(word(instruction, 3)),
            MCD => {
                let count = instruction[3];
                demand((1..=8).contains(&count), refusal::CODE)?;
                length += count as usize;
                demand(at + length <= code.len(), refusal::CODE)?;
            }
            AURD | AUWD => {
                demand(matches!(instruction[7], 1 | 2 | 4 | 8), refusal::CODE)?;
                demand((1..=MOST_ELEMENTS).contains(&word(instruction, 8)), refusal::CODE)?;
            }
            ADD..=NE => demand(takes_type(last, instruction[1]), refusal::CODE)?,
            PACK | UNPACK => demand(matches!(instruction[1], BYTE | WORD | DWORD | LWORD), refusal::CODE)?,
            CONVERT => demand(instruction[1..3].iter().all(|kind| (SINT..=LREAL).contains(kind)), refusal::CODE)?,
            _ => {}
        }
        if profile == Profile::Small {
            demand(!types_named(instruction).iter().any(|kind| (LINT..=LREAL).contains(kind)), refusal::WIDE_TYPE)?;
        }
        starts.add(at);
        at += length;
    }
    let sound = targets.0.iter().zip(&starts.0).all(|(targets, starts)| targets & !starts == 0);
    demand(sound && !outside && matches!(last, RETURN | JMP), refusal::TARGET)
}

// ---- the trace

/// The input records of one core.
#[derive(Clone, Copy, Default)]
struct Inputs<'t> {
    count: u16,
    record_size: usize,
    records: &'t [u8],
}

const TIME_SIZE: usize = 4;

/// The record that a trace of no bytes means, for a core with as many inputs as data.
static BLANK_RECORD: [u8; TIME_SIZE + MOST_DATA] = [0; TIME_SIZE + MOST_DATA];

fn load_trace<'t>(set: &TaskSet, trace: &'t [u8]) -> Judged<[Inputs<'t>; MOST_CORES]> {
    let mut reader = Reader(trace);
    let mut inputs = [Inputs::default(); MOST_CORES];
    if trace.is_empty() {
        for (task, input) in set.tasks[..set.count].iter().zip(&mut inputs) {
            let record_size = TIME_SIZE + task.input_size;
            *input = Inputs { count: 1, record_size, records: &BLANK_RECORD[..record_size] };
        }
        return Ok(inputs);
    }
    for (task, input) in set.tasks[..set.count].iter().zip(&mut inputs) {
        input.count = word(reader.bytes(2).map_err(|_| refusal::TRACE)?, 0);
        input.record_size = TIME_SIZE + task.input_size;
        input.records = reader.bytes(input.count as usize * input.record_size).map_err(|_| refusal::TRACE)?;
    }
    demand(reader.0.is_empty(), refusal::TRACE)?;
    Ok(inputs)
}

// ---- fitness of a state

fn judge_state(set: &TaskSet, inputs: &[Inputs; MOST_CORES], table: &[Core], semaphore: &Semaphore) -> Judged<()> {
    demand(table.len() == set.count, refusal::UNFIT)?;
    // Document 01's two rules on exchanging cores in one: the holder is the only core in mode 1 or 4, and there is none where it is free.
    let mut exchanging = FREE;
    for (k, core) in table.iter().enumerate() {
        demand(core_fits(&set.tasks[k], inputs[k].count, core), refusal::UNFIT)?;
        if matches!(core.registers.mode, mode::READING | mode::WRITING) {
            demand(exchanging == FREE, refusal::UNFIT)?;
            exchanging = k as u8 + 1;
        }
    }
    demand(semaphore.holder == exchanging, refusal::UNFIT)?;
    judge_line(inputs, table, semaphore)
}

/// The line names no core twice, none from n on, none in another mode than 0 or 3, and none out of records.
fn judge_line(inputs: &[Inputs; MOST_CORES], table: &[Core], semaphore: &Semaphore) -> Judged<()> {
    demand(semaphore.waiting as usize <= MOST_CORES, refusal::UNFIT)?;
    let mut named = [false; MOST_CORES];
    for &core in semaphore.in_line() {
        let k = core as usize;
        let r = table.get(k).ok_or(refusal::UNFIT)?.registers;
        demand(!named[k], refusal::UNFIT)?;
        named[k] = true;
        demand(matches!(r.mode, mode::AWAITS_READING | mode::AWAITS_WRITING) && r.cycles < inputs[k].count, refusal::UNFIT)?;
    }
    Ok(())
}

fn core_fits(task: &Task, records: u16, core: &Core) -> bool {
    let r = &core.registers;
    let depth = r.depth as usize;
    let most_exchanged = match r.mode {
        mode::READING => task.reads.bytes,
        mode::WRITING => task.writes.bytes,
        _ => 0,
    };
    let cycles_fit = match r.mode {
        mode::READING..=mode::WRITING => r.cycles < records,
        _ => r.cycles <= records,
    };
    r.mode <= mode::STOPPED
        && depth <= CALL_DEPTH
        && (depth == 0 || matches!(r.mode, mode::EXECUTING | mode::STOPPED))
        && task.starts.has(r.counter as usize)
        && (r.offset as usize) < task.data_size
        && r.count <= task.limit
        && r.exchange <= most_exchanged
        && cycles_fit
        && r.flags & flag::UNUSED == 0
        && core.places[..depth].iter().all(|&place| task.starts.has(place as usize))
        && core.offsets[..depth].iter().all(|&offset| (offset as usize) < task.data_size)
        && core.places[depth..].iter().chain(&core.offsets[depth..]).all(|&entry| entry == 0)
}

// ---- values in the data

/// A value of one type as it stands in the data.
trait Value: Copy {
    const WIDTH: usize;
    fn of(bytes: &[u8]) -> Self;
    fn put(self, bytes: &mut [u8]);
}

macro_rules! value {
    ($($type:ty, |$value:ident| $stored:expr;)*) => {$(
        impl Value for $type {
            const WIDTH: usize = size_of::<$type>();
            #[inline(always)]
            fn of(bytes: &[u8]) -> Self {
                let mut own = [0; size_of::<$type>()];
                own.copy_from_slice(bytes);
                Self::from_le_bytes(own)
            }
            #[inline(always)]
            fn put(self, bytes: &mut [u8]) {
                let $value = self;
                bytes.copy_from_slice(&$stored.to_le_bytes());
            }
        }
    )*};
}

value! {
    i8, |v| v; u8, |v| v; i16, |v| v; u16, |v| v; i32, |v| v; u32, |v| v; i64, |v| v; u64, |v| v;
    // One stored form for every NaN result.
    f32, |v| if v.is_nan() { f32::from_bits(0x7FC0_0000) } else { v };
    f64, |v| if v.is_nan() { f64::from_bits(0x7FF8_0000_0000_0000) } else { v };
}

impl Value for bool {
    const WIDTH: usize = 1;
    #[inline(always)]
    fn of(bytes: &[u8]) -> Self {
        bytes[0] != 0
    }
    #[inline(always)]
    fn put(self, bytes: &mut [u8]) {
        bytes[0] = self as u8;
    }
}

/// A fault bit.
type Fault = u8;

#[inline(always)]
fn stretch(data: &[u8], place: usize, width: usize) -> Result<&[u8], Fault> {
    data.get(place..place + width).ok_or(flag::BEYOND_DATA)
}

#[inline(always)]
fn stretch_mut(data: &mut [u8], place: usize, width: usize) -> Result<&mut [u8], Fault> {
    data.get_mut(place..place + width).ok_or(flag::BEYOND_DATA)
}

/// The place of an address: from the data offset on, or absolute.
#[inline(always)]
fn resolve(offset: u16, address: u16) -> usize {
    let base = if address < ABSOLUTE { offset } else { 0 };
    base as usize + (address % ABSOLUTE) as usize
}

// ---- one instruction

/// Destination and sources of a typed command, as places.
struct Operands {
    to: usize,
    a: usize,
    b: usize,
}

/// Every address is tested before the command can fail otherwise; `None` is a zero divisor of DIV.
#[inline(always)]
fn apply<A: Value, B: Value, R: Value>(data: &mut [u8], operands: &Operands, result: impl FnOnce(A, B) -> Option<R>) -> Result<(), Fault> {
    let a = A::of(stretch(data, operands.a, A::WIDTH)?);
    let b = B::of(stretch(data, operands.b, B::WIDTH)?);
    let to = stretch_mut(data, operands.to, R::WIDTH)?;
    result(a, b).ok_or(flag::ZERO_DIVISOR)?.put(to);
    Ok(())
}

/// One arm for each listed type, with `$T` standing for it.
macro_rules! by_type {
    ($kind:expr, $T:ident: [$($number:ident $type:ty),*], $body:expr) => {
        match $kind {
            $($number => { type $T = $type; $body })*
            _ => unreachable!("the loader admits no other type"),
        }
    };
}

macro_rules! wholes {
    ($kind:expr, $T:ident, $body:expr) => {
        by_type!($kind, $T: [SINT i8, BYTE u8, INT i16, WORD u16, DINT i32, DWORD u32, LINT i64, LWORD u64, TIME i32], $body)
    };
}

macro_rules! floats_or_wholes {
    ($kind:expr, $T:ident, $float:expr, $whole:expr) => {
        match $kind {
            REAL => {
                type $T = f32;
                $float
            }
            LREAL => {
                type $T = f64;
                $float
            }
            _ => wholes!($kind, $T, $whole),
        }
    };
}

macro_rules! logic {
    ($kind:expr, $T:ident, $body:expr) => {
        by_type!($kind, $T: [BOOL bool, BYTE u8, WORD u16, DWORD u32, LWORD u64], $body)
    };
}

macro_rules! shifts {
    ($kind:expr, $T:ident, $body:expr) => {
        by_type!($kind, $T: [BYTE u8, WORD u16, DWORD u32, LWORD u64], $body)
    };
}

macro_rules! compares {
    ($kind:expr, $T:ident, $body:expr) => {
        match $kind {
            BOOL => {
                type $T = bool;
                $body
            }
            _ => floats_or_wholes!($kind, $T, $body, $body),
        }
    };
}

// One text serves every type, BOOL too, where false is below true.
#[allow(clippy::bool_comparison)]
#[inline(always)]
fn typed(code: u8, kind: u8, data: &mut [u8], o: &Operands) -> Result<(), Fault> {
    match code {
        ADD => floats_or_wholes!(kind, T, apply(data, o, |a: T, b: T| Some(a + b)), apply(data, o, |a: T, b: T| Some(a.wrapping_add(b)))),
        SUB => floats_or_wholes!(kind, T, apply(data, o, |a: T, b: T| Some(a - b)), apply(data, o, |a: T, b: T| Some(a.wrapping_sub(b)))),
        MUL => floats_or_wholes!(kind, T, apply(data, o, |a: T, b: T| Some(a * b)), apply(data, o, |a: T, b: T| Some(a.wrapping_mul(b)))),
        DIV => floats_or_wholes!(
            kind,
            T,
            apply(data, o, |a: T, b: T| Some(a / b)),
            apply(data, o, |a: T, b: T| if b == 0 { None } else { Some(a.wrapping_div(b)) })
        ),
        // Document 02, 2.1: by zero it is 0.
        MOD => wholes!(kind, T, apply(data, o, |a: T, b: T| Some(if b == 0 { 0 } else { a.wrapping_rem(b) }))),
        AND => logic!(kind, T, apply(data, o, |a: T, b: T| Some(a & b))),
        OR => logic!(kind, T, apply(data, o, |a: T, b: T| Some(a | b))),
        XOR => logic!(kind, T, apply(data, o, |a: T, b: T| Some(a ^ b))),
        NOT => logic!(kind, T, apply(data, o, |a: T, _: T| Some(!a))),
        SHL => shifts!(kind, T, apply(data, o, |a: T, by: u8| Some(a.checked_shl(by as u32).unwrap_or(0)))),
        SHR => shifts!(kind, T, apply(data, o, |a: T, by: u8| Some(a.checked_shr(by as u32).unwrap_or(0)))),
        ROL => shifts!(kind, T, apply(data, o, |a: T, by: u8| Some(a.rotate_left(by as u32)))),
        ROR => shifts!(kind, T, apply(data, o, |a: T, by: u8| Some(a.rotate_right(by as u32)))),
        GT => compares!(kind, T, apply(data, o, |a: T, b: T| Some(a > b))),
        GE => compares!(kind, T, apply(data, o, |a: T, b: T| Some(a >= b))),
        EQ => compares!(kind, T, apply(data, o, |a: T, b: T| Some(a == b))),
        LE => compares!(kind, T, apply(data, o, |a: T, b: T| Some(a <= b))),
        LT => compares!(kind, T, apply(data, o, |a: T, b: T| Some(a < b))),
        NE => compares!(kind, T, apply(data, o, |a: T, b: T| Some(a != b))),
        _ => unreachable!("the loader admits no other code"),
    }
}

/// A number on its way from one type to another: a whole number of any type, or a float, which an LREAL holds exactly.
#[derive(Clone, Copy)]
enum Number {
    Whole(i128),
    Float(f64),
}

impl Number {
    fn of(kind: u8, bytes: &[u8]) -> Number {
        match kind {
            REAL => Number::Float(f32::of(bytes) as f64),
            LREAL => Number::Float(f64::of(bytes)),
            _ => wholes!(kind, T, Number::Whole(T::of(bytes) as i128)),
        }
    }

    /// The nearest whole number, ties to even; none of NaN, an infinity or what lies far beyond every type.
    fn whole(self) -> Option<i128> {
        match self {
            Number::Whole(number) => Some(number),
            Number::Float(number) if number.abs() < 1e30 => Some(number.round_ties_even() as i128),
            Number::Float(_) => None,
        }
    }

    /// Stores it as one of the type; tells whether the type can hold it.
    fn put(self, kind: u8, bytes: &mut [u8]) -> bool {
        match (kind, self) {
            (REAL, Number::Whole(number)) => (number as f32).put(bytes),
            (REAL, Number::Float(number)) => (number as f32).put(bytes),
            (LREAL, Number::Whole(number)) => (number as f64).put(bytes),
            (LREAL, Number::Float(number)) => number.put(bytes),
            _ => {
                return wholes!(
                    kind,
                    T,
                    match self.whole().map(T::try_from) {
                        Some(Ok(number)) => {
                            number.put(bytes);
                            true
                        }
                        _ => false,
                    }
                )
            }
        }
        true
    }
}

/// Code 43 (document 02, 2.3): both addresses first, then whether the destination can hold the result.
#[inline(always)]
fn convert(from: u8, to: u8, data: &mut [u8], destination: usize, source: usize) -> Result<(), Fault> {
    let number = Number::of(from, stretch(data, source, WIDTHS[from as usize] as usize)?);
    let place = stretch_mut(data, destination, WIDTHS[to as usize] as usize)?;
    if number.put(to, place) {
        Ok(())
    } else {
        Err(flag::NOT_HELD)
    }
}

/// Codes 44 and 45 (document 02, 2.8): digits are read in one base and written in the other, the last one first.
#[inline(always)]
fn digits(pack: bool, kind: u8, data: &mut [u8], destination: usize, source: usize) -> Result<(), Fault> {
    let width = WIDTHS[kind as usize] as usize;
    let mut own = [0; 8];
    own[..width].copy_from_slice(stretch(data, source, width)?);
    let place = stretch_mut(data, destination, width)?;
    let (base, other) = if pack { (10, 16) } else { (16, 10) };
    let (mut rest, mut weight, mut number) = (u64::from_le_bytes(own), 1, 0);
    for _ in 0..2 * width {
        let digit = rest % base;
        if digit > 9 {
            return Err(flag::NOT_HELD);
        }
        rest /= base;
        number += digit as u128 * weight;
        weight *= other;
    }
    if rest != 0 {
        return Err(flag::NOT_HELD);
    }
    place.copy_from_slice(&(number as u64).to_le_bytes()[..width]);
    Ok(())
}

/// AURD and AUWD: variable and index, then the index's range, then the chosen element.
#[inline(always)]
fn element(reads: bool, instruction: &[u8; 10], offset: u16, data: &mut [u8]) -> Result<(), Fault> {
    let size = instruction[7] as usize;
    let variable = resolve(offset, word(instruction, 1));
    stretch(data, variable, size)?;
    let index = i16::of(stretch(data, resolve(offset, word(instruction, 5)), 2)?);
    if index < 0 || index as u16 >= word(instruction, 8) {
        return Err(flag::ARRAY_INDEX);
    }
    let chosen = resolve(offset, word(instruction, 3)) + index as usize * size;
    let (to, from) = if reads { (variable, chosen) } else { (chosen, variable) };
    stretch(data, chosen, size)?;
    match size {
        1 => copy::<1>(data, to, from),
        2 => copy::<2>(data, to, from),
        4 => copy::<4>(data, to, from),
        _ => copy::<8>(data, to, from),
    }
}

/// Copies a stretch of a fixed width; the source is read whole before the destination is written.
#[inline(always)]
fn copy<const WIDTH: usize>(data: &mut [u8], to: usize, from: usize) -> Result<(), Fault> {
    let mut own = [0; WIDTH];
    own.copy_from_slice(stretch(data, from, WIDTH)?);
    stretch_mut(data, to, WIDTH)?.copy_from_slice(&own);
    Ok(())
}

/// The LENGTH bytes of an instruction, with one test for all its operands.
#[inline(always)]
fn instruction<const LENGTH: usize>(code: &[u8], counter: u16) -> &[u8; LENGTH] {
    code[counter as usize..].first_chunk().expect("instructions are whole")
}

/// Does one instruction; answers the next program counter or the fault. On a fault nothing has changed.
#[inline(always)]
fn execute(code: &[u8], core: &mut Core, data: &mut [u8]) -> Result<u16, Fault> {
    let r = &mut core.registers;
    let (counter, offset) = (r.counter, r.offset);
    match code[counter as usize] {
        ADD..=NE => execute_typed(code, counter, offset, data),
        RETURN if r.depth == 0 => {
            r.mode = mode::AWAITS_WRITING;
            Ok(counter)
        }
        RETURN => {
            r.depth -= 1;
            let top = r.depth as usize;
            r.offset = std::mem::take(&mut core.offsets[top]);
            Ok(std::mem::take(&mut core.places[top]))
        }
        JMP => Ok(word(instruction::<3>(code, counter), 1)),
        jump @ (JZ | JNZ) => {
            let i = instruction::<5>(code, counter);
            let zero = stretch(data, resolve(offset, word(i, 1)), 1)?[0] == 0;
            Ok(if zero == (jump == JZ) { word(i, 3) } else { counter + 5 })
        }
        CALB => {
            let i = instruction::<5>(code, counter);
            let instance = resolve(offset, word(i, 1));
            call(core, counter + 5, word(i, 3), instance, data.len())
        }
        CALF => call(core, counter + 3, word(instruction::<3>(code, counter), 1), offset as usize, data.len()),
        MCD => {
            let i = instruction::<4>(code, counter);
            let (start, count) = (counter as usize + 4, i[3] as usize);
            stretch_mut(data, resolve(offset, word(i, 1)), count)?.copy_from_slice(&code[start..start + count]);
            Ok((start + count) as u16)
        }
        MEMCP => {
            let i = instruction::<7>(code, counter);
            let (to, from, count) = (resolve(offset, word(i, 1)), resolve(offset, word(i, 3)), word(i, 5) as usize);
            stretch(data, from, count)?;
            stretch(data, to, count)?;
            data.copy_within(from..from + count, to);
            Ok(counter + 7)
        }
        access @ (AURD | AUWD) => {
            element(access == AURD, instruction(code, counter), offset, data)?;
            Ok(counter + 10)
        }
        CYCLE_TIME => {
            let i = instruction::<3>(code, counter);
            r.time.put(stretch_mut(data, resolve(offset, word(i, 1)), u32::WIDTH)?);
            Ok(counter + 3)
        }
        FLAG_BYTE => {
            let i = instruction::<3>(code, counter);
            r.flags.put(stretch_mut(data, resolve(offset, word(i, 1)), u8::WIDTH)?);
            Ok(counter + 3)
        }
        CONVERT => {
            let i = instruction::<7>(code, counter);
            convert(i[1], i[2], data, resolve(offset, word(i, 3)), resolve(offset, word(i, 5)))?;
            Ok(counter + 7)
        }
        way @ (PACK | UNPACK) => {
            let i = instruction::<6>(code, counter);
            digits(way == PACK, i[1], data, resolve(offset, word(i, 2)), resolve(offset, word(i, 4)))?;
            Ok(counter + 6)
        }
        _ => unreachable!("the loader admits no other code"),
    }
}

/// A typed command. Its operands are read as one number, which takes one access of the code.
#[inline(always)]
fn execute_typed(code: &[u8], counter: u16, offset: u16, data: &mut [u8]) -> Result<u16, Fault> {
    let head = u32::from_le_bytes(*instruction(code, counter));
    let (command, kind, to) = (head as u8, (head >> 8) as u8, (head >> 16) as u16);
    if command == NOT {
        let a = resolve(offset, word(instruction::<6>(code, counter), 4));
        typed(NOT, kind, data, &Operands { to: resolve(offset, to), a, b: a })?;
        return Ok(counter + 6);
    }
    let sources = (u64::from_le_bytes(*instruction(code, counter)) >> 32) as u32;
    let (a, b) = (resolve(offset, sources as u16), resolve(offset, (sources >> 16) as u16));
    typed(command, kind, data, &Operands { to: resolve(offset, to), a, b })?;
    Ok(counter + 8)
}

/// One instruction, with its count and its limit.
#[inline(always)]
fn execute_counted(task: &Task, core: &mut Core, data: &mut [u8]) {
    let executed = if core.registers.count == task.limit { Err(flag::INSTRUCTION_LIMIT) } else { execute(task.code, core, data) };
    match executed {
        Ok(counter) => {
            core.registers.counter = counter;
            core.registers.count += 1;
        }
        Err(fault) => {
            core.registers.flags |= fault;
            core.registers.mode = mode::STOPPED;
        }
    }
}

#[inline(always)]
fn call(core: &mut Core, back: u16, target: u16, instance: usize, data_size: usize) -> Result<u16, Fault> {
    let r = &mut core.registers;
    let depth = r.depth as usize;
    if depth == CALL_DEPTH {
        return Err(flag::NESTED_CALL);
    }
    if instance >= data_size {
        return Err(flag::BEYOND_DATA);
    }
    core.places[depth] = back;
    core.offsets[depth] = r.offset;
    r.depth += 1;
    r.offset = instance as u16;
    Ok(target)
}

// ---- one step

/// Where the exchange under way stands. One serves all cores, since only the semaphore's holder exchanges.
#[derive(Default)]
struct Cursor {
    variable: usize,
    byte: usize,
}

impl Cursor {
    /// The place after `exchanged` bytes.
    fn after(moves: &Moves, mut exchanged: usize) -> Cursor {
        let mut variable = 0;
        while variable < moves.count && exchanged >= moves.list[variable].width as usize {
            exchanged -= moves.list[variable].width as usize;
            variable += 1;
        }
        Cursor { variable, byte: exchanged }
    }

    /// Local and shared place of the next byte, if one is left, and one byte on.
    #[inline(always)]
    fn next(&mut self, moves: &Moves) -> Option<(usize, usize)> {
        let step = moves.list[..moves.count].get(self.variable)?;
        let places = (step.local as usize + self.byte, step.shared as usize + self.byte);
        self.byte += 1;
        if self.byte == step.width as usize {
            self.variable += 1;
            self.byte = 0;
        }
        Some(places)
    }

    fn at_end(&self, moves: &Moves) -> bool {
        self.variable == moves.count
    }
}

/// A judged machine on the memory that the caller lent.
struct Running<'a> {
    set: &'a TaskSet<'a>,
    inputs: &'a [Inputs<'a>; MOST_CORES],
    table: &'a mut [Core],
    semaphore: Semaphore,
    data: [&'a mut [u8]; MOST_CORES],
    shared: &'a mut [u8; SHARED_SIZE],
    cursor: Cursor,
}

impl Running<'_> {
    /// One step of core k; the order list's byte where it is a taking.
    #[inline(always)]
    fn step(&mut self, k: usize) -> Option<u8> {
        let task = &self.set.tasks[k];
        let core = &mut self.table[k];
        let data = &mut *self.data[k];
        let r = &mut core.registers;
        match r.mode {
            mode::EXECUTING => {
                execute_counted(task, core, data);
                None
            }
            mode::READING => {
                if let Some((local, shared)) = self.cursor.next(&task.reads) {
                    data[local] = self.shared[shared];
                    r.exchange += 1;
                }
                if self.cursor.at_end(&task.reads) {
                    self.semaphore.holder = FREE;
                    *r = Registers { mode: mode::EXECUTING, counter: 0, offset: 0, depth: 0, count: 0, exchange: 0, ..*r };
                }
                None
            }
            mode::WRITING => {
                if let Some((local, shared)) = self.cursor.next(&task.writes) {
                    self.shared[shared] = data[local];
                    r.exchange += 1;
                }
                if self.cursor.at_end(&task.writes) {
                    self.semaphore.holder = FREE;
                    r.exchange = 0;
                    r.cycles += 1;
                    r.flags &= !flag::COLD_START;
                    r.mode = mode::AWAITS_READING;
                }
                None
            }
            mode::AWAITS_READING => {
                let inputs = &self.inputs[k];
                if r.cycles == inputs.count || !obtain(&mut self.semaphore, k as u8) {
                    return None;
                }
                let record = &inputs.records[r.cycles as usize * inputs.record_size..][..inputs.record_size];
                r.time = u32::of(&record[..TIME_SIZE]);
                data[..task.input_size].copy_from_slice(&record[TIME_SIZE..]);
                r.mode = mode::READING;
                r.exchange = 0;
                self.cursor = Cursor::default();
                Some(k as u8)
            }
            mode::AWAITS_WRITING => {
                if !obtain(&mut self.semaphore, k as u8) {
                    return None;
                }
                r.mode = mode::WRITING;
                r.exchange = 0;
                self.cursor = Cursor::default();
                Some(k as u8 + WRITING_MARK)
            }
            _ => None,
        }
    }
}

/// Core k takes the semaphore, or waits for it: tells which. It takes it where it is free and nobody stands before k, and leaves the line by
/// that; else it joins the line at its end, unless it stands there.
#[inline(always)]
fn obtain(semaphore: &mut Semaphore, k: u8) -> bool {
    let waiting = semaphore.waiting as usize;
    let place = semaphore.line[..waiting].iter().position(|&core| core == k);
    let before = place.unwrap_or(waiting);
    if semaphore.holder == FREE && before == 0 {
        if place.is_some() {
            semaphore.line.copy_within(1.., 0);
            semaphore.line[MOST_CORES - 1] = 0;
            semaphore.waiting -= 1;
        }
        semaphore.holder = k + 1;
        return true;
    }
    if place.is_none() {
        semaphore.line[waiting] = k;
        semaphore.waiting += 1;
    }
    false
}

/// Whether a step of core k would change something.
fn would_move(k: u8, core: &Core, records: u16, semaphore: &Semaphore) -> bool {
    match core.registers.mode {
        mode::AWAITS_READING if core.registers.cycles == records => false,
        // It joins unless it stands in line; there it takes only as the first, where the semaphore is free.
        mode::AWAITS_READING | mode::AWAITS_WRITING => match semaphore.in_line().iter().position(|&core| core == k) {
            None => true,
            Some(place) => place == 0 && semaphore.holder == FREE,
        },
        mode::STOPPED => false,
        // A reading or writing core copies or releases, an executing one counts or faults.
        _ => true,
    }
}

// ---- the calls: each judges file, sizes (21), trace (22), state (23), cores (20), and changes nothing where it refuses

fn number(judged: Judged<()>) -> u8 {
    judged.err().unwrap_or(refusal::NONE)
}

pub fn check_file(file: &[u8]) -> u8 {
    check_file_for(Profile::Full, file)
}

pub fn check_file_for(profile: Profile, file: &[u8]) -> u8 {
    number(TaskSet::load_for(profile, file).map(|_| ()))
}

pub fn check_trace(file: &[u8], trace: &[u8]) -> u8 {
    number(TaskSet::load(file).and_then(|set| load_trace(&set, trace).map(|_| ())))
}

pub fn check_state(file: &[u8], trace: &[u8], table: &[Core], semaphore: &Semaphore) -> u8 {
    number(TaskSet::load(file).and_then(|set| judge_state(&set, &load_trace(&set, trace)?, table, semaphore)))
}

fn judge_sizes(set: &TaskSet, buffer: &[u8], shared: &[u8]) -> Judged<()> {
    demand(buffer.len() == set.data_total() && shared.len() == SHARED_SIZE, refusal::SIZES)
}

/// Makes the fresh state in the first n records of the table, which may be longer.
pub fn fresh(file: &[u8], table: &mut [Core], semaphore: &mut Semaphore, buffer: &mut [u8], shared: &mut [u8]) -> u8 {
    fresh_for(Profile::Full, file, table, semaphore, buffer, shared)
}

/// The same under a profile.
pub fn fresh_for(profile: Profile, file: &[u8], table: &mut [Core], semaphore: &mut Semaphore, buffer: &mut [u8], shared: &mut [u8]) -> u8 {
    number(TaskSet::load_for(profile, file).and_then(|set| {
        judge_sizes(&set, buffer, shared)?;
        table.get_mut(..set.count).ok_or(refusal::SIZES)?.fill(Core::fresh());
        *semaphore = Semaphore::default();
        set.fill(buffer, shared);
        Ok(())
    }))
}

/// Runs the order; `taken` becomes the number of takings, each of which has its byte in the order list.
#[allow(clippy::too_many_arguments)]
pub fn run(
    file: &[u8],
    trace: &[u8],
    table: &mut [Core],
    semaphore: &mut Semaphore,
    buffer: &mut [u8],
    shared: &mut [u8],
    order: &[u8],
    list: &mut [u8],
    taken: &mut usize,
) -> u8 {
    number(TaskSet::load(file).and_then(|set| {
        judge_sizes(&set, buffer, shared)?;
        demand(list.len() >= order.len(), refusal::SIZES)?;
        let inputs = load_trace(&set, trace)?;
        judge_state(&set, &inputs, table, semaphore)?;
        demand(order.iter().all(|&core| (core as usize) < set.count), refusal::NO_SUCH_CORE)?;
        clear_spare(table);
        clear_past(semaphore);
        let mut running = start(&set, &inputs, table, *semaphore, buffer, shared);
        let mut count = 0;
        for &core in order {
            if let Some(taking) = running.step(core as usize) {
                list[count] = taking;
                count += 1;
            }
        }
        *semaphore = running.semaphore;
        *taken = count;
        Ok(())
    }))
}

/// Zeros in the spare bytes of every record.
pub fn clear_spare(table: &mut [Core]) {
    for core in table {
        core.registers.spare = [0; SPARE];
    }
}

/// Zeros past the line.
pub fn clear_past(semaphore: &mut Semaphore) {
    let waiting = semaphore.in_line().len();
    semaphore.line[waiting..].fill(0);
}

/// What was judged, made ready to step: the buffer cut into the cores' data, the cursor set where the exchange under way stands.
fn start<'a>(
    set: &'a TaskSet<'a>,
    inputs: &'a [Inputs<'a>; MOST_CORES],
    table: &'a mut [Core],
    semaphore: Semaphore,
    buffer: &'a mut [u8],
    shared: &'a mut [u8],
) -> Running<'a> {
    let mut rest = buffer;
    let mut data: [&mut [u8]; MOST_CORES] = Default::default();
    for (task, own) in set.tasks[..set.count].iter().zip(&mut data) {
        (*own, rest) = rest.split_at_mut(task.data_size);
    }
    let mut cursor = Cursor::default();
    if semaphore.holder != FREE {
        let k = semaphore.holder as usize - 1;
        let r = &table[k].registers;
        let moves = if r.mode == mode::READING { &set.tasks[k].reads } else { &set.tasks[k].writes };
        cursor = Cursor::after(moves, r.exchange as usize);
    }
    let shared = shared.try_into().expect("the size was judged");
    Running { set, inputs, table, semaphore, data, shared, cursor }
}

/// One step of one core: a run of one step. `taken` becomes the order list's byte, or `None` where the step is no taking.
#[allow(clippy::too_many_arguments)]
pub fn step(
    file: &[u8],
    trace: &[u8],
    table: &mut [Core],
    semaphore: &mut Semaphore,
    buffer: &mut [u8],
    shared: &mut [u8],
    core: u8,
    taken: &mut Option<u8>,
) -> u8 {
    let (mut list, mut count) = ([0], 0);
    let number = run(file, trace, table, semaphore, buffer, shared, &[core], &mut list, &mut count);
    if number == refusal::NONE {
        *taken = list[..count].first().copied();
    }
    number
}

/// The first core after `core`, round the ring and that one last, whose step would change something.
pub fn next_core(file: &[u8], trace: &[u8], table: &[Core], semaphore: &Semaphore, core: u8) -> Result<Option<u8>, u8> {
    let set = TaskSet::load(file)?;
    let inputs = load_trace(&set, trace)?;
    judge_state(&set, &inputs, table, semaphore)?;
    demand((core as usize) < set.count, refusal::NO_SUCH_CORE)?;
    let ring = (1..=set.count).map(|on| (core as usize + on) % set.count);
    Ok(ring.filter(|&k| would_move(k as u8, &table[k], inputs[k].count, semaphore)).map(|k| k as u8).next())
}

// ---- the two forms of a file

/// A file of the old form in the new one, with a count of 0 for each core; the length that was written.
pub fn to_new(file: &[u8], out: &mut [u8]) -> Judged<usize> {
    demand(file.len() >= 4, refusal::FILE_END)?;
    demand(file[..4] == FILE_MARK, refusal::MARK)?;
    let set = TaskSet::load(file)?;
    let made = [&NEW_MARK, &file[4..], &[0; 2 * MOST_CORES][..2 * set.count]].concat();
    out.get_mut(..made.len()).ok_or(refusal::SIZES)?.copy_from_slice(&made);
    Ok(made.len())
}

/// A file of the new form without start values in the old one.
pub fn to_old(file: &[u8], out: &mut [u8]) -> Judged<usize> {
    demand(file.len() >= 4, refusal::FILE_END)?;
    demand(file[..4] == NEW_MARK, refusal::MARK)?;
    let set = TaskSet::load(file)?;
    demand(set.tasks.iter().all(|task| task.values.is_empty()), refusal::START_VALUES)?;
    let made = [&FILE_MARK, &file[4..file.len() - 2 * set.count]].concat();
    out.get_mut(..made.len()).ok_or(refusal::SIZES)?.copy_from_slice(&made);
    Ok(made.len())
}

// ---- the program `cores`

pub const LONGEST_TASK: usize = 82_800;
pub const LONGEST_TRACE: usize = 4096;
pub const LONGEST_ORDER: usize = 4096;

/// What `cores` prints for its three files; a missing file is an empty one.
pub fn cores(file: &[u8], trace: &[u8], order: &[u8]) -> String {
    if file.len() > LONGEST_TASK || trace.len() > LONGEST_TRACE || order.len() > LONGEST_ORDER {
        return "long\n".to_string();
    }
    listing(file, trace, order).unwrap_or_else(|number| format!("refused {number}\n"))
}

fn listing(file: &[u8], trace: &[u8], order: &[u8]) -> Judged<String> {
    let set = TaskSet::load(file)?;
    let mut table = vec![Core::fresh(); set.count];
    let (mut buffer, mut shared) = (vec![0; set.data_total()], [0; SHARED_SIZE]);
    set.fill(&mut buffer, &mut shared);
    let (mut list, mut taken) = (vec![0; order.len()], 0);
    let number = run(file, trace, &mut table, &mut Semaphore::default(), &mut buffer, &mut shared, order, &mut list, &mut taken);
    demand(number == refusal::NONE, number)?;
    let mut text = "core mode cycles flags count\n".to_string();
    for (k, Core { registers: r, .. }) in table.iter().enumerate() {
        text += &format!("{k} {} {} {} {}\n", r.mode, r.cycles, r.flags, r.count);
    }
    text += "order";
    for taking in &list[..taken] {
        let kind = if taking & WRITING_MARK == 0 { 'r' } else { 'w' };
        text += &format!(" {}{kind}", taking & !WRITING_MARK);
    }
    Ok(text + "\n")
}
