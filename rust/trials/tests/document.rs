//! Document 01's own examples, and the values at its open places: the listing, the samples of the refusals, the bench values, edges of
//! files, commands, steps and states. They run on the reference and on the proved machine.

use independent::draft::{Code, CoreRecord, Draft, Program, Variable};
use independent::interface::{Machine, Next, Reference};
use independent::reference::command::*;
use independent::reference::types::*;
use independent::reference::*;

fn machines() -> Vec<Box<dyn Machine>> {
    vec![Box::new(Reference), Box::new(trials::linked::Linked)]
}

// ---- the plant of a test: a file with its trace, and the memory that goes with it

#[derive(Clone, PartialEq, Debug)]
struct Plant {
    file: Vec<u8>,
    trace: Vec<u8>,
    table: Vec<Core>,
    semaphore: Semaphore,
    buffer: Vec<u8>,
    shared: Vec<u8>,
    list: Vec<u8>,
}

impl Plant {
    /// The fresh state, with `records` records of zeros for each core.
    fn fresh(machine: &dyn Machine, draft: &Draft, records: u16) -> Plant {
        let mut trace = Vec::new();
        for core in &draft.cores {
            trace.extend(records.to_le_bytes());
            trace.extend(vec![0; records as usize * (4 + core.input_size as usize)]);
        }
        let mut plant = Plant {
            file: draft.bytes(),
            trace,
            table: vec![
                Core { registers: Registers { spare: [9; SPARE], ..Registers::default() }, places: [9; 16], ..Core::default() };
                draft.cores.len()
            ],
            semaphore: Semaphore { holder: 3, waiting: 9, line: [7; 4] },
            buffer: vec![7; draft.data_total()],
            shared: vec![7; SHARED_SIZE],
            list: Vec::new(),
        };
        let number = machine.fresh(&plant.file, &mut plant.table, &mut plant.semaphore, &mut plant.buffer, &mut plant.shared);
        assert_eq!(number, 0);
        assert_eq!((&plant.table, plant.semaphore), (&vec![Core::fresh(); draft.cores.len()], Semaphore::default()));
        assert!(plant.buffer.iter().chain(&plant.shared).all(|&byte| byte == 0));
        plant
    }

    /// Runs the order and keeps the takings in `list`.
    fn run(&mut self, machine: &dyn Machine, order: &[u8]) -> u8 {
        let mut taken = 0;
        let mut list = vec![0; order.len()];
        let Plant { file, trace, table, semaphore, buffer, shared, .. } = self;
        let number = machine.run(file, trace, table, semaphore, buffer, shared, order, &mut list, &mut taken);
        self.list.extend(&list[..taken]);
        number
    }

    fn registers(&self) -> Registers {
        self.table[0].registers
    }

    /// A single core about to execute its first instruction, with these data.
    fn executing(machine: &dyn Machine, data: &[u8], program: Program) -> Plant {
        let draft = Draft::single(data.len() as u16, 0, 100, program);
        let mut plant = Plant::fresh(machine, &draft, 1);
        assert_eq!(plant.run(machine, &[0, 0]), 0);
        assert_eq!(plant.registers().mode, mode::EXECUTING);
        plant.buffer.copy_from_slice(data);
        plant
    }
}

/// The data after one typed command, with `a` at 0, `b` at 8 and the result at 16; or the fault's flags.
fn typed(machine: &dyn Machine, code: u8, kind: u8, a: &[u8], b: &[u8]) -> Result<[u8; 8], u8> {
    let mut data = [0; 24];
    data[..a.len()].copy_from_slice(a);
    data[8..8 + b.len()].copy_from_slice(b);
    let mut plant = Plant::executing(machine, &data, Program::new().typed(code, kind, 16, 0, 8).returns());
    assert_eq!(plant.run(machine, &[0]), 0);
    if plant.registers().mode == mode::STOPPED {
        Err(plant.registers().flags)
    } else {
        Ok(plant.buffer[16..24].try_into().unwrap())
    }
}

/// The result as a whole number without sign.
fn result(machine: &dyn Machine, code: u8, kind: u8, a: i64, b: i64) -> u64 {
    let width = WIDTHS[kind as usize] as usize;
    u64::from_le_bytes(typed(machine, code, kind, &a.to_le_bytes()[..width], &b.to_le_bytes()[..width]).unwrap())
}

// ---- the listing

const LISTED: [u8; 15] = [0x4D, 0x43, 0x53, 0x31, 1, 1, 0, 0, 0, 1, 0, 0, 1, 0, 0];
const LISTED_TRACE: [u8; 6] = [1, 0, 0, 0, 0, 0];

#[test]
fn listing_of_cores() {
    assert_eq!(cores(&LISTED, &LISTED_TRACE, &[0; 5]), "core mode cycles flags count\n0 0 1 0 1\norder 0r 0w\n");
    assert_eq!(cores(&LISTED, &LISTED_TRACE, &[0; 4]), "core mode cycles flags count\n0 4 0 4 1\norder 0r 0w\n");
    assert_eq!(cores(&LISTED, &LISTED_TRACE, &[]), "core mode cycles flags count\n0 0 0 4 0\norder\n");
    let program = Draft::single(1, 0, 1, Program::new().jump(0));
    assert_eq!(cores(&program.bytes(), &LISTED_TRACE, &[0; 9]), "core mode cycles flags count\n0 5 0 6 1\norder 0r\n");
}

/// Document 02, 2.6: a fitter's first cycle with no trace, and no second one; the input bytes of every core become 0, whatever stood there.
#[test]
fn a_trace_of_no_bytes() {
    assert_eq!(cores(&LISTED, &[], &[0; 9]), "core mode cycles flags count\n0 0 1 0 1\norder 0r 0w\n");
    for machine in machines() {
        let machine = &*machine;
        let mut draft = Draft::single(4, 3, 1, Program::new().returns());
        draft.core_count = 2;
        draft.cores.push(draft.cores[0].clone());
        draft.code.push(draft.code[0].clone());
        let mut plant = Plant { trace: Vec::new(), ..Plant::fresh(machine, &draft, 0) };
        plant.buffer.fill(7);
        plant.table[0].registers.time = 9;
        assert_eq!(plant.run(machine, &[0, 0, 1]), refusal::NONE);
        assert_eq!((plant.buffer.clone(), plant.table[0].registers.time), (vec![0, 0, 0, 7, 0, 0, 0, 7], 0));
        assert_eq!(plant.run(machine, &[0, 1].repeat(9)), refusal::NONE);
        assert_eq!((plant.table[0].registers.cycles, plant.table[1].registers.cycles), (1, 1));
        plant.table[1].registers.cycles = 2;
        assert_eq!(plant.run(machine, &[]), refusal::UNFIT);
    }
}

#[test]
fn refusals_of_cores() {
    assert_eq!(cores(&[], &LISTED_TRACE, &[]), "refused 1\n");
    assert_eq!(cores(&LISTED, &[0], &[1]), "refused 22\n");
    assert_eq!(cores(&LISTED, &[], &[1]), "refused 20\n");
    assert_eq!(cores(&LISTED, &LISTED_TRACE, &[0, 1]), "refused 20\n");
    assert_eq!(cores(&[0; LONGEST_TASK + 1], &[], &[]), "long\n");
    assert_eq!(cores(&[0; LONGEST_TASK], &[], &[]), "refused 2\n");
    assert_eq!(cores(&LISTED, &[0; LONGEST_TRACE + 1], &[]), "long\n");
    assert_eq!(cores(&LISTED, &LISTED_TRACE, &[0; LONGEST_ORDER + 1]), "long\n");
    assert!(cores(&LISTED, &LISTED_TRACE, &[0; LONGEST_ORDER]).starts_with("core mode"));
}

// ---- refusals

/// Two cores of 16 data bytes, 2 of them inputs; core 0 writes what core 1 reads.
fn two_cores(variables: Vec<Variable>) -> Draft {
    let core = CoreRecord { data_size: 16, input_size: 2, limit: 9 };
    Draft::new(vec![core.clone(), core], variables, vec![Program::new().returns().code(), Program::new().returns().code()])
}

fn variable(shared: u16, width: u8, writer_place: u16, reader_place: u16) -> Variable {
    Variable { shared, width, attribute: 0x21, local: [writer_place, reader_place, 0, 0] }
}

fn raw_code(bytes: &[u8]) -> Vec<u8> {
    let code = Code { length: bytes.len() as u16, bytes: bytes.to_vec(), starts: Vec::new() };
    Draft::new(vec![CoreRecord { data_size: 1, input_size: 0, limit: 1 }], Vec::new(), vec![code]).bytes()
}

#[test]
fn samples_of_refusals() {
    let mut two_writers = two_cores(vec![variable(0, 2, 2, 2)]);
    two_writers.variables[0].attribute = 0x03;
    let overlap = two_cores(vec![variable(0, 2, 2, 2), variable(1, 2, 4, 4)]);
    for machine in machines() {
        let check = |file: &[u8]| machine.check_file(file);
        assert_eq!(check(&LISTED), 0);
        assert_eq!(check(&[0x4D, 0x43, 0x53]), refusal::FILE_END);
        assert_eq!(check(&[0x4D, 0x43, 0x53, 0x33]), refusal::MARK);
        assert_eq!(check(&[0x4D, 0x43, 0x53, 0x31, 5]), refusal::CORE_RECORD);
        assert_eq!(check(&two_writers.bytes()), refusal::VARIABLE_RECORD);
        assert_eq!(check(&overlap.bytes()), refusal::OVERLAP);
        assert_eq!(check(&raw_code(&[0x63])), refusal::CODE);
        assert_eq!(check(&raw_code(&[JMP, 1, 0])), refusal::TARGET);
        assert_eq!(check(&[&LISTED[..], &[0]].concat()), refusal::LEFT_OVER);

        let machine = &*machine;
        let plant = Plant::fresh(machine, &Draft::single(1, 0, 1, Program::new().returns()), 1);
        assert_eq!(plant.clone().run(machine, &[1]), refusal::NO_SUCH_CORE);
        let short = Plant { shared: vec![0; 1023], ..plant.clone() };
        assert_eq!(short.clone().run(machine, &[0]), refusal::SIZES);
        let one_byte = Plant { trace: vec![0], ..plant.clone() };
        assert_eq!((check_trace(&plant.file, &plant.trace), check_trace(&plant.file, &[0])), (0, refusal::TRACE));
        assert_eq!(one_byte.clone().run(machine, &[0]), refusal::TRACE);
        let mut mode_6 = plant.clone();
        mode_6.table[0].registers.mode = 6;
        assert_eq!(mode_6.clone().run(machine, &[0]), refusal::UNFIT);
        assert_eq!(mode_6.clone().run(machine, &[]), refusal::UNFIT);

        // The order of judging: 21, 22, 23, 20.
        let mut all = Plant { shared: vec![0; 1023], trace: vec![0], ..mode_6 };
        assert_eq!(all.run(machine, &[1]), refusal::SIZES);
        all.shared = vec![0; SHARED_SIZE];
        assert_eq!(all.run(machine, &[1]), refusal::TRACE);
        all.trace = plant.trace.clone();
        assert_eq!(all.run(machine, &[1]), refusal::UNFIT);
        all.table = plant.table.clone();
        assert_eq!(all.run(machine, &[1]), refusal::NO_SUCH_CORE);
    }
}

#[test]
fn edges_of_the_file() {
    let sound = two_cores(vec![variable(0, 2, 2, 2), variable(2, 2, 4, 4), variable(1016, 8, 8, 8)]);
    let with = |change: fn(&mut Draft)| {
        let mut draft = sound.clone();
        change(&mut draft);
        draft.bytes()
    };
    let mark = |more: &[u8]| [&FILE_MARK[..], more].concat();
    let core_of = |data_size: u16, input_size: u16| Draft::single(data_size, input_size, 1, Program::new().returns()).bytes();
    for machine in machines() {
        let check = |file: &[u8]| machine.check_file(file);
        assert_eq!(check(&sound.bytes()), 0, "stretches that touch share no byte");
        assert_eq!(check(&[1, 2, 3]), 1, "fewer than four bytes");
        assert_eq!(check(&FILE_MARK), 1);
        assert_eq!(check(&mark(&[1, 0, 0, 0, 0])), 1, "a core's record is judged whole");
        assert_eq!(check(&mark(&[1, 0, 0, 0, 0, 1, 0])), 3);
        assert_eq!((check(&core_of(4096, 0)), check(&core_of(4097, 0))), (0, 3));
        assert_eq!((check(&core_of(9, 9)), check(&core_of(9, 10))), (0, 3));
        assert_eq!(check(&with(|draft| draft.variables[2].shared = 1017)), 4);
        assert_eq!(check(&with(|draft| draft.variables[2].local[1] = 9)), 4);
        assert_eq!(check(&with(|draft| draft.variables[1].local[0] = 1)), 4, "input bytes");
        assert_eq!(check(&with(|draft| draft.variables[1].local[2] = 1)), 4, "a core from n on");
        assert_eq!(check(&with(|draft| draft.variables[1].local[1] = 3)), 5, "in the reader's data alone");
        assert_eq!(
            check(&with(|draft| {
                draft.variables[1].shared = 1;
                draft.variables[2].width = 3;
            })),
            4,
            "a bad record wins over an overlap before it"
        );
        assert_eq!(
            check(&with(|draft| {
                draft.variables[0].width = 3;
                draft.variables.truncate(1);
                draft.code.clear();
            })),
            4,
            "a record is judged before the next one's presence"
        );
        assert_eq!(check(&with(|draft| draft.variables[0].attribute = 0x01)), 4, "a reader's place stays though it reads no more");
        assert_eq!(check(&with(|draft| draft.variables[0] = Variable { shared: 0, width: 2, attribute: 0x01, local: [2, 0, 0, 0] })), 0);
        assert_eq!(check(&with(|draft| draft.rest = vec![0])), 24, "document 02, 2.2: a byte left over");
        let whole = sound.bytes();
        assert_eq!(check(&[whole.clone(), whole.clone()].concat()), 24, "the file twice");
        assert!((0..whole.len()).all(|end| check(&whole[..end]) == 1), "document 02, 2.2: cut anywhere");
        assert_eq!(
            check(&with(|draft| {
                draft.rest = vec![0];
                draft.code[1].bytes[0] = 99;
            })),
            6,
            "leftover bytes come last"
        );
        assert_eq!(
            check(&with(|draft| {
                draft.code[0] = Program::new().jump(1).code();
                draft.code[1].bytes[0] = 99;
            })),
            7,
            "core 0's targets before core 1's instructions"
        );
        let mut no_code = Draft::single(1, 0, 1, Program::new());
        assert_eq!(check(&no_code.bytes()), 6);
        no_code.code[0].length = 8193;
        assert_eq!(check(&no_code.bytes()), 6, "even where the file ends behind it");
        no_code.code[0].length = 8192;
        assert_eq!(check(&no_code.bytes()), 1);
        no_code.code[0].bytes = vec![RETURN; 8192];
        assert_eq!(check(&no_code.bytes()), 0);
    }
}

#[test]
fn edges_of_code() {
    let cases: &[(&[u8], u8)] = &[
        (&[RETURN], 0),
        (&[JMP, 0, 0], 0),
        (&[JMP, 3, 0, RETURN], 0),
        (&[JMP, 4, 0, RETURN], 7),
        (&[RETURN, CALF, 1, 0], 7),
        (&[JZ, 0, 0, 5, 0, RETURN], 0),
        (&[JZ, 5, 0, 0, 1, RETURN], 7),
        (&[CALB, 0, 0, 4, 0, RETURN], 7),
        (&[MCD, 0, 0, 0, RETURN], 6),
        (&[MCD, 0, 0, 1, 99, RETURN], 0),
        (&[MCD, 0, 0, 9, 1, 2, 3, 4, 5, 6, 7, 8, 9, RETURN], 6),
        (&[MCD, 0, 0, 8, 1, 2, 3, 4, 5, 6, 7, 8, RETURN], 0),
        (&[MCD, 0, 0, 2, RETURN], 6),
        (&[MEMCP, 255, 255, 255, 255, 0, 0, RETURN], 0),
        (&[AURD, 0, 0, 0, 0, 0, 0, 8, 0, 16, RETURN], 0),
        (&[AURD, 0, 0, 0, 0, 0, 0, 8, 1, 16, RETURN], 6),
        (&[AUWD, 0, 0, 0, 0, 0, 0, 8, 0, 0, RETURN], 6),
        (&[AUWD, 0, 0, 0, 0, 0, 0, 3, 1, 0, RETURN], 6),
        (&[NOT, BOOL, 0, 0, 0, 0, RETURN], 0),
        (&[NOT, SINT, 0, 0, 0, 0, RETURN], 6),
        (&[ADD, BOOL, 0, 0, 0, 0, 0, 0, RETURN], 6),
        (&[ADD, TIME, 0, 0, 0, 0, 0, 0, RETURN], 0),
        (&[MUL, TIME, 0, 0, 0, 0, 0, 0, RETURN], 6),
        (&[MOD, REAL, 0, 0, 0, 0, 0, 0, RETURN], 6),
        (&[CONVERT, SINT, LREAL, 0, 0, 0, 0, RETURN], 0),
        (&[CONVERT, BOOL, LREAL, 0, 0, 0, 0, RETURN], 6),
        (&[CONVERT, SINT, TIME, 0, 0, 0, 0, RETURN], 6),
        (&[CONVERT, TIME, SINT, 0, 0, 0, 0, RETURN], 6),
        (&[CONVERT, SINT, LREAL, 0, 0, 0], 6),
        (&[PACK, LWORD, 0, 0, 0, 0, RETURN], 0),
        (&[PACK, INT, 0, 0, 0, 0, RETURN], 6),
        (&[UNPACK, BYTE, 0, 0, 0, 0, RETURN], 0),
        (&[UNPACK, BOOL, 0, 0, 0, 0, RETURN], 6),
        (&[UNPACK, REAL, 0, 0, 0, 0, RETURN], 6),
        (&[SHL, BOOL, 0, 0, 0, 0, 0, 0, RETURN], 6),
        (&[GT, 12, 0, 0, 0, 0, 0, 0, RETURN], 6),
        (&[GT, TIME, 0, 0, 0, 0, 0, 0], 7),
        (&[GT, TIME, 0, 0, 0, 0, 0], 6),
        (&[RETURN, JMP, 9, 0, 99], 6),
        (&[21], 6),
        (&[43], 6),
    ];
    for machine in machines() {
        for (code, number) in cases {
            assert_eq!(machine.check_file(&raw_code(code)), *number, "{code:?}");
        }
    }
}

#[test]
fn length_table() {
    let expected = |code: usize| match code {
        0 => 1,
        1 | 5 | 41 | 42 => 3,
        2..=4 => 5,
        6 => 4,
        7 | 43 => 7,
        8 | 9 => 10,
        27 | 44 | 45 => 6,
        16..=20 | 24..=26 | 28..=37 => 8,
        _ => 0,
    };
    assert!((0..256).all(|code| LENGTHS[code] == expected(code)));
}

// ---- bench values

#[test]
fn bench_values() {
    for machine in machines() {
        let machine = &*machine;
        let whole = |code, kind, a, b| result(machine, code, kind, a, b);
        assert_eq!(whole(ADD, INT, 32_767, 1), -32_768i16 as u16 as u64);
        assert_eq!(whole(ADD, BYTE, 200, 100), 44);
        assert_eq!(whole(MUL, WORD, 65_535, 65_535), 1);
        assert_eq!(whole(DIV, SINT, -7, 2), -3i8 as u8 as u64);
        assert_eq!(whole(MOD, SINT, -7, 2), -1i8 as u8 as u64);
        assert_eq!(whole(DIV, SINT, -128, -1), -128i8 as u8 as u64);
        assert_eq!(whole(MOD, SINT, -128, -1), 0);
        // Document 02, 2.1.
        for kind in SINT..=LWORD {
            assert_eq!((whole(MOD, kind, 7, 0), whole(MOD, kind, -7, 0)), (0, 0), "type {kind}");
        }
        assert_eq!(whole(ROL, BYTE, 129, 1), 3);
        assert_eq!(whole(SHL, BYTE, 1, 8), 0);
        let real = |code, a: f32, b: f32| {
            let bytes = typed(machine, code, REAL, &a.to_le_bytes(), &b.to_le_bytes()).unwrap();
            u32::from_le_bytes(bytes[..4].try_into().unwrap())
        };
        assert_eq!(real(ADD, 16_777_216.0, 1.0), 16_777_216.0f32.to_bits());
        // The bytes 88 13 00 00 hex as TIME: equal to 5,000.
        assert_eq!(typed(machine, EQ, TIME, &[0x88, 0x13, 0, 0], &5000i32.to_le_bytes()).unwrap()[0], 1);
    }
}

#[test]
fn flip_flops_with_both_inputs_set() {
    const S: u16 = 0;
    const R: u16 = 1;
    const Q: u16 = 2;
    const OTHER: u16 = 3;
    let rs = Program::new().typed(OR, BOOL, OTHER, Q, S).typed(NOT, BOOL, Q, R, 0).typed(AND, BOOL, Q, Q, OTHER).returns();
    let sr = Program::new().typed(NOT, BOOL, OTHER, R, 0).typed(AND, BOOL, OTHER, OTHER, Q).typed(OR, BOOL, Q, S, OTHER).returns();
    for machine in machines() {
        for (program, expected) in [(&rs, 0), (&sr, 1)] {
            for before in [0, 1] {
                let mut plant = Plant::executing(&*machine, &[1, 1, before, 0], program.clone());
                assert_eq!(plant.run(&*machine, &[0; 4]), 0);
                assert_eq!((plant.registers().mode, plant.buffer[Q as usize]), (mode::AWAITS_WRITING, expected));
            }
        }
    }
}

#[test]
fn nested_calls() {
    // The core calls its own start, so that each instruction is one call more.
    for machine in machines() {
        let mut plant = Plant::executing(&*machine, &[0], Program::new().call(0).returns());
        assert_eq!(plant.run(&*machine, &[0; 16]), 0);
        assert_eq!((plant.registers().depth, plant.registers().mode, plant.registers().count), (16, mode::EXECUTING, 16));
        let before = plant.clone();
        assert_eq!(plant.run(&*machine, &[0]), 0);
        let mut expected = before.clone();
        expected.table[0].registers.mode = mode::STOPPED;
        expected.table[0].registers.flags = flag::COLD_START | flag::NESTED_CALL;
        assert_eq!(plant, expected, "a fault changes nothing else");
    }
}

#[test]
fn mode_3_while_another_core_holds_the_semaphore() {
    for machine in machines() {
        let machine = &*machine;
        let mut plant = Plant::fresh(machine, &two_cores(vec![variable(0, 2, 2, 2)]), 1);
        // Core 0 reads nothing and returns; core 1 then takes the semaphore.
        assert_eq!(plant.run(machine, &[0, 0, 0, 1]), 0);
        assert_eq!((plant.registers().mode, plant.semaphore.holder), (mode::AWAITS_WRITING, 2));
        // By document 02, 2.4 the first such step joins the line, which is a change; a second changes nothing.
        let next = |plant: &Plant| machine.next_core(&plant.file, &plant.trace, &plant.table, &plant.semaphore, 1);
        let mut expected = plant.clone();
        assert_eq!(next(&plant), Next::Core(0));
        assert_eq!(plant.run(machine, &[0]), 0);
        (expected.semaphore.waiting, expected.semaphore.line) = (1, [0; 4]);
        assert_eq!(plant, expected);
        assert_eq!(plant.run(machine, &[0, 0]), 0);
        assert_eq!(plant, expected);
        assert_eq!(next(&plant), Next::Core(1));
    }
}

// ---- commands at their edges

#[test]
fn shifts_logic_and_comparisons() {
    for machine in machines() {
        let machine = &*machine;
        let whole = |code, kind, a, b| result(machine, code, kind, a, b);
        assert_eq!(whole(SHR, BYTE, 0x80, 7), 1, "SHR fills with zeros");
        assert_eq!((whole(SHR, LWORD, -1, 63), whole(SHR, LWORD, -1, 64), whole(SHL, LWORD, -1, 255)), (1, 0, 0));
        assert_eq!((whole(ROR, BYTE, 1, 9), whole(ROL, WORD, 0x8001, 16), whole(ROL, WORD, 0x8001, 255)), (128, 0x8001, 0xC000));
        assert_eq!((whole(EQ, BOOL, 2, 1), whole(XOR, BOOL, 2, 1), whole(NOT, BOOL, 2, 0), whole(LT, BOOL, 0, 2)), (1, 0, 0, 1));
        assert_eq!((whole(LT, SINT, -1, 0), whole(LT, BYTE, -1, 0), whole(LT, TIME, -1, 0), whole(GT, LWORD, -1, 0)), (1, 0, 1, 1));
        assert_eq!((whole(ADD, TIME, i32::MAX as i64, 1), whole(SUB, LINT, i64::MIN, 1)), (0x8000_0000, i64::MAX as u64));
        for code in [GT, GE, EQ, LE, LT, NE] {
            let nan = typed(machine, code, REAL, &f32::NAN.to_le_bytes(), &f32::NAN.to_le_bytes()).unwrap()[0];
            assert_eq!(nan, (code == NE) as u8, "with NaN only NE is true");
        }
        assert_eq!(typed(machine, EQ, LREAL, &(-0.0f64).to_le_bytes(), &0.0f64.to_le_bytes()).unwrap()[0], 1);
    }
}

#[test]
fn floats() {
    let nan = 0xFFF0_0000_0000_0001u64;
    let cases = [
        (DIV, 0.0, 0.0, 0x7FF8_0000_0000_0000),
        (DIV, -1.0, 0.0, f64::NEG_INFINITY.to_bits()),
        (ADD, f64::from_bits(nan), 1.0, 0x7FF8_0000_0000_0000),
        (SUB, f64::INFINITY, f64::INFINITY, 0x7FF8_0000_0000_0000),
        (MUL, f64::MIN_POSITIVE, 0.5, 1 << 51),
        (ADD, 9_007_199_254_740_992.0, 1.0, 9_007_199_254_740_992f64.to_bits()),
        (ADD, 9_007_199_254_740_994.0, 1.0, 9_007_199_254_740_996f64.to_bits()),
    ];
    for machine in machines() {
        for (code, a, b, expected) in cases {
            let bytes = typed(&*machine, code, LREAL, &a.to_le_bytes(), &b.to_le_bytes()).unwrap();
            assert_eq!(u64::from_le_bytes(bytes), expected, "{code} {a} {b}");
        }
        let zero_by_zero = typed(&*machine, DIV, REAL, &[0; 4], &[0; 4]).unwrap();
        assert_eq!(zero_by_zero[..4], 0x7FC0_0000u32.to_le_bytes());
    }
}

/// The flags after one instruction on 16 zero bytes, and the data.
fn outcome(machine: &dyn Machine, data: [u8; 16], program: Program) -> (u8, Vec<u8>) {
    let mut plant = Plant::executing(machine, &data, program.returns());
    assert_eq!(plant.run(machine, &[0]), 0);
    (plant.registers().flags & !flag::COLD_START, plant.buffer)
}

#[test]
fn faults_and_addresses() {
    let new = Program::new;
    let zeros = [0; 16];
    let cases: Vec<(&str, Program, u8)> = vec![
        ("the last byte", new().constant(15, &[1]), 0),
        ("beyond", new().constant(15, &[1, 2]), flag::BEYOND_DATA),
        ("absolute", new().constant(ABSOLUTE + 15, &[1]), 0),
        ("absolute beyond", new().constant(ABSOLUTE + 16, &[1]), flag::BEYOND_DATA),
        ("MEMCP of none at the end", new().copy(16, 16, 0), 0),
        ("MEMCP of none past the end", new().copy(17, 0, 0), flag::BEYOND_DATA),
        ("zero divisor", new().typed(DIV, INT, 0, 2, 4), flag::ZERO_DIVISOR),
        ("address before divisor", new().typed(DIV, INT, 15, 2, 4), flag::BEYOND_DATA),
        ("MOD by zero", new().typed(MOD, INT, 0, 2, 4), 0),
        ("MOD by zero beyond", new().typed(MOD, INT, 15, 2, 4), flag::BEYOND_DATA),
        ("a comparison writes one byte", new().typed(EQ, LINT, 15, 0, 8), 0),
        ("a shift reads one byte", new().typed(SHL, LWORD, 0, 8, 15), 0),
        ("time takes four", new().register(CYCLE_TIME, 13), flag::BEYOND_DATA),
        ("flags take one", new().register(FLAG_BYTE, 15), 0),
        ("the array itself isn't tested", new().element(AURD, 0, 15, 2, 1, 4096), 0),
        ("the element is", new().element(AURD, 0, 15, 2, 2, 4096), flag::BEYOND_DATA),
        ("the index takes two", new().element(AURD, 0, 4, 15, 2, 4), flag::BEYOND_DATA),
        ("instance at the end", new().call_instance(15, 0), 0),
        ("instance beyond", new().call_instance(16, 0), flag::BEYOND_DATA),
        ("jump over a byte beyond", new().jump_if(JZ, 16, 0), flag::BEYOND_DATA),
    ];
    for machine in machines() {
        for (name, program, flags) in &cases {
            let (found, data) = outcome(&*machine, zeros, program.clone());
            assert_eq!(found, *flags, "{name}");
            assert!(*flags == 0 || data == zeros, "{name}");
        }
        let indexed = |index: i16, array| {
            let mut data = [0; 16];
            data[..2].copy_from_slice(&index.to_le_bytes());
            data[8..].copy_from_slice(&[1, 2, 3, 4, 5, 6, 7, 8]);
            outcome(&*machine, data, Program::new().element(AURD, 4, array, 0, 2, 4))
        };
        assert_eq!(indexed(3, 8).1[4..6], [7, 8]);
        assert_eq!((indexed(4, 8).0, indexed(-1, 8).0), (flag::ARRAY_INDEX, flag::ARRAY_INDEX));
        assert_eq!(indexed(-1, 60_000).0, flag::ARRAY_INDEX, "the index before the element's address");
        assert_eq!(indexed(1, 14).0, flag::BEYOND_DATA);
        let counting = [0, 1, 2, 3, 4, 5, 6, 7, 8, 9, 10, 11, 12, 13, 14, 15];
        assert_eq!(outcome(&*machine, counting, Program::new().copy(1, 0, 8)).1[..9], [0, 0, 1, 2, 3, 4, 5, 6, 7]);
        assert_eq!(outcome(&*machine, counting, Program::new().copy(0, 1, 8)).1[..9], [1, 2, 3, 4, 5, 6, 7, 8, 8]);
    }
}

/// Document 02, 2.3: its own numbers, and the edges that its rules name.
#[test]
fn conversions() {
    let real = |number: f32| number.to_bits() as u64;
    let lreal = |number: f64| number.to_bits();
    let held: Vec<(u8, u8, u64, u64)> = vec![
        (REAL, INT, real(2.5), 2),
        (REAL, INT, real(3.5), 4),
        (REAL, INT, real(-0.5), 0),
        (REAL, BYTE, real(-0.5), 0),
        (REAL, SINT, real(127.4), 127),
        (LREAL, SINT, lreal(-128.5), 0x80),
        (DINT, REAL, 16_777_217, real(16_777_216.0)),
        // Through LREAL it would round twice.
        (LINT, REAL, (1 << 60) + (1 << 36) + 1, 0x5D80_0001),
        (LREAL, REAL, lreal(1e300), real(f32::INFINITY)),
        (LREAL, REAL, 0x47EF_FFFF_EFFF_FFFF, real(f32::MAX)),
        (LREAL, REAL, 0x47EF_FFFF_F000_0000, real(f32::INFINITY)),
        (LREAL, REAL, lreal(-0.0), real(-0.0)),
        (REAL, REAL, 0xFFFF_FFFF, 0x7FC0_0000),
        (REAL, LREAL, 0x7F80_0001, 0x7FF8_0000_0000_0000),
        (SINT, LINT, 0x80, -128i64 as u64),
        (LWORD, LREAL, u64::MAX, lreal(18_446_744_073_709_551_616.0)),
    ];
    let lost: Vec<(u8, u8, u64)> = vec![
        (REAL, SINT, real(127.5)),
        (REAL, BYTE, real(-0.6)),
        (REAL, DINT, real(f32::NAN)),
        (REAL, LINT, real(f32::NEG_INFINITY)),
        (LREAL, LWORD, lreal(18_446_744_073_709_551_616.0)),
        (SINT, BYTE, 0xFF),
        (WORD, SINT, 128),
    ];
    for machine in machines() {
        let after = |from, to, number: u64| {
            let mut data = [0xEE; 16];
            data[8..].copy_from_slice(&number.to_le_bytes());
            outcome(&*machine, data, Program::new().convert(from, to, 0, 8))
        };
        for &(from, to, number, result) in &held {
            let width = WIDTHS[to as usize] as usize;
            let (flags, data) = after(from, to, number);
            assert_eq!((flags, &data[..width]), (0, &result.to_le_bytes()[..width]), "{from} to {to}, {number:x}");
            assert!(data[width..8].iter().all(|&byte| byte == 0xEE));
        }
        for &(from, to, number) in &lost {
            let (flags, data) = after(from, to, number);
            assert_eq!((flags, &data[..8]), (flag::NOT_HELD, &[0xEE; 8][..]), "{from} to {to}, {number:x}");
        }
        // Bit 6 is tried last.
        let beyond = Program::new().convert(SINT, BYTE, 16, 0);
        assert_eq!(outcome(&*machine, [0xFF; 16], beyond), (flag::BEYOND_DATA, vec![0xFF; 16]));
        let beyond = Program::new().convert(LREAL, BYTE, 0, 9);
        assert_eq!(outcome(&*machine, [0xFF; 16], beyond), (flag::BEYOND_DATA, vec![0xFF; 16]));
    }
}

/// Document 02, 2.8: its own numbers, there and back, and what has too many digits or one above 9.
#[test]
fn packed_decimal() {
    for machine in machines() {
        let after = |code, kind, number: u64| {
            let mut data = [0xEE; 16];
            data[8..].copy_from_slice(&number.to_le_bytes());
            let (flags, data) = outcome(&*machine, data, Program::new().digits(code, kind, 0, 8));
            (flags, u64::from_le_bytes(data[..8].try_into().unwrap()) & (u64::MAX >> (64 - 8 * WIDTHS[kind as usize] as usize)))
        };
        assert_eq!((after(PACK, BYTE, 98), after(UNPACK, BYTE, 152)), ((0, 152), (0, 98)));
        for (code, kind, number) in [
            (PACK, BYTE, 100),
            (PACK, WORD, 10_000),
            (PACK, DWORD, 100_000_000),
            (PACK, LWORD, 10_000_000_000_000_000),
            (UNPACK, BYTE, 0x9A),
            (UNPACK, WORD, 0xA000),
            (UNPACK, LWORD, 0xA000_0000_0000_0000),
        ] {
            let kept = u64::from_le_bytes([0xEE; 8]) & (u64::MAX >> (64 - 8 * WIDTHS[kind as usize] as usize));
            assert_eq!(after(code, kind, number), (flag::NOT_HELD, kept), "{code} {kind} {number:x}");
        }
        for kind in [BYTE, WORD, DWORD, LWORD] {
            let most = 10u64.pow(2 * WIDTHS[kind as usize] as u32) - 1;
            for number in [0, 1, 9, 10, 42, 99, most / 2, most] {
                let (flags, packed) = after(PACK, kind, number);
                assert_eq!((flags, format!("{packed:x}")), (0, number.to_string()));
                assert_eq!(after(UNPACK, kind, packed), (0, number));
            }
        }
        let beyond = Program::new().digits(PACK, WORD, 15, 0);
        assert_eq!(outcome(&*machine, [0xFF; 16], beyond), (flag::BEYOND_DATA, vec![0xFF; 16]));
    }
}

#[test]
fn calls_with_an_instance() {
    // 0: CALB 4; 5: RETURN; 6 (at offset 4): MCD 1; 11: CALB 2; 16: RETURN
    let program = Program::new().call_instance(4, 6).returns().constant(1, &[9]).call_instance(2, 16).returns();
    for machine in machines() {
        let machine = &*machine;
        let mut plant = Plant::executing(machine, &[0; 16], program.clone());
        assert_eq!(plant.run(machine, &[0; 3]), 0);
        let core = plant.table[0];
        assert_eq!((core.registers.counter, core.registers.offset, core.registers.depth), (16, 6, 2), "an instance is relative too");
        assert_eq!((core.places[..3].to_vec(), core.offsets[..3].to_vec()), (vec![5, 16, 0], vec![0, 4, 0]));
        assert_eq!(plant.buffer[5], 9);
        assert_eq!(plant.run(machine, &[0; 2]), 0);
        let core = plant.table[0];
        assert_eq!((core.registers.counter, core.registers.offset, core.registers.depth), (5, 0, 0));
        assert_eq!((core.places, core.offsets), ([0; 16], [0; 16]), "freed entries become 0");
        assert_eq!(plant.run(machine, &[0]), 0);
        assert_eq!((plant.registers().mode, plant.registers().counter, plant.registers().count), (mode::AWAITS_WRITING, 5, 6));
    }
}

// ---- steps and exchanges

#[test]
fn one_byte_of_an_exchange_a_step() {
    let mut draft = two_cores(vec![variable(10, 2, 2, 4), variable(20, 1, 6, 8)]);
    draft.code[0] = Program::new().constant(2, &[1, 2]).constant(6, &[3]).returns().code();
    for machine in machines() {
        let machine = &*machine;
        let mut plant = Plant::fresh(machine, &draft, 1);
        // Taking, release of an empty reading, three instructions, taking, three bytes of which the last releases.
        assert_eq!(plant.run(machine, &[0; 8]), 0);
        assert_eq!((plant.registers().mode, plant.registers().exchange, plant.semaphore.holder), (mode::WRITING, 2, 1));
        assert_eq!((plant.shared[10..12].to_vec(), plant.shared[20]), (vec![1, 2], 0));
        assert_eq!(plant.run(machine, &[1, 0]), 0);
        assert_eq!((plant.registers().mode, plant.registers().exchange, plant.semaphore.holder, plant.shared[20]), (0, 0, FREE, 3));
        assert_eq!((plant.registers().cycles, plant.registers().flags, plant.registers().count), (1, 0, 3), "the count stays to be seen");
        assert_eq!(plant.run(machine, &[1, 1, 1]), 0);
        assert_eq!((plant.table[1].registers.mode, plant.table[1].registers.exchange, plant.buffer[20..22].to_vec()), (1, 2, vec![1, 2]));
        assert_eq!(plant.run(machine, &[1]), 0);
        assert_eq!((plant.table[1].registers.mode, plant.semaphore.holder, plant.buffer[24]), (mode::EXECUTING, FREE, 3));
        assert_eq!(plant.list, [0, 16, 1]);
        // Core 0 is out of records.
        let next = |plant: &Plant, core| machine.next_core(&plant.file, &plant.trace, &plant.table, &plant.semaphore, core);
        assert_eq!((next(&plant, 0), next(&plant, 1), next(&plant, 2)), (Next::Core(1), Next::Core(1), Next::Refused(20)));
        assert_eq!(plant.run(machine, &[1, 1, 1]), 0);
        assert_eq!(next(&plant, 0), Next::Nothing);
    }
}

#[test]
fn inputs_are_those_of_the_cycle() {
    let draft = Draft::single(8, 2, 9, Program::new().register(CYCLE_TIME, 4).returns());
    for machine in machines() {
        let machine = &*machine;
        let mut plant = Plant { trace: vec![2, 0, 1, 0, 0, 0, 11, 12, 2, 1, 0, 0, 21, 22], ..Plant::fresh(machine, &draft, 0) };
        assert_eq!(plant.run(machine, &[0]), 0);
        assert_eq!((plant.buffer.clone(), plant.registers().time), (vec![11, 12, 0, 0, 0, 0, 0, 0], 1));
        assert_eq!(plant.run(machine, &[0; 9]), 0);
        assert_eq!((plant.buffer.clone(), plant.registers().time), (vec![21, 22, 0, 0, 2, 1, 0, 0], 258));
        let done = plant.clone();
        assert_eq!(plant.run(machine, &[0; 2]), 0);
        assert_eq!(plant.registers().cycles, 2);
        assert_eq!(done.registers().mode, mode::AWAITS_WRITING);
    }
}

#[test]
fn limit() {
    // A cycle of exactly `limit` instructions with its RETURN runs through; the limit is tried before RETURN too.
    for machine in machines() {
        let machine = &*machine;
        for (limit, expected) in [(2, (mode::AWAITS_WRITING, flag::COLD_START, 2)), (1, (mode::STOPPED, 6, 1))] {
            let draft = Draft::single(1, 0, limit, Program::new().constant(0, &[1]).returns());
            let mut plant = Plant::fresh(machine, &draft, 1);
            assert_eq!(plant.run(machine, &[0; 4]), 0);
            let r = plant.registers();
            assert_eq!((r.mode, r.flags, r.count), expected);
        }
    }
}

// ---- states and lent memory

/// The layout that the C interface shares, with no byte between two fields.
#[test]
fn layout_of_a_core() {
    use std::mem::{offset_of, size_of};
    assert_eq!((size_of::<Registers>(), size_of::<Core>(), offset_of!(Core, places), offset_of!(Core, offsets)), (20, 84, 20, 52));
    let wide = [offset_of!(Registers, time), offset_of!(Registers, counter), offset_of!(Registers, offset), offset_of!(Registers, count)];
    let middle =
        [offset_of!(Registers, exchange), offset_of!(Registers, cycles), offset_of!(Registers, mode), offset_of!(Registers, depth)];
    assert_eq!((wide, middle), ([0, 4, 6, 8], [10, 12, 14, 15]));
    assert_eq!((offset_of!(Registers, flags), offset_of!(Registers, spare)), (16, 17));
}

/// Spare bytes: not judged, kept by a refused call, cleared by a step and by a run of no steps.
#[test]
fn spare_bytes() {
    let draft = two_cores(Vec::new());
    for machine in machines() {
        let machine = &*machine;
        let spared = |order: &[u8]| {
            let mut plant = Plant::fresh(machine, &draft, 1);
            for core in &mut plant.table {
                core.registers.spare = [1, 2, 3];
            }
            (plant.run(machine, order), plant.table[0].registers.spare, plant.table[1].registers.spare)
        };
        assert_eq!(spared(&[2]), (20, [1, 2, 3], [1, 2, 3]));
        assert_eq!(spared(&[]), (0, [0; SPARE], [0; SPARE]));
        assert_eq!(spared(&[0]), (0, [0; SPARE], [0; SPARE]));
    }
}

#[test]
fn fitness() {
    let draft = two_cores(vec![variable(0, 2, 2, 2)]);
    for machine in machines() {
        let machine = &*machine;
        let fresh = Plant::fresh(machine, &draft, 2);
        let judged = |change: &dyn Fn(&mut Plant)| {
            let mut plant = fresh.clone();
            change(&mut plant);
            let number = plant.clone().run(machine, &[]);
            let next = machine.next_core(&plant.file, &plant.trace, &plant.table, &plant.semaphore, 0);
            assert_eq!(number != 0, next == Next::Refused(number));
            assert_eq!(check_state(&plant.file, &plant.trace, &plant.table, &plant.semaphore), number);
            number
        };
        let register = |change: &dyn Fn(&mut Registers)| judged(&|plant| change(&mut plant.table[1].registers));
        // Fit, however odd.
        assert_eq!(register(&|r| r.mode = mode::STOPPED), 0);
        assert_eq!(register(&|r| r.flags = 0x7F), 0);
        assert_eq!(register(&|r| r.offset = 15), 0);
        assert_eq!(register(&|r| r.cycles = 2), 0);
        assert_eq!(register(&|r| r.count = 9), 0);
        let reading = |exchange: u16| {
            judged(&|plant| {
                (plant.table[1].registers.mode, plant.table[1].registers.exchange, plant.semaphore.holder) = (mode::READING, exchange, 2);
            })
        };
        assert_eq!((reading(0), reading(2), reading(3)), (0, 0, 23));
        // Unfit.
        assert_eq!(register(&|r| r.flags = 0x80), 23);
        assert_eq!(register(&|r| r.offset = 16), 23);
        assert_eq!(register(&|r| r.counter = 1), 23);
        assert_eq!(register(&|r| r.cycles = 3), 23);
        assert_eq!(register(&|r| (r.cycles, r.mode) = (2, mode::EXECUTING)), 23);
        assert_eq!(register(&|r| r.count = 10), 23);
        assert_eq!(register(&|r| r.depth = 1), 23);
        assert_eq!(register(&|r| r.exchange = 1), 23);
        assert_eq!(register(&|r| r.mode = mode::WRITING), 23);
        assert_eq!(judged(&|plant| plant.semaphore.holder = 1), 23);
        assert_eq!(judged(&|plant| plant.semaphore.holder = 3), 23);
        // The line of document 02, 2.4: each core once, below n, in mode 0 or 3, with a record left; what is past it is not judged.
        let line = |waiting: u8, line: [u8; 4]| judged(&|plant| plant.semaphore = Semaphore { holder: FREE, waiting, line });
        assert_eq!((line(0, [9; 4]), line(1, [1, 1, 1, 1]), line(2, [1, 0, 1, 0])), (0, 0, 0));
        assert_eq!((line(2, [1, 1, 0, 0]), line(3, [0, 1, 0, 0]), line(1, [2, 0, 0, 0]), line(5, [0, 1, 2, 3])), (23, 23, 23, 23));
        let stands = |change: &dyn Fn(&mut Registers)| {
            judged(&|plant| {
                (plant.semaphore.waiting, plant.semaphore.line) = (2, [0, 1, 0, 0]);
                change(&mut plant.table[1].registers);
            })
        };
        assert_eq!((stands(&|r| r.cycles = 1), stands(&|r| r.mode = mode::AWAITS_WRITING)), (0, 0));
        assert_eq!((stands(&|r| r.cycles = 2), stands(&|r| r.mode = mode::EXECUTING), stands(&|r| r.mode = mode::STOPPED)), (23, 23, 23));
        assert_eq!(
            judged(&|plant| (plant.table[1].registers.mode, plant.semaphore) =
                (mode::READING, Semaphore { holder: 2, waiting: 1, line: [1; 4] })),
            23
        );
        assert_eq!(judged(&|plant| plant.table[0].offsets[15] = 1), 23);
        let stack = |place, offset, depth| {
            judged(&|plant| {
                let core = &mut plant.table[0];
                (core.registers.mode, core.registers.depth) = (mode::STOPPED, depth);
                (core.places[0], core.offsets[0]) = (place, offset);
            })
        };
        assert_eq!((stack(0, 15, 1), stack(0, 16, 1), stack(1, 0, 1), stack(0, 0, 16), stack(0, 0, 17)), (0, 23, 23, 0, 23));
        assert_eq!(judged(&|plant| plant.table.truncate(1)), 23);
        assert_eq!(judged(&|plant| plant.table.push(Core::fresh())), 23);
    }
}

#[test]
fn exchange_number_at_the_end_releases() {
    for machine in machines() {
        let machine = &*machine;
        let mut plant = Plant::fresh(machine, &two_cores(vec![variable(0, 2, 2, 2)]), 2);
        (plant.table[1].registers.mode, plant.table[1].registers.exchange, plant.semaphore.holder) = (mode::READING, 2, 2);
        plant.shared[0] = 5;
        let before = plant.clone();
        assert_eq!(plant.run(machine, &[1]), 0);
        assert_eq!((plant.table[1].registers.mode, plant.table[1].registers.exchange, plant.semaphore.holder), (mode::EXECUTING, 0, FREE));
        assert_eq!((plant.buffer, plant.shared), (before.buffer, before.shared));
    }
}

#[test]
fn lent_sizes() {
    let draft = two_cores(Vec::new());
    let file = draft.bytes();
    for machine in machines() {
        let fresh = |records: usize, buffer: usize, shared: usize| {
            let mut table = vec![Core { places: [1; 16], ..Core::default() }; records];
            let number = machine.fresh(
                &file,
                &mut table,
                &mut Semaphore { holder: 9, ..Semaphore::default() },
                &mut vec![1; buffer],
                &mut vec![1; shared],
            );
            (number, table)
        };
        assert_eq!((fresh(1, 32, 1024).0, fresh(2, 31, 1024).0, fresh(2, 33, 1024).0, fresh(2, 32, 1025).0), (21, 21, 21, 21));
        let (number, table) = fresh(3, 32, 1024);
        assert_eq!((number, table[1], table[2].places), (0, Core::fresh(), [1; 16]), "only the first n change");
        let plant = Plant::fresh(&*machine, &draft, 1);
        let listed = |length: usize| {
            let Plant { file, trace, mut table, mut semaphore, mut buffer, mut shared, .. } = plant.clone();
            let (mut list, mut taken) = (vec![77; length], 88);
            let number = machine.run(&file, &trace, &mut table, &mut semaphore, &mut buffer, &mut shared, &[0, 0], &mut list, &mut taken);
            (number, taken, list)
        };
        assert_eq!(listed(1), (21, 88, vec![77]));
        assert_eq!(listed(2), (0, 1, vec![0, 77]));
        assert_eq!(listed(3), (0, 1, vec![0, 77, 77]));
    }
}
