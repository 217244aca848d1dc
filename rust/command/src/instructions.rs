//! The table of commands: a row for each, from which an instruction is read and written, as bytes and as text.
//!
//! In text an instruction is the command's name, its types, then its operands with commas between them, as in `LT INT @20, @0, @14`. `@n` is an address
//! that is added to the data offset, `%n` an absolute one. A target is a label.

/// What an instruction has behind its code byte, in the order of the bytes.
#[derive(Clone, Copy, PartialEq, Eq, Debug)]
pub enum Operand {
    /// A type byte.
    Type,
    /// A 16-bit address.
    Address,
    /// T, a 16-bit code place.
    Target,
    /// A 16-bit count: of bytes, or of elements.
    Count,
    /// A byte with the size of an element.
    Size,
    /// A byte n and n bytes.
    Constant,
}

use Operand::*;

/// A command of document 01's table, or of document 02's requests 2.3 and 2.8.
#[derive(Debug)]
pub struct Command {
    pub code: u8,
    pub name: &'static str,
    pub operands: &'static [Operand],
    /// What it does, in Structured Text: `{0}` is the first operand, types included.
    effect: &'static str,
}

const fn row(code: u8, name: &'static str, operands: &'static [Operand], effect: &'static str) -> Command {
    Command { code, name, operands, effect }
}

const TYPED: &[Operand] = &[Type, Address, Address, Address];
const ELEMENT: &[Operand] = &[Address, Address, Address, Size, Count];

/// Every command, by code byte.
pub static COMMANDS: [Command; 34] = [
    row(0, "RETURN", &[], "return"),
    row(1, "JMP", &[Target], "go to {0}"),
    row(2, "JZ", &[Address, Target], "if {0} = 0 go to {1}"),
    row(3, "JNZ", &[Address, Target], "if {0} <> 0 go to {1}"),
    row(4, "CALB", &[Address, Target], "call {1} with the data offset at {0}"),
    row(5, "CALF", &[Target], "call {0}"),
    row(6, "MCD", &[Address, Constant], "{0} := {1}"),
    row(7, "MEMCP", &[Address, Address, Count], "{0} := {1}, {2} bytes"),
    row(8, "AURD", ELEMENT, "{0} := {1}[{2}]"),
    row(9, "AUWD", ELEMENT, "{1}[{2}] := {0}"),
    row(16, "ADD", TYPED, "{1} := {2} + {3}"),
    row(17, "SUB", TYPED, "{1} := {2} - {3}"),
    row(18, "MUL", TYPED, "{1} := {2} * {3}"),
    row(19, "DIV", TYPED, "{1} := {2} / {3}"),
    row(20, "MOD", TYPED, "{1} := {2} MOD {3}"),
    row(24, "AND", TYPED, "{1} := {2} AND {3}"),
    row(25, "OR", TYPED, "{1} := {2} OR {3}"),
    row(26, "XOR", TYPED, "{1} := {2} XOR {3}"),
    row(27, "NOT", &[Type, Address, Address], "{1} := NOT {2}"),
    row(28, "SHL", TYPED, "{1} := SHL({2}, {3})"),
    row(29, "SHR", TYPED, "{1} := SHR({2}, {3})"),
    row(30, "ROL", TYPED, "{1} := ROL({2}, {3})"),
    row(31, "ROR", TYPED, "{1} := ROR({2}, {3})"),
    row(32, "GT", TYPED, "{1} := {2} > {3}"),
    row(33, "GE", TYPED, "{1} := {2} >= {3}"),
    row(34, "EQ", TYPED, "{1} := {2} = {3}"),
    row(35, "LE", TYPED, "{1} := {2} <= {3}"),
    row(36, "LT", TYPED, "{1} := {2} < {3}"),
    row(37, "NE", TYPED, "{1} := {2} <> {3}"),
    row(41, "CYCLE_TIME", &[Address], "{0} := time of this cycle"),
    row(42, "FLAG_BYTE", &[Address], "{0} := flag byte"),
    row(43, "CONVERT", &[Type, Type, Address, Address], "{2} := {0}_TO_{1}({3})"),
    row(44, "PACK", &[Type, Address, Address], "{1} := {0}_TO_BCD({2})"),
    row(45, "UNPACK", &[Type, Address, Address], "{1} := BCD_TO_{0}({2})"),
];

/// The types by type byte.
pub const TYPES: [&str; 12] = ["BOOL", "SINT", "BYTE", "INT", "WORD", "DINT", "DWORD", "LINT", "LWORD", "REAL", "LREAL", "TIME"];

/// Addresses from here on are absolute.
pub const ABSOLUTE: u16 = 32_768;

/// An operand of an instruction, with what it says.
#[derive(Clone, PartialEq, Eq, Debug)]
pub enum Value {
    Type(u8),
    Address(u16),
    Target(u16),
    Count(u16),
    Size(u8),
    Constant(Vec<u8>),
}

/// An instruction.
#[derive(Clone, Debug)]
pub struct Instruction {
    /// Where it starts in the code.
    pub place: u16,
    pub command: &'static Command,
    pub values: Vec<Value>,
}

/// The instructions of a code that the library accepted, which are laid end to end.
pub fn decode(code: &[u8]) -> Vec<Instruction> {
    let mut list = Vec::new();
    let mut at = 0;
    while at < code.len() {
        let (instruction, after) = decode_one(code, at);
        list.push(instruction);
        at = after;
    }
    list
}

/// The instruction at a place where one starts, and the place after it.
pub fn decode_one(code: &[u8], place: usize) -> (Instruction, usize) {
    let command = COMMANDS.iter().find(|command| command.code == code[place]).expect("an accepted code has known commands");
    let mut at = place + 1;
    let mut bytes = |count: usize| {
        at += count;
        &code[at - count..at]
    };
    let word = |bytes: &[u8]| u16::from_le_bytes([bytes[0], bytes[1]]);
    let mut values = Vec::new();
    for operand in command.operands {
        values.push(match operand {
            Type => Value::Type(bytes(1)[0]),
            Address => Value::Address(word(bytes(2))),
            Target => Value::Target(word(bytes(2))),
            Count => Value::Count(word(bytes(2))),
            Size => Value::Size(bytes(1)[0]),
            Constant => {
                let count = bytes(1)[0] as usize;
                Value::Constant(bytes(count).to_vec())
            }
        });
    }
    (Instruction { place: place as u16, command, values }, at)
}

/// The label of a code place.
pub fn label(place: u16) -> String {
    format!("L{place}")
}

/// Bytes as two hex digits each.
pub fn hex(bytes: &[u8]) -> String {
    bytes.iter().map(|byte| format!("{byte:02X}")).collect::<Vec<_>>().join(" ")
}

impl Value {
    fn text(&self) -> String {
        match self {
            Value::Type(kind) => TYPES.get(*kind as usize).map_or(format!("type {kind}"), |name| name.to_string()),
            Value::Address(address) if *address < ABSOLUTE => format!("@{address}"),
            Value::Address(address) => format!("%{}", address - ABSOLUTE),
            Value::Target(place) => label(*place),
            Value::Count(count) => format!("count {count}"),
            Value::Size(size) => format!("size {size}"),
            Value::Constant(bytes) => hex(bytes),
        }
    }

    /// As the effect has it: a constant as a number where it has the width of one.
    fn in_effect(&self) -> String {
        match self {
            Value::Count(count) => count.to_string(),
            Value::Constant(bytes) if matches!(bytes.len(), 1 | 2 | 4 | 8) => {
                let mut number = [0; 8];
                number[..bytes.len()].copy_from_slice(bytes);
                u64::from_le_bytes(number).to_string()
            }
            Value::Constant(bytes) => format!("{} bytes", bytes.len()),
            other => other.text(),
        }
    }
}

impl Instruction {
    /// As it is written, without its label.
    pub fn text(&self) -> String {
        let (head, operands) = self.parts();
        format!("{head} {operands}").trim_end().to_string()
    }

    /// The same in columns: the operands of every instruction stand below each other.
    pub fn columns(&self) -> String {
        let (head, operands) = self.parts();
        format!("{head:<11} {operands}")
    }

    /// Command and types, operands.
    fn parts(&self) -> (String, String) {
        let (types, operands): (Vec<&Value>, Vec<&Value>) = self.values.iter().partition(|value| matches!(value, Value::Type(_)));
        let head = types.iter().fold(self.command.name.to_string(), |head, kind| head + " " + &kind.text());
        (head, operands.iter().map(|value| value.text()).collect::<Vec<_>>().join(", "))
    }

    /// What it does, in Structured Text.
    pub fn effect(&self) -> String {
        let filled = |text: String, (number, value): (usize, &Value)| text.replace(&format!("{{{number}}}"), &value.in_effect());
        self.values.iter().enumerate().fold(self.command.effect.to_string(), filled)
    }

    /// The code places that it may go to besides the next instruction.
    pub fn target(&self) -> Option<u16> {
        self.values.iter().find_map(|value| if let Value::Target(place) = value { Some(*place) } else { None })
    }
}
