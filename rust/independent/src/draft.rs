//! A task set file under construction: its fields with any values, sound or not, and a small assembler for code.

use crate::reference::command::*;
use crate::reference::{FILE_MARK, NEW_MARK};

#[derive(Clone, Debug)]
pub struct CoreRecord {
    pub data_size: u16,
    pub input_size: u16,
    pub limit: u16,
}

#[derive(Clone, Debug, Default)]
pub struct Variable {
    pub shared: u16,
    pub width: u8,
    pub attribute: u8,
    pub local: [u16; 4],
}

/// Code with the length that the file states, and where its instructions start.
#[derive(Clone, Debug)]
pub struct Code {
    pub length: u16,
    pub bytes: Vec<u8>,
    pub starts: Vec<u16>,
}

/// The start values of a core, with the count that the file states.
#[derive(Clone, Debug, Default)]
pub struct Values {
    pub count: u16,
    pub pairs: Vec<(u16, u8)>,
}

#[derive(Clone, Debug)]
pub struct Draft {
    pub mark: [u8; 4],
    pub core_count: u8,
    pub cores: Vec<CoreRecord>,
    pub variable_count: u8,
    pub variables: Vec<Variable>,
    pub code: Vec<Code>,
    /// Of the new form, one for each core; none in the old form.
    pub values: Vec<Values>,
    /// What follows the last section.
    pub rest: Vec<u8>,
}

impl Draft {
    /// A file that states the true counts.
    pub fn new(cores: Vec<CoreRecord>, variables: Vec<Variable>, code: Vec<Code>) -> Draft {
        Draft {
            mark: FILE_MARK,
            core_count: cores.len() as u8,
            cores,
            variable_count: variables.len() as u8,
            variables,
            code,
            values: Vec::new(),
            rest: Vec::new(),
        }
    }

    /// The same file in the new form, with these start values.
    pub fn with_values(self, pairs: Vec<Vec<(u16, u8)>>) -> Draft {
        let values = pairs.into_iter().map(|pairs| Values { count: pairs.len() as u16, pairs }).collect();
        Draft { mark: NEW_MARK, values, ..self }
    }

    /// One core without variables.
    pub fn single(data_size: u16, input_size: u16, limit: u16, program: Program) -> Draft {
        Draft::new(vec![CoreRecord { data_size, input_size, limit }], Vec::new(), vec![program.code()])
    }

    pub fn data_total(&self) -> usize {
        self.cores.iter().map(|core| core.data_size as usize).sum()
    }

    pub fn bytes(&self) -> Vec<u8> {
        let mut file = self.mark.to_vec();
        file.push(self.core_count);
        for core in &self.cores {
            for number in [core.data_size, core.input_size, core.limit] {
                file.extend(number.to_le_bytes());
            }
        }
        file.push(self.variable_count);
        for variable in &self.variables {
            file.extend(variable.shared.to_le_bytes());
            file.extend([variable.width, variable.attribute]);
            file.extend(variable.local.iter().flat_map(|place| place.to_le_bytes()));
        }
        for code in &self.code {
            file.extend(code.length.to_le_bytes());
            file.extend(&code.bytes);
        }
        for values in &self.values {
            file.extend(values.count.to_le_bytes());
            for (place, byte) in &values.pairs {
                file.extend(place.to_le_bytes());
                file.push(*byte);
            }
        }
        file.extend(&self.rest);
        file
    }
}

/// Code written instruction by instruction.
#[derive(Clone, Debug, Default)]
pub struct Program {
    bytes: Vec<u8>,
    starts: Vec<u16>,
}

impl Program {
    pub fn new() -> Program {
        Program::default()
    }

    /// The place of the next instruction.
    pub fn here(&self) -> u16 {
        self.bytes.len() as u16
    }

    pub fn code(self) -> Code {
        Code { length: self.bytes.len() as u16, bytes: self.bytes, starts: self.starts }
    }

    /// An instruction from its bytes as they are.
    pub fn raw(mut self, instruction: &[u8]) -> Program {
        self.starts.push(self.here());
        self.bytes.extend(instruction);
        self
    }

    fn words(self, code: u8, words: &[u16]) -> Program {
        let operands = words.iter().flat_map(|word| word.to_le_bytes());
        self.raw(&[code].into_iter().chain(operands).collect::<Vec<u8>>())
    }

    pub fn returns(self) -> Program {
        self.raw(&[RETURN])
    }

    pub fn jump(self, target: u16) -> Program {
        self.words(JMP, &[target])
    }

    /// JZ or JNZ.
    pub fn jump_if(self, code: u8, address: u16, target: u16) -> Program {
        self.words(code, &[address, target])
    }

    pub fn call(self, target: u16) -> Program {
        self.words(CALF, &[target])
    }

    pub fn call_instance(self, instance: u16, target: u16) -> Program {
        self.words(CALB, &[instance, target])
    }

    pub fn constant(self, address: u16, bytes: &[u8]) -> Program {
        let [low, high] = address.to_le_bytes();
        self.raw(&[&[MCD, low, high, bytes.len() as u8], bytes].concat())
    }

    pub fn copy(self, to: u16, from: u16, count: u16) -> Program {
        self.words(MEMCP, &[to, from, count])
    }

    /// AURD or AUWD.
    pub fn element(self, code: u8, variable: u16, array: u16, index: u16, size: u8, count: u16) -> Program {
        let words = [variable, array, index].map(u16::to_le_bytes).concat();
        self.raw(&[&[code], &words[..], &[size], &count.to_le_bytes()].concat())
    }

    /// A typed command; NOT leaves out `b`.
    pub fn typed(self, code: u8, kind: u8, to: u16, a: u16, b: u16) -> Program {
        let words = [to, a, b].map(u16::to_le_bytes).concat();
        let words = if code == NOT { &words[..4] } else { &words[..] };
        self.raw(&[&[code, kind], words].concat())
    }

    /// CYCLE_TIME or FLAG_BYTE.
    pub fn register(self, code: u8, address: u16) -> Program {
        self.words(code, &[address])
    }

    /// CONVERT: from-type and to-type, destination and source.
    pub fn convert(self, from: u8, to: u8, destination: u16, source: u16) -> Program {
        let words = [destination, source].map(u16::to_le_bytes).concat();
        self.raw(&[&[CONVERT, from, to], &words[..]].concat())
    }

    /// PACK or UNPACK.
    pub fn digits(self, code: u8, kind: u8, destination: u16, source: u16) -> Program {
        let words = [destination, source].map(u16::to_le_bytes).concat();
        self.raw(&[&[code, kind], &words[..]].concat())
    }

    /// Where each instruction that was written starts.
    pub fn starts(&self) -> &[u16] {
        &self.starts
    }

    /// Sets the 16-bit operand at a place of the code, for targets that weren't known when they were written.
    pub fn patch(&mut self, at: u16, word: u16) {
        self.bytes[at as usize..at as usize + 2].copy_from_slice(&word.to_le_bytes());
    }
}
