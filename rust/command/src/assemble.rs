//! `rikzord assemble`: the text that `rikzord show` prints, as a task set file.
//!
//! The text says what the bytes are; whether they make a task set is for the library to judge, as of any file.

use crate::arguments::Arguments;
use crate::files;
use crate::instructions::{self, Operand, ABSOLUTE, TYPES};
use crate::{Command, Failure, Outcome, Terminal};
use rikzord::{Form, MOST_CORES};
use std::collections::BTreeMap;

pub const COMMAND: Command = Command {
    name: "assemble",
    usage: "TEXT OUT",
    summary: "for plant programmers: a text as `show` prints it, turned into a task set file",
    details: "A line that cannot be read is named by its number. The library then judges the file, and it is written only where it is accepted.\n\
        \n\
        task set, old form                         or: new form\n\
        core 0: data 24, input 4, limit 100\n\
        variable 0: shared 0, width 4, written by core 0 at 4, read by core 1 at 0\n\
        start values of core 0                     in the new form only\n\
        \x20   8: 00 80                               from place 8 on\n\
        code of core 0\n\
        \x20   LT INT @20, @0, @14                    types by name; @n from the data offset, %n absolute\n\
        \x20   JZ @20, done                           a label is any word\n\
        \x20   MCD @14, D0 02                         the bytes in hex\n\
        done:\n\
        \x20   RETURN                                 after # comes a comment",
    perform,
};

fn perform(arguments: Arguments, terminal: &mut Terminal) -> Outcome {
    let [path, out] = arguments.names(["TEXT", "OUT"])?;
    let text = String::from_utf8(files::read(&path, &files::TEXT)?);
    let text = text.map_err(|_| Failure::Refused(format!("{path}: not a text in UTF-8")))?;
    let file = assemble(&text).map_err(|Mistake { line, words }| Failure::Refused(format!("{path}: line {line}: {words}")))?;
    rikzord::check(&file, rikzord::Profile::Full).map_err(|refusal| Failure::refused(format!("{path}: the task set"), refusal))?;
    files::write(&out, &file)?;
    writeln!(terminal.output, "{out}: {} bytes", file.len())?;
    Ok(())
}

/// A line of a text that cannot be read.
#[derive(Clone, PartialEq, Eq, Debug)]
pub struct Mistake {
    /// Counted from 1; the line after the last where something is missing.
    pub line: usize,
    pub words: String,
}

/// What a line says wrong, before its number is known.
type Read<T> = Result<T, String>;

/// The bytes of a text.
pub fn assemble(text: &str) -> Result<Vec<u8>, Mistake> {
    let mut draft = Draft::default();
    let mut last = 0;
    for (index, line) in text.lines().enumerate() {
        let line_number = index + 1;
        let content = line.split('#').next().unwrap_or("").trim();
        if !content.is_empty() {
            draft.line(content, line_number).map_err(|words| Mistake { line: line_number, words })?;
        }
        last = line_number;
    }
    draft.bytes(last + 1)
}

/// What the lines said so far.
#[derive(Default)]
struct Draft {
    form: Option<Form>,
    cores: Vec<[u16; 3]>,
    variables: Vec<[u8; 12]>,
    codes: BTreeMap<usize, Code>,
    values: BTreeMap<usize, Vec<(u16, u8)>>,
    section: Section,
}

/// Which section the next line belongs to.
#[derive(Default)]
enum Section {
    #[default]
    Records,
    Code(usize),
    Values(usize),
}

#[derive(Default)]
struct Code {
    bytes: Vec<u8>,
    labels: BTreeMap<String, u16>,
    /// Where a target belongs, its label, and the line that names it.
    targets: Vec<(usize, String, usize)>,
}

/// A number in base ten that is at most `most`.
fn number<T: TryFrom<u64>>(word: &str, what: &str, most: u64) -> Read<T> {
    if word.is_empty() || !word.bytes().all(|byte| byte.is_ascii_digit()) {
        return Err(format!("{what} is a number, not `{word}`"));
    }
    match word.parse::<u64>().ok().filter(|&number| number <= most).map(T::try_from) {
        Some(Ok(number)) => Ok(number),
        _ => Err(format!("{what} is at most {most}, not {word}")),
    }
}

const MOST_WORD: u64 = u16::MAX as u64;

/// What follows a word, as in `data 24`.
fn after<'l>(text: &'l str, word: &str) -> Option<&'l str> {
    text.strip_prefix(word)?.strip_prefix(char::is_whitespace).map(str::trim)
}

fn numbered(text: &str, word: &str) -> Read<u16> {
    let rest = after(text, word).ok_or_else(|| format!("`{word}` and a number are wanted, not `{text}`"))?;
    number(rest, word, MOST_WORD)
}

fn core_number(word: &str) -> Read<usize> {
    number(word, "a core's number", MOST_CORES as u64 - 1)
}

/// Bytes of two hex digits each.
fn hex_bytes(text: &str) -> Read<Vec<u8>> {
    let byte = |word: &str| match u8::from_str_radix(word, 16) {
        Ok(byte) if word.len() == 2 && word.bytes().all(|digit| digit.is_ascii_hexdigit()) => Ok(byte),
        _ => Err(format!("a byte is two hex digits, not `{word}`")),
    };
    let bytes: Vec<u8> = text.split_whitespace().map(byte).collect::<Read<_>>()?;
    if bytes.is_empty() {
        return Err("bytes are wanted, two hex digits each".to_string());
    }
    Ok(bytes)
}

impl Draft {
    fn line(&mut self, text: &str, line: usize) -> Read<()> {
        if self.form.is_none() {
            self.form = Some(match text {
                "task set, old form" => Form::Old,
                "task set, new form" => Form::New,
                _ => return Err("a text begins with `task set, old form` or `task set, new form`".to_string()),
            });
            return Ok(());
        }
        if let Some(rest) = after(text, "core") {
            return self.core(rest);
        }
        if let Some(rest) = after(text, "variable") {
            return self.variable(rest);
        }
        if let Some(rest) = after(text, "code of core") {
            let core = core_number(rest)?;
            if self.codes.insert(core, Code::default()).is_some() {
                return Err(format!("the code of core {core} is there already"));
            }
            self.section = Section::Code(core);
            return Ok(());
        }
        if let Some(rest) = after(text, "start values of core") {
            if self.form == Some(Form::Old) {
                return Err("a file of the old form has no start values".to_string());
            }
            let core = core_number(rest)?;
            if self.values.insert(core, Vec::new()).is_some() {
                return Err(format!("the start values of core {core} are there already"));
            }
            self.section = Section::Values(core);
            return Ok(());
        }
        match self.section {
            Section::Records => Err(format!("`core`, `variable`, `start values of core` or `code of core` is wanted, not `{text}`")),
            Section::Values(core) => start_values(self.values.get_mut(&core).expect("the section is open"), text),
            Section::Code(core) => self.codes.get_mut(&core).expect("the section is open").line(text, line),
        }
    }

    /// `0: data 24, input 4, limit 100`
    fn core(&mut self, text: &str) -> Read<()> {
        let (core, record) = text.split_once(':').ok_or("a core's number is followed by `:`")?;
        let core = core_number(core.trim())?;
        if core != self.cores.len() {
            return Err(format!("core {} comes next, not core {core}", self.cores.len()));
        }
        let parts: Vec<&str> = record.split(',').map(str::trim).collect();
        let [data, input, limit] = parts[..] else { return Err("a core has `data N, input N, limit N`".to_string()) };
        self.cores.push([numbered(data, "data")?, numbered(input, "input")?, numbered(limit, "limit")?]);
        self.section = Section::Records;
        Ok(())
    }

    /// `0: shared 0, width 4, written by core 0 at 4, read by core 1 at 0`
    fn variable(&mut self, text: &str) -> Read<()> {
        let (variable, record) = text.split_once(':').ok_or("a variable's number is followed by `:`")?;
        let variable: usize = number(variable.trim(), "a variable's number", 254)?;
        if variable != self.variables.len() {
            return Err(format!("variable {} comes next, not variable {variable}", self.variables.len()));
        }
        let parts: Vec<&str> = record.split(',').map(str::trim).collect();
        let [shared, width, writer, readers @ ..] = &parts[..] else {
            return Err("a variable has `shared N, width N, written by core K at N`, and readers".to_string());
        };
        let mut bytes = [0; 12];
        bytes[..2].copy_from_slice(&numbered(shared, "shared")?.to_le_bytes());
        bytes[2] = number(after(width, "width").ok_or("`width` and a number are wanted")?, "width", 255)?;
        let mut named = |text: &str, words: &str, half: u8| -> Read<()> {
            let wanted = || format!("`{words} K at N` is wanted, not `{text}`");
            let (core, place) = after(text, words).and_then(|rest| rest.split_once(" at ")).ok_or_else(wanted)?;
            let (core, place): (usize, u16) = (core_number(core.trim())?, number(place.trim(), "a place", MOST_WORD)?);
            if (bytes[3] | bytes[3] >> 4) >> core & 1 == 1 {
                return Err(format!("core {core} is named twice"));
            }
            bytes[3] |= 1 << core << half;
            bytes[4 + 2 * core..][..2].copy_from_slice(&place.to_le_bytes());
            Ok(())
        };
        named(writer, "written by core", 0)?;
        for reader in readers {
            named(reader, "read by core", 4)?;
        }
        self.variables.push(bytes);
        self.section = Section::Records;
        Ok(())
    }

    /// The file, where nothing is missing.
    fn bytes(mut self, end: usize) -> Result<Vec<u8>, Mistake> {
        let missing = |words: String| Err(Mistake { line: end, words });
        let Some(form) = self.form else { return missing("the text is empty".to_string()) };
        let mut file = if form == Form::Old { b"MCS1".to_vec() } else { b"MCS2".to_vec() };
        file.push(self.cores.len() as u8);
        file.extend(self.cores.iter().flatten().flat_map(|number| number.to_le_bytes()));
        file.push(self.variables.len() as u8);
        file.extend(self.variables.iter().flatten());
        for core in 0..self.cores.len() {
            let Some(code) = self.codes.remove(&core) else { return missing(format!("the code of core {core} is missing")) };
            let code = code.resolved()?;
            let Ok(length) = u16::try_from(code.len()) else {
                return missing(format!("the code of core {core} has more than {MOST_WORD} bytes"));
            };
            file.extend(length.to_le_bytes());
            file.extend(code);
        }
        if let Some(core) = self.codes.keys().chain(self.values.keys()).find(|&&core| core >= self.cores.len()) {
            return missing(format!("core {core} has a section, but no line `core {core}: ..`"));
        }
        if form == Form::New {
            for core in 0..self.cores.len() {
                let values = self.values.remove(&core).unwrap_or_default();
                let Ok(count) = u16::try_from(values.len()) else {
                    return missing(format!("core {core} has more than {MOST_WORD} start values"));
                };
                file.extend(count.to_le_bytes());
                file.extend(values.iter().flat_map(|(place, byte)| [place.to_le_bytes()[0], place.to_le_bytes()[1], *byte]));
            }
        }
        Ok(file)
    }
}

/// `8: 00 80`
fn start_values(values: &mut Vec<(u16, u8)>, text: &str) -> Read<()> {
    let (place, bytes) = text.split_once(':').ok_or("start values are `PLACE: BYTES`")?;
    let place: u16 = number(place.trim(), "a start place", MOST_WORD)?;
    for (on, byte) in hex_bytes(bytes)?.into_iter().enumerate() {
        let place = place as usize + on;
        values.push((u16::try_from(place).map_err(|_| format!("start place {place} is above {MOST_WORD}"))?, byte));
    }
    Ok(())
}

impl Code {
    /// A label, an instruction, or both.
    fn line(&mut self, text: &str, line: usize) -> Read<()> {
        let Some((label, rest)) = text.split_once(':') else { return self.instruction(text, line) };
        let label = label.trim();
        if !is_label(label) {
            return Err(format!("a label is one word of letters, digits and `_`, not `{label}`"));
        }
        let here = u16::try_from(self.bytes.len()).map_err(|_| "the code is too long".to_string())?;
        if self.labels.insert(label.to_string(), here).is_some() {
            return Err(format!("label `{label}` is there already"));
        }
        let rest = rest.trim();
        if rest.is_empty() {
            Ok(())
        } else {
            self.instruction(rest, line)
        }
    }

    fn instruction(&mut self, text: &str, line: usize) -> Read<()> {
        let (name, rest) = text.split_once(char::is_whitespace).unwrap_or((text, ""));
        let command = instructions::COMMANDS.iter().find(|command| command.name == name).ok_or_else(|| format!("no command `{name}`"))?;
        self.bytes.push(command.code);
        let (types, others): (Vec<Operand>, Vec<Operand>) = command.operands.iter().partition(|operand| **operand == Operand::Type);
        let mut rest = rest.trim();
        for _ in types {
            let (word, behind) = rest.split_once(char::is_whitespace).unwrap_or((rest, ""));
            let kind = TYPES.iter().position(|name| *name == word).ok_or_else(|| format!("{name} wants a type, not `{word}`"))?;
            self.bytes.push(kind as u8);
            rest = behind.trim();
        }
        let words: Vec<&str> = if rest.is_empty() { Vec::new() } else { rest.split(',').map(str::trim).collect() };
        if words.len() != others.len() {
            return Err(format!("{name} has {} operands, not {}", others.len(), words.len()));
        }
        for (word, operand) in words.into_iter().zip(others) {
            self.operand(word, operand, line)?;
        }
        Ok(())
    }

    fn operand(&mut self, word: &str, operand: Operand, line: usize) -> Read<()> {
        match operand {
            Operand::Type => unreachable!("types come before the operands"),
            Operand::Address => self.bytes.extend(address(word)?.to_le_bytes()),
            Operand::Target => {
                if !is_label(word) {
                    return Err(format!("a label is wanted, not `{word}`"));
                }
                self.targets.push((self.bytes.len(), word.to_string(), line));
                self.bytes.extend([0; 2]);
            }
            Operand::Count => self.bytes.extend(numbered(word, "count")?.to_le_bytes()),
            Operand::Size => {
                let size = after(word, "size").ok_or_else(|| format!("`size` and a number are wanted, not `{word}`"))?;
                self.bytes.push(number(size, "size", 255)?);
            }
            Operand::Constant => {
                let bytes = hex_bytes(word)?;
                self.bytes.push(u8::try_from(bytes.len()).map_err(|_| "a constant has at most 8 bytes".to_string())?);
                self.bytes.extend(bytes);
            }
        }
        Ok(())
    }

    /// The code with its targets filled in.
    fn resolved(mut self) -> Result<Vec<u8>, Mistake> {
        for (at, label, line) in self.targets {
            let Some(place) = self.labels.get(&label) else {
                return Err(Mistake { line, words: format!("no label `{label}` in this code") });
            };
            self.bytes[at..at + 2].copy_from_slice(&place.to_le_bytes());
        }
        Ok(self.bytes)
    }
}

/// `@20` or `%20`
fn address(word: &str) -> Read<u16> {
    const MOST: u64 = ABSOLUTE as u64 - 1;
    if let Some(place) = word.strip_prefix('@') {
        return number(place, "an address", MOST);
    }
    if let Some(place) = word.strip_prefix('%') {
        return Ok(number::<u16>(place, "an address", MOST)? + ABSOLUTE);
    }
    Err(format!("an address is `@N` or `%N`, not `{word}`"))
}

fn is_label(word: &str) -> bool {
    !word.is_empty() && word.chars().all(|letter| letter.is_alphanumeric() || letter == '_')
}
