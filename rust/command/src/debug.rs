//! `rikzord debug`: a line-based stepper, at a terminal or from a pipe.

use crate::arguments::Arguments;
use crate::instructions::{self, Instruction};
use crate::{files, report, show};
use crate::{Command, Failure, Outcome, Terminal};
use rikzord::{Mode, Refusal, State, Taking, TaskSet, Trace};
use std::io::{self, Write};

pub const COMMAND: Command = Command {
    name: "debug",
    usage: "FILE TRACE|--trace-none",
    summary: "for builders of a debugger: step cores one by one and look at registers, line, code and data",
    details: "It starts from the fresh state and reads one line after another from the standard input, so that a dialogue can be stored and piped in; what it cannot\n\
        do it says, and goes on. `help` lists the lines that it takes. --trace-none is as for `run`.",
    perform,
};

const HELP: &str = "\
step K                  one step of core K
next                    one step of the next core to move, the first after the one that was stepped last
taking                  steps of the next cores, until one takes the semaphore
registers [K]           registers of core K, or of all
line                    who holds the semaphore, and who stands in line
code K [START LENGTH]   instructions of core K that start in a stretch of its code; `>` marks the program counter
data K START LENGTH     a stretch of core K's data
shared START LENGTH     a stretch of shared memory
order                   the takings so far
fresh                   back to the fresh state
help                    these lines
quit                    the end, as the end of the input is";

fn perform(mut arguments: Arguments, terminal: &mut Terminal) -> Outcome {
    let (path, trace_path) = if arguments.has("--trace-none") {
        let [path] = arguments.names(["FILE"])?;
        (path, None)
    } else {
        let [path, trace_path] = arguments.names(["FILE", "TRACE"])?;
        (path, Some(trace_path))
    };
    let set = files::task_set(&path)?;
    let trace = files::trace(trace_path.as_deref(), &set)?;
    let mut stepper = Stepper::new(&set, &trace);
    let mut line = Vec::new();
    loop {
        line.clear();
        if terminal.interactive {
            write!(terminal.output, "> ")?;
            terminal.output.flush()?;
        }
        let unread = |error| Failure::File(format!("the input cannot be read: {error}"));
        if read_line(terminal.input, &mut line).map_err(unread)? == 0 {
            return Ok(());
        }
        let text = String::from_utf8_lossy(&line);
        if text.trim() == "quit" {
            return Ok(());
        }
        match stepper.line(text.trim(), terminal.output) {
            Ok(()) => {}
            Err(Trouble::Asked(words)) => writeln!(terminal.output, "{words}")?,
            Err(Trouble::Output(error)) => return Err(Failure::Output(error)),
        }
        // Each answer is there before the next line is read.
        terminal.output.flush()?;
    }
}

/// The longest line that is read; the rest of a longer one is a line of its own.
const LONGEST_LINE: u64 = 1_000;

fn read_line(input: &mut dyn io::BufRead, line: &mut Vec<u8>) -> io::Result<usize> {
    io::BufRead::read_until(&mut io::Read::take(input, LONGEST_LINE), b'\n', line)
}

/// Why a line has no answer.
#[derive(Debug)]
pub enum Trouble {
    /// It asks for what is not there; said in words, and the dialogue goes on.
    Asked(String),
    /// The answer cannot be written.
    Output(io::Error),
}

impl From<io::Error> for Trouble {
    fn from(error: io::Error) -> Trouble {
        Trouble::Output(error)
    }
}

impl From<Refusal> for Trouble {
    fn from(refusal: Refusal) -> Trouble {
        Trouble::Asked(refusal.to_string())
    }
}

/// A state that is stepped, with what its takings were.
pub struct Stepper<'s> {
    set: &'s TaskSet,
    trace: &'s Trace,
    state: State,
    takings: Vec<Taking>,
    /// The core that was stepped last; the last one at first, so that core 0 comes first.
    last: u8,
}

impl<'s> Stepper<'s> {
    pub fn new(set: &'s TaskSet, trace: &'s Trace) -> Stepper<'s> {
        Stepper { set, trace, state: State::fresh(set), takings: Vec::new(), last: set.cores() - 1 }
    }

    /// Does what a line says, and writes the answer.
    pub fn line(&mut self, line: &str, out: &mut dyn Write) -> Result<(), Trouble> {
        let words: Vec<&str> = line.split_whitespace().collect();
        match words[..] {
            [] => {}
            ["step", core] => {
                let core = self.core(core)?;
                self.step(core, out)?;
            }
            ["next"] => _ = self.next(out)?,
            ["taking"] => while self.next(out)? == Some(false) {},
            ["registers"] => {
                for (number, core) in self.state.table().iter().enumerate() {
                    report::registers(out, number as u8, core)?;
                }
            }
            ["registers", core] => {
                let core = self.core(core)?;
                report::registers(out, core, &self.state.table()[core as usize])?;
            }
            ["line"] => report::semaphore(out, self.state.semaphore())?,
            ["code", core] => {
                let core = self.core(core)?;
                self.code(core, 0, self.set.tasks()[core as usize].code.len(), out)?;
            }
            ["code", core, start, length] => self.code(number(core)?, number(start)?, number(length)?, out)?,
            ["data", core, start, length] => {
                let (core, start) = (number(core)?, number(start)?);
                let bytes = self.state.data_window(self.set, core, start, number(length)?)?;
                report::bytes(out, &format!("core {core}"), start, bytes)?;
            }
            ["shared", start, length] => {
                let (start, length): (usize, usize) = (number(start)?, number(length)?);
                let bytes = start.checked_add(length).and_then(|end| self.state.shared().get(start..end));
                let beyond = || Trouble::Asked(format!("shared memory has {} bytes", self.state.shared().len()));
                report::bytes(out, "shared", start, bytes.ok_or_else(beyond)?)?;
            }
            ["order"] => report::takings(out, &self.takings)?,
            ["fresh"] => {
                *self = Stepper::new(self.set, self.trace);
                writeln!(out, "the fresh state")?;
            }
            ["help"] => writeln!(out, "{HELP}")?,
            _ => return Err(Trouble::Asked(format!("no such line: `{}`; `help` lists what there is", line.escape_debug()))),
        }
        Ok(())
    }

    /// A core of the task set.
    fn core(&self, word: &str) -> Result<u8, Trouble> {
        let core = number(word)?;
        if core < self.set.cores() {
            return Ok(core);
        }
        Err(Trouble::Asked(format!("{}; {}", Refusal::NoSuchCore, report::cores(self.set))))
    }

    /// A step of the next core; whether it was a taking, or none where no core can move.
    fn next(&mut self, out: &mut dyn Write) -> Result<Option<bool>, Trouble> {
        match self.state.next_core(self.set, self.trace, self.last)? {
            Some(core) => self.step(core, out).map(Some),
            None => {
                writeln!(out, "no core can move: each is stopped or out of records")?;
                Ok(None)
            }
        }
    }

    /// A step, and what it did; whether it was a taking.
    fn step(&mut self, core: u8, out: &mut dyn Write) -> Result<bool, Trouble> {
        let before = self.state.clone();
        let taking = self.state.step(self.set, self.trace, core)?;
        self.takings.extend(taking);
        self.last = core;
        writeln!(out, "core {core}: {}", self.step_words(&before, core, taking))?;
        Ok(taking.is_some())
    }

    fn step_words(&self, state_before: &State, core: u8, taking: Option<Taking>) -> String {
        let (before, after) = (&state_before.table()[core as usize], &self.state.table()[core as usize]);
        if let Some(taking) = taking {
            return format!("takes the semaphore, {} ({taking})", after.mode().words());
        }
        if *state_before == self.state {
            return match before.mode() {
                Mode::Stopped => "stopped, nothing changes".to_string(),
                _ if self.state.semaphore().in_line().contains(&core) => "waits in line, nothing changes".to_string(),
                _ => "out of records, nothing changes".to_string(),
            };
        }
        match (before.mode(), after.mode()) {
            (Mode::BetweenCycles | Mode::WaitingToWrite, _) => "joins the line".to_string(),
            (Mode::Reading, Mode::Reading) | (Mode::Writing, Mode::Writing) => {
                format!("{}, bytes copied: {}", after.mode().words(), after.exchange)
            }
            (Mode::Reading, _) => "releases the semaphore, executing".to_string(),
            (Mode::Writing, _) => format!("releases the semaphore, cycle {} complete", after.cycles),
            (_, Mode::Stopped) => {
                let faults = rikzord::flag_words(after.flags & !before.flags).join(", ");
                format!("{}: stopped, {faults}", self.instruction(core, before.counter).text())
            }
            (_, mode) => {
                let text = self.instruction(core, before.counter).text();
                let on = if mode == Mode::WaitingToWrite { mode.words().to_string() } else { format!("next {}", after.counter) };
                format!("{text}, {on}")
            }
        }
    }

    fn instruction(&self, core: u8, place: u16) -> Instruction {
        instructions::decode_one(&self.set.tasks()[core as usize].code, place as usize).0
    }

    /// The instructions that start in a stretch.
    fn code(&self, core: u8, start: usize, length: usize, out: &mut dyn Write) -> Result<(), Trouble> {
        self.state.code_window(self.set, core, start, length)?;
        let counter = self.state.table()[core as usize].counter;
        for instruction in instructions::decode(&self.set.tasks()[core as usize].code) {
            if (start..start + length).contains(&(instruction.place as usize)) {
                let mark = if instruction.place == counter { '>' } else { ' ' };
                writeln!(out, "{mark}{}", &show::instruction_line(&instruction)[1..])?;
            }
        }
        Ok(())
    }
}

fn number<T: std::str::FromStr>(word: &str) -> Result<T, Trouble> {
    word.parse().map_err(|_| Trouble::Asked(format!("`{word}` is no such number")))
}
