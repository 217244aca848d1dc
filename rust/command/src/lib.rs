//! The command `rikzord`, for the people of the plant: thin over the proved library, with answers in words.
//!
//! A command is a row of [`COMMANDS`] and a module; every answer is that of the library (crate `rikzord`). `files` reads a file with its size bound,
//! `instructions` has the table of commands, and `report` says in words where cores stand.

pub mod arguments;
pub mod assemble;
pub mod check;
pub mod convert;
pub mod debug;
pub mod files;
pub mod instructions;
pub mod lowest;
pub mod report;
pub mod run;
pub mod show;
pub mod takes;
pub mod timeline;

use arguments::Arguments;
use rikzord::Refusal;
use std::fmt::Display;
use std::io::{self, BufRead, Write};

/// Exit status of a command that did what was asked.
pub const DONE: u8 = 0;
/// Exit status where the library refuses, or a text cannot be assembled.
pub const REFUSED: u8 = 1;
/// Exit status of wrong usage: no such command, wrong arguments, a file that cannot be read or written or is longer than its most.
pub const WRONG_USAGE: u8 = 2;

/// Why a command ends without doing what was asked.
#[derive(Debug)]
pub enum Failure {
    /// Refused, with what and why.
    Refused(String),
    /// Refused, as the answer says.
    Answered,
    /// Wrong arguments.
    Usage(String),
    /// A file that cannot be read or written, or is too long.
    File(String),
    /// The output cannot be written.
    Output(io::Error),
}

impl Failure {
    /// A refusal of what stands in a file, in words with its number.
    pub fn refused(what: impl Display, refusal: Refusal) -> Failure {
        Failure::Refused(format!("{what}: {refusal}"))
    }
}

impl From<io::Error> for Failure {
    fn from(error: io::Error) -> Failure {
        Failure::Output(error)
    }
}

/// What a command gives back.
pub type Outcome = Result<(), Failure>;

/// Where a command reads a dialogue from and writes its answers to.
pub struct Terminal<'t> {
    /// Whether somebody sits at it and wants to see when a line can be typed.
    pub interactive: bool,
    pub input: &'t mut dyn BufRead,
    pub output: &'t mut dyn Write,
}

/// A command: its name, its arguments, for whom it is and what it does, and the function.
pub struct Command {
    pub name: &'static str,
    pub usage: &'static str,
    pub summary: &'static str,
    /// What `rikzord NAME --help` says besides.
    pub details: &'static str,
    pub perform: fn(Arguments, &mut Terminal) -> Outcome,
}

/// Every command, in the order of the help.
pub const COMMANDS: &[Command] = &[
    check::COMMAND,
    takes::COMMAND,
    show::COMMAND,
    assemble::COMMAND,
    run::RUN,
    run::RERUN,
    lowest::COMMAND,
    convert::COMMAND,
    timeline::COMMAND,
    debug::COMMAND,
];

/// Performs a command line; the exit status.
pub fn run(arguments: &[String], terminal: &mut Terminal, errors: &mut dyn Write) -> u8 {
    let arguments: Vec<&str> = arguments.iter().map(String::as_str).collect();
    let command_named = |name: &str| COMMANDS.iter().find(|command| command.name == name);
    let (name, outcome) = match arguments[..] {
        [] => (None, Err(Failure::Usage("no command".to_string()))),
        ["--help" | "-h" | "help"] => (None, help(terminal)),
        ["--version"] => (None, writeln!(terminal.output, "rikzord {}", env!("CARGO_PKG_VERSION")).map_err(Failure::Output)),
        ["help", name] => match command_named(name) {
            None => (None, Err(Failure::Usage(format!("no command `{name}`")))),
            Some(command) => (Some(command.name), help_of(command, terminal)),
        },
        [name, ref rest @ ..] => match command_named(name) {
            None => (None, Err(Failure::Usage(format!("no command `{name}`")))),
            Some(command) if rest.contains(&"--help") || rest.contains(&"-h") => (Some(name), help_of(command, terminal)),
            Some(command) => (Some(name), (command.perform)(Arguments::new(rest), terminal)),
        },
    };
    let outcome = terminal.output.flush().map_err(Failure::Output).and(outcome);
    match outcome {
        Ok(()) => DONE,
        Err(failure) => {
            // There is nobody left to tell where the errors cannot be written either.
            let _ = tell(name, &failure, errors);
            match failure {
                Failure::Refused(_) | Failure::Answered => REFUSED,
                Failure::Usage(_) | Failure::File(_) | Failure::Output(_) => WRONG_USAGE,
            }
        }
    }
}

fn tell(name: Option<&str>, failure: &Failure, errors: &mut dyn Write) -> io::Result<()> {
    let speaker = name.map_or("rikzord".to_string(), |name| format!("rikzord {name}"));
    match failure {
        Failure::Answered => Ok(()),
        Failure::Refused(words) | Failure::File(words) => writeln!(errors, "{speaker}: {words}"),
        Failure::Usage(words) => writeln!(errors, "{speaker}: {words}; `{speaker} --help` says how it is used"),
        // A reader that has seen enough, such as `head`, is no error to speak of.
        Failure::Output(error) if error.kind() == io::ErrorKind::BrokenPipe => Ok(()),
        Failure::Output(error) => writeln!(errors, "{speaker}: cannot write the answer: {error}"),
    }
}

fn help(terminal: &mut Terminal) -> Outcome {
    let out = &mut terminal.output;
    writeln!(out, "rikzord: a multi-core task machine whose every step is proved\n")?;
    for command in COMMANDS {
        writeln!(out, "  rikzord {} {}", command.name, command.usage)?;
        writeln!(out, "      {}", command.summary)?;
    }
    writeln!(out, "\n`rikzord COMMAND --help` says more of one command.")?;
    writeln!(out, "Files are as document 01 has them, byte for byte; the most bytes of each:")?;
    for kind in files::KINDS {
        writeln!(out, "  {:<14} {:>9}", kind.name, kind.most)?;
    }
    writeln!(
        out,
        "Exit status: 0 done; 1 refused, with the number and what it means; 2 wrong usage, or a file that cannot be read or written or is"
    )?;
    writeln!(out, "longer than its most.")?;
    Ok(())
}

fn help_of(command: &Command, terminal: &mut Terminal) -> Outcome {
    let out = &mut terminal.output;
    writeln!(out, "rikzord {} {}\n", command.name, command.usage)?;
    writeln!(out, "{}", command.summary)?;
    if !command.details.is_empty() {
        writeln!(out, "\n{}", command.details)?;
    }
    Ok(())
}
