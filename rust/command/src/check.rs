//! `rikzord check`: whether a file is a task set, and whether sending it again makes sense.

use crate::arguments::Arguments;
use crate::files;
use crate::{Command, Failure, Outcome, Terminal};
use rikzord::Profile;

pub const COMMAND: Command = Command {
    name: "check",
    usage: "FILE [--small]",
    summary: "for a download tool: accepted, or the number, what it means and whether a retry makes sense",
    details: "With --small the file is judged for the smallest controller, which carries no 64-bit numbers and no floats.\n\
        A retry makes sense for number 1 alone: the file was cut in transit. A file that is refused otherwise came as it is, 24 (bytes follow its\n\
        last section) included.",
    perform,
};

fn perform(mut arguments: Arguments, terminal: &mut Terminal) -> Outcome {
    let profile = if arguments.has("--small") { Profile::Small } else { Profile::Full };
    let [path] = arguments.names(["FILE"])?;
    let file = files::read(&path, &files::TASK_SET)?;
    match rikzord::check(&file, profile) {
        Ok(()) => Ok(writeln!(terminal.output, "{path}: accepted")?),
        Err(refusal) => {
            let retry = if refusal.is_cut_in_transit() { "yes, send the file again" } else { "no, the file itself has to change" };
            writeln!(terminal.output, "{path}: {refusal}\nretry: {retry}")?;
            Err(Failure::Answered)
        }
    }
}
