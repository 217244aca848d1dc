//! `rikzord convert`: a task set file in the other form.

use crate::arguments::Arguments;
use crate::files;
use crate::{Command, Failure, Outcome, Terminal};
use rikzord::{Refusal, TaskSet};

pub const COMMAND: Command = Command {
    name: "convert",
    usage: "--new|--old IN OUT",
    summary: "for plants: a task set file in the form with start values (--new), or without (--old)",
    details: "An old file becomes new with no start values. A new file goes back where it has none, else it is refused (32). Both ways together return the first file,\n\
        and both files run alike. A file that is in the wanted form already is refused (2). OUT is written only where IN is accepted.",
    perform,
};

fn perform(mut arguments: Arguments, terminal: &mut Terminal) -> Outcome {
    let form = match (arguments.has("--new"), arguments.has("--old")) {
        (true, false) => "new",
        (false, true) => "old",
        (true, true) => return Err(Failure::Usage("--new and --old are both given".to_string())),
        (false, false) => return Err(Failure::Usage("--new or --old is missing".to_string())),
    };
    let [path, out] = arguments.names(["IN", "OUT"])?;
    let file = files::read(&path, &files::TASK_SET)?;
    let made = if form == "new" { rikzord::to_new(&file) } else { rikzord::to_old(&file) };
    let made = made.map_err(|refusal| match refusal {
        // Of a task set the mark can only be that of the form that is made.
        Refusal::Mark if TaskSet::load(&file).is_ok() => {
            Failure::Refused(format!("{path}: refused, {}: the file is in the {form} form already", refusal.number()))
        }
        refusal => Failure::refused(&path, refusal),
    })?;
    files::write(&out, &made)?;
    writeln!(terminal.output, "{out}: {} bytes", made.len())?;
    Ok(())
}
