//! `rikzord takes`: memory and longest cycle of each core, from the file alone.

use crate::arguments::Arguments;
use crate::files;
use crate::{Command, Failure, Outcome, Terminal};
use rikzord::{Core, CALL_DEPTH};

pub const COMMAND: Command = Command {
    name: "takes",
    usage: "FILE",
    summary: "for sales: what the task will take, memory and longest cycle of each core",
    details: "The longest cycle is the greatest instruction count over every choice at the conditional jumps, and so is the call depth; each is attained by some\n\
        choice. `never` says that the core's instruction limit is never hit, or that no seventeenth call is ever nested; `may` that it can be. A task with a jump\n\
        or call to a place not above its own is refused (25), and one whose cycle may have more than 65,535 instructions (26).",
    perform,
};

fn perform(arguments: Arguments, terminal: &mut Terminal) -> Outcome {
    let [path] = arguments.names(["FILE"])?;
    let set = files::task_set(&path)?;
    let takes = set.takes().map_err(|refusal| Failure::refused(&path, refusal))?;
    let out = &mut terminal.output;
    writeln!(out, "memory in bytes")?;
    writeln!(out, "  data buffer    {:>6}", takes.data_buffer)?;
    writeln!(out, "  shared memory  {:>6}", takes.shared_memory)?;
    let (records, size) = (takes.core_table, size_of::<Core>());
    writeln!(out, "  core table     {:>6}  ({size} for each core)", records * size)?;
    writeln!(out)?;
    writeln!(out, "core   data  inputs  longest cycle   limit  limit hit  call depth  call fault")?;
    for (core, (task, longest)) in set.tasks().iter().zip(&takes.cores).enumerate() {
        let certain = |never: bool| if never { "never" } else { "may" };
        writeln!(
            out,
            "{core:>4}  {:>5}  {:>6}  {:>13}  {:>6}  {:>9}  {:>10}  {:>10}",
            task.data_size,
            task.input_size,
            longest.count,
            task.limit,
            certain(longest.count <= task.limit as u32),
            longest.depth,
            certain(longest.depth <= CALL_DEPTH as u32)
        )?;
    }
    Ok(())
}
