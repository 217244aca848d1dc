//! `rikzord timeline`: a run as a picture, with an arrow from each writing to every reading that it fed.
//!
//! [`moments`] has what the picture shows of a run, step by step. What fed a reading is computed from the order of takings alone ([`sources`]); the moments say
//! only where in the picture an arrow begins and ends.

mod drawing;
mod layout;
mod page;
pub mod sources;

use crate::arguments::Arguments;
use crate::{files, run};
use crate::{Command, Outcome, Terminal};
use rikzord::{Mode, Refusal, Semaphore, State, Taking, TaskSet, Trace};
use sources::{readings, Source};
use std::path::Path;

pub use drawing::svg;

pub const COMMAND: Command = Command {
    name: "timeline",
    usage: "FILE TRACE|--trace-none ORDER OUT.svg",
    summary: "for the inspector: the steps of an order as a picture, with an arrow from each writing to every reading that it fed",
    details: "The picture, an SVG for any browser, has a lane for each core, time in steps from left to right, a band for each mode, faults, and the semaphore's holder and\n\
        line. Steps that change nothing are folded where they come in stretches. The answer says in words what the arrows show: for each reading the cycle of each\n\
        core whose writing fed it, or the start values. It follows from the order of takings alone. OUT.svg is written over one that is there. --trace-none as for\n\
        `run`.",
    perform,
};

fn perform(mut arguments: Arguments, terminal: &mut Terminal) -> Outcome {
    let (path, trace_path, order_path, out) = if arguments.has("--trace-none") {
        let [path, order, out] = arguments.names(["FILE", "ORDER", "OUT.svg"])?;
        (path, None, order, out)
    } else {
        let [path, trace, order, out] = arguments.names(["FILE", "TRACE", "ORDER", "OUT.svg"])?;
        (path, Some(trace), order, out)
    };
    let set = files::task_set(&path)?;
    let trace = files::trace(trace_path.as_deref(), &set)?;
    let order = files::read(&order_path, &files::ORDER)?;
    let (moments, _) = moments(&set, &trace, &order).map_err(|refusal| run::refused_order(&order_path, &set, refusal))?;
    let takings: Vec<Taking> = moments.iter().filter_map(|moment| moment.taking).collect();
    let readings = readings(&set, &takings);
    let names = [Some(&path), trace_path.as_ref(), Some(&order_path)];
    let names: Vec<&str> = names.into_iter().map(|path| path.map_or("no trace", |path| name_of(path))).collect();
    files::write(&out, svg(&names.join(", "), &set, &trace, &moments, &readings).as_bytes())?;
    writeln!(terminal.output, "{out}: {}, {}", counted(moments.len(), "step"), counted(takings.len(), "taking"))?;
    for reading in readings.iter().filter(|reading| !reading.sources.is_empty()) {
        let sources: Vec<String> = reading.sources.iter().map(Source::to_string).collect();
        writeln!(terminal.output, "core {}, cycle {}, read {}", reading.core, reading.cycle, sources.join(", "))?;
    }
    Ok(())
}

/// The file's name without the folders before it.
fn name_of(path: &str) -> &str {
    Path::new(path).file_name().and_then(|name| name.to_str()).unwrap_or(path)
}

/// A number with its noun.
fn counted(count: usize, noun: &str) -> String {
    format!("{count} {noun}{}", if count == 1 { "" } else { "s" })
}

/// One step of an order.
#[derive(Clone, PartialEq, Debug)]
pub struct Moment {
    pub core: u8,
    pub before: Mode,
    pub after: Mode,
    /// The taking that the step was.
    pub taking: Option<Taking>,
    /// Whether the step ended an exchange.
    pub released: bool,
    /// Whether the step changed nothing: mode and semaphore are as before, and the mode is one in which that can be.
    pub idle: bool,
    /// The flags that it set.
    pub raised: u8,
    /// Afterwards, with the line.
    pub semaphore: Semaphore,
    /// The core's complete cycles, afterwards.
    pub cycles: u16,
}

/// The steps of an order from the fresh state, and the state that they leave. As in a run, the order is judged whole before a step.
pub fn moments(set: &TaskSet, trace: &Trace, order: &[u8]) -> Result<(Vec<Moment>, State), Refusal> {
    State::fresh(set).run(set, trace, order)?;
    let mut state = State::fresh(set);
    let mut list = Vec::with_capacity(order.len());
    for &core in order {
        let (record, line) = (state.table()[core as usize], *state.semaphore());
        let taking = state.step(set, trace, core)?;
        let (before, after) = (record.mode(), &state.table()[core as usize]);
        let semaphore = *state.semaphore();
        list.push(Moment {
            core,
            before,
            after: after.mode(),
            taking,
            released: line.held_by() == Some(core) && semaphore.held_by().is_none(),
            idle: before == after.mode()
                && semaphore == line
                && matches!(before, Mode::BetweenCycles | Mode::WaitingToWrite | Mode::Stopped),
            raised: after.flags & !record.flags,
            semaphore,
            cycles: after.cycles,
        });
    }
    Ok((list, state))
}

#[cfg(test)]
mod tests {
    use super::*;
    use rikzord::Exchange;

    /// Document 01's listing: reading, RETURN, writing.
    #[test]
    fn the_moments_of_the_listing() {
        let set = TaskSet::load(&[0x4D, 0x43, 0x53, 0x31, 1, 1, 0, 0, 0, 1, 0, 0, 1, 0, 0]).expect("an accepted file");
        let (moments, state) = moments(&set, &Trace::none(&set), &[0; 6]).expect("core 0");
        let modes: Vec<u8> = moments.iter().map(|moment| moment.after.number()).collect();
        assert_eq!(modes, [1, 2, 3, 4, 0, 0]);
        let exchanges: Vec<_> = moments.iter().map(|moment| moment.taking.map(|taking| taking.exchange)).collect();
        assert_eq!(exchanges, [Some(Exchange::Reading), None, None, Some(Exchange::Writing), None, None]);
        assert_eq!(moments.iter().map(|moment| moment.released).collect::<Vec<_>>(), [false, true, false, false, true, false]);
        assert_eq!(moments.iter().map(|moment| moment.idle).collect::<Vec<_>>(), [false, false, false, false, false, true]);
        assert_eq!(moments.iter().map(|moment| moment.cycles).collect::<Vec<_>>(), [0, 0, 0, 0, 1, 1]);
        assert_eq!(moments[3].semaphore.held_by(), Some(0));
        assert_eq!(state.table()[0].cycles, 1);
    }

    /// Document 01's bench value: JMP 0 with limit 1.
    #[test]
    fn a_fault_raises_its_flag() {
        let file = [0x4D, 0x43, 0x53, 0x31, 1, 1, 0, 0, 0, 1, 0, 0, 3, 0, 1, 0, 0];
        let set = TaskSet::load(&file).expect("an accepted file");
        let (moments, _) = moments(&set, &Trace::none(&set), &[0; 4]).expect("core 0");
        assert_eq!(moments.iter().map(|moment| moment.raised).collect::<Vec<_>>(), [0, 0, 0, 2]);
        assert_eq!(moments[3].after, Mode::Stopped);
    }

    #[test]
    fn an_order_is_judged_whole() {
        let set = TaskSet::load(&[0x4D, 0x43, 0x53, 0x31, 1, 1, 0, 0, 0, 1, 0, 0, 1, 0, 0]).expect("an accepted file");
        assert_eq!(moments(&set, &Trace::none(&set), &[0, 1]), Err(Refusal::NoSuchCore));
    }
}
