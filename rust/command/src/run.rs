//! `rikzord run` and `rikzord rerun`: where the cores stand after an order of steps, or after the takings of an order list.

use crate::arguments::Arguments;
use crate::{files, report};
use crate::{Command, Failure, Outcome, Terminal};
use rikzord::{Refusal, State, Taking, TaskSet, Trace};

pub const RUN: Command = Command {
    name: "run",
    usage: "FILE TRACE|--trace-none ORDER",
    summary: "for the bench: listing, order of takings, registers and memory after the steps of an order",
    details: "The order has one byte a step, the core's number; the run starts fresh. With --trace-none every core has one record of time 0 and\n\
        inputs 0, for fitters at a cold plant; an empty TRACE means the same. The first lines are those that the program `cores` prints. A memory is shown up\n\
        to its last line with a byte other than 0.",
    perform: run,
};

pub const RERUN: Command = Command {
    name: "rerun",
    usage: "FILE TRACE|--trace-none LIST",
    summary: "for service: where the plant's cores stood, from the order list and the trace that the plant sends",
    details: "The list has one byte a taking, the core's number, plus 16 for a writing. What is shown is how every run with those takings ends once each core is\n\
        between cycles, stopped or waiting to write. A list that no order of steps produces is refused (33). --trace-none as for `run`.",
    perform: rerun,
};

/// Task set, trace and a last file of a command line.
struct Read {
    set: TaskSet,
    trace: Trace,
    last_path: String,
    last: Vec<u8>,
}

fn read(mut arguments: Arguments, last: &str, kind: &files::Kind) -> Result<Read, Failure> {
    let (path, trace_path, last_path) = if arguments.has("--trace-none") {
        let [path, last_path] = arguments.names(["FILE", last])?;
        (path, None, last_path)
    } else {
        let [path, trace_path, last_path] = arguments.names(["FILE", "TRACE", last])?;
        (path, Some(trace_path), last_path)
    };
    let set = files::task_set(&path)?;
    let trace = files::trace(trace_path.as_deref(), &set)?;
    let last = files::read(&last_path, kind)?;
    Ok(Read { set, trace, last_path, last })
}

fn run(arguments: Arguments, terminal: &mut Terminal) -> Outcome {
    let Read { set, trace, last_path, last } = read(arguments, "ORDER", &files::ORDER)?;
    let mut state = State::fresh(&set);
    let takings = state.run(&set, &trace, &last).map_err(|refusal| refused_order(&last_path, &set, refusal))?;
    Ok(report::state(terminal.output, &state, Some(&takings))?)
}

/// A refused order, with the cores that there are where it names another.
pub fn refused_order(path: &str, set: &TaskSet, refusal: Refusal) -> Failure {
    match refusal {
        Refusal::NoSuchCore => Failure::Refused(format!("{path}: {refusal}; {}", report::cores(set))),
        refusal => Failure::refused(path, refusal),
    }
}

fn rerun(arguments: Arguments, terminal: &mut Terminal) -> Outcome {
    let Read { set, trace, last_path, last } = read(arguments, "LIST", &files::ORDER_LIST)?;
    let state = State::rerun(&set, &trace, &last).map_err(|refusal| match refusal {
        Refusal::ListNotProduced => Failure::Refused(format!("{last_path}: {refusal}; {}", first_unproduced(&set, &trace, &last))),
        refusal => Failure::refused(&last_path, refusal),
    })?;
    Ok(report::state(terminal.output, &state, None)?)
}

/// The first taking of a refused list that cannot come after those before it. What an order of steps produces, it produces from the front on, so that the
/// refused lists are those from some length on.
fn first_unproduced(set: &TaskSet, trace: &Trace, list: &[u8]) -> String {
    let lengths: Vec<usize> = (1..=list.len()).collect();
    let at = lengths.partition_point(|&length| State::rerun(set, trace, &list[..length]).is_ok());
    match Taking::from_byte(list[at]).filter(|taking| taking.core < set.cores()) {
        Some(taking) => format!("it fails at taking {at}, counted from 0: {taking}"),
        None => format!("it fails at taking {at}, counted from 0: byte {}, which names no core of the task set", list[at]),
    }
}
