//! `rikzord show`: a task set in words, as a text that `rikzord assemble` turns back into the same bytes.

use crate::arguments::Arguments;
use crate::files;
use crate::instructions::{self, hex, label, Instruction};
use crate::{Command, Outcome, Terminal};
use rikzord::{Form, Lines, Task, TaskSet, Variable};
use std::fmt::Write as _;

pub const COMMAND: Command = Command {
    name: "show",
    usage: "FILE",
    summary: "for everybody: the task set in words, with the code as readable instructions",
    details: "The text has the cores with their sizes and limits, the variables with writer, readers and places, the start values, and the code.\n\
        An instruction stands with its types by name and its operands; what it does is said after `#`, behind its code place. `@20` is place 20 counted\n\
        from the data offset, `%20` the absolute place 20. `rikzord assemble` turns the text back into the same bytes.",
    perform,
};

fn perform(arguments: Arguments, terminal: &mut Terminal) -> Outcome {
    let [path] = arguments.names(["FILE"])?;
    let set = files::task_set(&path)?;
    Ok(terminal.output.write_all(text(&set).as_bytes())?)
}

/// The text of a task set.
pub fn text(set: &TaskSet) -> String {
    let mut text = String::new();
    let counted = |count: usize, what: &str| format!("{count} {what}{}", if count == 1 { "" } else { "s" });
    let form = if set.form() == Form::Old { "old" } else { "new" };
    line(&mut text, format!("task set, {form} form"));
    let (cores, variables) = (counted(set.tasks().len(), "core"), counted(set.variables().len(), "variable"));
    line(&mut text, format!("# {cores}, {variables}, {} bytes; {}", set.file().len(), lines_in_words(set.lines())));
    line(&mut text, String::new());
    for (core, task) in set.tasks().iter().enumerate() {
        line(&mut text, format!("core {core}: data {}, input {}, limit {}", task.data_size, task.input_size, task.limit));
    }
    if !set.variables().is_empty() {
        line(&mut text, String::new());
    }
    for (number, variable) in set.variables().iter().enumerate() {
        line(&mut text, variable_text(number, variable));
    }
    for (core, task) in set.tasks().iter().enumerate().filter(|(_, task)| !task.start_values.is_empty()) {
        line(&mut text, format!("\nstart values of core {core}"));
        for (place, bytes) in stretches(&task.start_values) {
            line(&mut text, format!("    {place}: {}", hex(&bytes)));
        }
    }
    for (core, task) in set.tasks().iter().enumerate() {
        line(&mut text, format!("\ncode of core {core}"));
        code_text(&mut text, task);
    }
    text
}

fn line(text: &mut String, line: String) {
    writeln!(text, "{line}").expect("a string takes every line");
}

fn lines_in_words(lines: Lines) -> &'static str {
    match lines {
        Lines::Free => "no two cores read each other, and the lines between them form no ring",
        Lines::EachOther => "two cores read each other",
        Lines::Ring => "no two cores read each other, but the lines between them form a ring",
    }
}

fn variable_text(number: usize, variable: &Variable) -> String {
    let Variable { shared, width, writer, readers } = variable;
    let written = format!("variable {number}: shared {shared}, width {width}, written by core {} at {}", writer.core, writer.place);
    readers.iter().fold(written, |text, reader| text + &format!(", read by core {} at {}", reader.core, reader.place))
}

/// Start values at places that follow each other, at most 16 in a stretch.
fn stretches(values: &[(u16, u8)]) -> Vec<(u16, Vec<u8>)> {
    const LONGEST: usize = 16;
    let mut list: Vec<(u16, Vec<u8>)> = Vec::new();
    for &(place, byte) in values {
        match list.last_mut() {
            Some((start, bytes)) if *start as usize + bytes.len() == place as usize && bytes.len() < LONGEST => bytes.push(byte),
            _ => list.push((place, vec![byte])),
        }
    }
    list
}

fn code_text(text: &mut String, task: &Task) {
    let instructions = instructions::decode(&task.code);
    let targets: Vec<u16> = instructions.iter().filter_map(Instruction::target).collect();
    for instruction in &instructions {
        if targets.contains(&instruction.place) {
            line(text, format!("{}:", label(instruction.place)));
        }
        line(text, instruction_line(instruction));
    }
}

/// An instruction, its code place and what it does.
pub fn instruction_line(instruction: &Instruction) -> String {
    format!("    {:<44} # {:>4}  {}", instruction.columns(), instruction.place, instruction.effect())
}
