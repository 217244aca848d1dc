//! Where cores stand, in words: the listing of the program `cores`, registers, the semaphore with its line, memories.

use rikzord::{flag_words, Core, Mode, Semaphore, State, Taking, TaskSet};
use std::io::{self, Write};

/// The lines of the listing that `cores` prints, without the order of takings.
pub fn listing(out: &mut dyn Write, state: &State) -> io::Result<()> {
    writeln!(out, "core mode cycles flags count")?;
    for (number, core) in state.table().iter().enumerate() {
        writeln!(out, "{number} {} {} {} {}", core.mode().number(), core.cycles, core.flags, core.count)?;
    }
    Ok(())
}

/// The order of takings, as `cores` prints it.
pub fn takings(out: &mut dyn Write, takings: &[Taking]) -> io::Result<()> {
    write!(out, "order")?;
    for taking in takings {
        write!(out, " {taking}")?;
    }
    writeln!(out)
}

/// A core's registers and open calls.
pub fn registers(out: &mut dyn Write, number: u8, core: &Core) -> io::Result<()> {
    let cycles = match core.cycles {
        1 => "1 cycle complete".to_string(),
        cycles => format!("{cycles} cycles complete"),
    };
    writeln!(out, "core {number}: {}, {cycles}, {}", core.mode().words(), flags(core.flags))?;
    // A TIME is signed; the register has its bytes.
    let time = core.time as i32;
    let Core { counter, offset, count, .. } = core;
    write!(out, "    time {time} ms, program counter {counter}, data offset {offset}, instruction count {count}")?;
    if matches!(core.mode(), Mode::Reading | Mode::Writing) {
        write!(out, ", exchange number {}", core.exchange)?;
    }
    writeln!(out)?;
    for (place, offset) in core.stack() {
        writeln!(out, "    open call: back to {place} with data offset {offset}")?;
    }
    Ok(())
}

/// The flag byte, with what each bit says.
pub fn flags(flags: u8) -> String {
    match flag_words(flags)[..] {
        [] => "no flags".to_string(),
        ref words => format!("flags {flags} ({})", words.join(", ")),
    }
}

/// Who holds the semaphore, and who stands in line for it.
pub fn semaphore(out: &mut dyn Write, semaphore: &Semaphore) -> io::Result<()> {
    let held = semaphore.held_by().map_or("free".to_string(), |core| format!("held by core {core}"));
    let line = match semaphore.in_line() {
        [] => "nobody in line".to_string(),
        line => format!("in line: {}", line.iter().map(|core| format!("core {core}")).collect::<Vec<_>>().join(", ")),
    };
    writeln!(out, "semaphore: {held}, {line}")
}

/// Bytes of a memory in a line.
const IN_A_LINE: usize = 8;

/// Bytes in lines of eight, each with its place.
pub fn bytes(out: &mut dyn Write, what: &str, start: usize, bytes: &[u8]) -> io::Result<()> {
    for (number, line) in bytes.chunks(IN_A_LINE).enumerate() {
        let bytes: Vec<String> = line.iter().map(|byte| format!("{byte:02x}")).collect();
        writeln!(out, "{what} at {}: {}", start + number * IN_A_LINE, bytes.join(" "))?;
    }
    Ok(())
}

/// Every memory, each up to the last line of eight that has a byte other than 0.
pub fn memories(out: &mut dyn Write, state: &State) -> io::Result<()> {
    let used = |memory: &[u8]| {
        let end = memory.iter().rposition(|&byte| byte != 0).map_or(0, |last| last + 1);
        memory.len().min(end.next_multiple_of(IN_A_LINE))
    };
    for core in 0..state.table().len() as u8 {
        let data = state.data(core);
        bytes(out, &format!("core {core}"), 0, &data[..used(data)])?;
    }
    bytes(out, "shared", 0, &state.shared()[..used(state.shared())])
}

/// All of a state: listing, order of takings where there is one, registers, semaphore, memories.
pub fn state(out: &mut dyn Write, state: &State, order: Option<&[Taking]>) -> io::Result<()> {
    listing(out, state)?;
    if let Some(order) = order {
        takings(out, order)?;
    }
    writeln!(out)?;
    for (number, core) in state.table().iter().enumerate() {
        registers(out, number as u8, core)?;
    }
    semaphore(out, state.semaphore())?;
    writeln!(out)?;
    memories(out, state)
}

/// The number of cores, for those who name one that is not there.
pub fn cores(set: &TaskSet) -> String {
    match set.cores() {
        1 => "the task set has core 0 alone".to_string(),
        cores => format!("the task set has cores 0 to {}", cores - 1),
    }
}
