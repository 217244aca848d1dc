//! `rikzord lowest`: each record of the holding tube with its lowest reading over the holding time.

use crate::arguments::Arguments;
use crate::files;
use crate::{Command, Failure, Outcome, Terminal};

pub const COMMAND: Command = Command {
    name: "lowest",
    usage: "--span MS [--least READING] RECORDS",
    summary: "for a dairy: each record with its lowest reading over the holding time, under-held ones marked",
    details: "A record has six bytes, a TIME in milliseconds and a reading as INT; times don't fall. The span is the holding time, 1 to 600,000 milliseconds. A record\n\
        is under-held where the lowest reading of the span up to it is below --least, 720 if none is named: 72.0 degrees in tenths.",
    perform,
};

/// 72.0 degrees Celsius, in tenths.
const LEAST: i16 = 720;

fn perform(mut arguments: Arguments, terminal: &mut Terminal) -> Outcome {
    let span = arguments.value_of("--span")?.ok_or(Failure::Usage("--span MS is missing".to_string()))?;
    let least = match arguments.value_of("--least")? {
        None => LEAST,
        Some(word) => word.parse().map_err(|_| Failure::Usage(format!("--least is a reading, -32768 to 32767, not `{word}`")))?,
    };
    let whole = |word: &str| !word.is_empty() && word.bytes().all(|byte| byte.is_ascii_digit());
    if !whole(&span) {
        return Err(Failure::Usage(format!("--span is a number of milliseconds, not `{span}`")));
    }
    let [path] = arguments.names(["RECORDS"])?;
    let run = files::read(&path, &files::RECORDS)?;
    // A number that is too large for the call is one that it refuses.
    let span = span.parse().unwrap_or(u32::MAX);
    let lowest = rikzord::lowest(&run, span).map_err(|refusal| Failure::refused(&path, refusal))?;
    let out = &mut terminal.output;
    writeln!(out, "span {span} ms; under-held where the lowest reading is below {least}")?;
    writeln!(out, "      time  reading   lowest")?;
    for (record, lowest) in rikzord::records(&run).iter().zip(&lowest) {
        let mark = if *lowest < least { "  under-held" } else { "" };
        writeln!(out, "{:>10}  {:>7}  {lowest:>7}{mark}", record.time, record.reading)?;
    }
    writeln!(out, "{} records, {} under-held", lowest.len(), lowest.iter().filter(|lowest| **lowest < least).count())?;
    Ok(())
}
