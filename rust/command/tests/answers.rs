//! Every result in a stored dialogue, computed a second time by the independent machine: refusal numbers, listings, registers, memories, what a task takes, lowest
//! readings, converted files, what fed each reading, and where a debugger's steps lead. What the independent machine finds is written out here, by other code than the command's.

mod support;

use independent::holding;
use independent::reference::{self, refusal, Core, Profile, Semaphore, SHARED_SIZE};
use independent::rerun::{rerun, Lent};
use independent::{bounds, window};
use std::fs;
use std::path::Path;
use support::{dialogues, folder, perform, Exchange};

#[test]
fn answers_are_the_independent_machines() {
    let folder = folder("answers");
    let mut compared = 0;
    for (path, exchanges) in dialogues() {
        for exchange in exchanges {
            // What an exchange writes is there for the next.
            perform(&folder, &exchange);
            let name = format!("{}: {}", path.display(), exchange.arguments.join(" "));
            let asked = Asked::new(&folder, &exchange);
            let Some(asked) = asked else { continue };
            match exchange.arguments[0].as_str() {
                "check" => check(&asked, &name),
                "takes" => takes(&asked, &name),
                "run" => run(&asked, &name),
                "rerun" => reruns(&asked, &name),
                "lowest" => lowest(&asked, &name),
                "convert" => convert(&folder, &asked, &name),
                "timeline" => timeline(&asked, &name),
                "debug" => debug(&asked, &name),
                _ => continue,
            }
            compared += 1;
        }
    }
    assert!(compared > 50, "{compared} exchanges compared");
}

/// An exchange that is no wrong usage, with the files that it names.
struct Asked {
    exchange: Exchange,
    options: Vec<String>,
    names: Vec<String>,
    files: Vec<Vec<u8>>,
}

impl Asked {
    fn new(folder: &Path, exchange: &Exchange) -> Option<Asked> {
        if exchange.status == 2 || exchange.arguments.iter().any(|argument| argument == "--help") {
            return None;
        }
        let mut options = Vec::new();
        let mut names = Vec::new();
        let mut arguments = exchange.arguments[1..].iter();
        while let Some(argument) = arguments.next() {
            options.extend(argument.starts_with("--").then(|| argument.clone()));
            match argument.as_str() {
                "--span" | "--least" => options.extend(arguments.next().cloned()),
                name if !name.starts_with("--") => names.push(name.to_string()),
                _ => {}
            }
        }
        let files = names.iter().map(|name| fs::read(folder.join(name)).unwrap_or_default()).collect();
        Some(Asked { exchange: exchange.clone(), options, names, files })
    }

    fn has(&self, option: &str) -> bool {
        self.options.iter().any(|given| given == option)
    }

    fn value_of(&self, option: &str) -> Option<&str> {
        let at = self.options.iter().position(|given| given == option)?;
        Some(&self.options[at + 1])
    }

    /// Task set, trace and a third file.
    fn three(&self) -> (&[u8], &[u8], &[u8]) {
        match &self.files[..] {
            [file, last] if self.has("--trace-none") => (file, &[], last),
            [file, trace, last] => (file, trace, last),
            files => panic!("{} files", files.len()),
        }
    }

    fn is(&self, expected: &str, name: &str) {
        assert_eq!((self.exchange.answer.join("\n") + "\n").trim_end(), expected.trim_end(), "{name}");
        assert_eq!((self.exchange.status, self.exchange.errors.len()), (0, 0), "{name}");
    }

    /// The error output has this refusal, of this file.
    fn refused(&self, number: u8, named: usize, name: &str) {
        assert_eq!((self.exchange.status, self.exchange.answer.len()), (1, 0), "{name}");
        let words = format!("{}: refused, {number}: ", self.names[named]);
        assert!(self.exchange.errors[0].contains(&words), "{name}: {:?} has not `{words}`", self.exchange.errors);
    }
}

fn check(asked: &Asked, name: &str) {
    let profile = if asked.has("--small") { Profile::Small } else { Profile::Full };
    let number = reference::check_file_for(profile, &asked.files[0]);
    let answer = &asked.exchange.answer;
    if number == refusal::NONE {
        return asked.is(&format!("{}: accepted", asked.names[0]), name);
    }
    assert_eq!(asked.exchange.status, 1, "{name}");
    assert!(answer[0].starts_with(&format!("{}: refused, {number}: ", asked.names[0])), "{name}: {answer:?}");
    let retry = if number == refusal::FILE_END { "retry: yes" } else { "retry: no" };
    assert!(answer[1].starts_with(retry), "{name}: {answer:?}");
}

fn takes(asked: &Asked, name: &str) {
    let file = &asked.files[0];
    let (mut lengths, mut counts, mut depths) = ([0; 3], [0; 4], [0; 4]);
    let number = bounds::takes(file, &mut lengths, &mut counts, &mut depths);
    if number != refusal::NONE {
        return asked.refused(number, 0, name);
    }
    let numbers = |line: &str| line.split_whitespace().filter_map(|word| word.parse().ok()).collect::<Vec<usize>>();
    let answer = &asked.exchange.answer;
    assert_eq!(answer[1..=3].iter().map(|line| numbers(line)[0]).collect::<Vec<_>>(), [lengths[0], lengths[1], 84 * lengths[2]], "{name}");
    for core in 0..lengths[2] {
        let limit = u16::from_le_bytes([file[9 + 6 * core], file[10 + 6 * core]]) as usize;
        let line = numbers(&answer[6 + core]);
        assert_eq!((line[0], line[3], line[4], line[5]), (core, counts[core] as usize, limit, depths[core] as usize), "{name}");
    }
}

/// Where the independent machine starts.
fn fresh(file: &[u8]) -> Result<Lent, u8> {
    match reference::check_file(file) {
        refusal::NONE => {}
        number => return Err(number),
    }
    let size = |core: usize| u16::from_le_bytes([file[5 + 6 * core], file[6 + 6 * core]]) as usize;
    let cores = file[4] as usize;
    let mut lent = Lent {
        table: vec![Core::default(); cores],
        semaphore: Semaphore::default(),
        buffer: vec![0; (0..cores).map(size).sum()],
        shared: vec![0; SHARED_SIZE],
    };
    assert_eq!(reference::fresh(file, &mut lent.table, &mut lent.semaphore, &mut lent.buffer, &mut lent.shared), refusal::NONE);
    Ok(lent)
}

fn run(asked: &Asked, name: &str) {
    let (file, trace, order) = asked.three();
    let mut lent = match fresh(file) {
        Ok(lent) => lent,
        Err(number) => return asked.refused(number, 0, name),
    };
    let (mut list, mut taken) = (vec![0; order.len()], 0);
    let Lent { table, semaphore, buffer, shared } = &mut lent;
    match reference::run(file, trace, table, semaphore, buffer, shared, order, &mut list, &mut taken) {
        refusal::NONE => {}
        refusal::TRACE => return asked.refused(refusal::TRACE, 1, name),
        number => return asked.refused(number, asked.names.len() - 1, name),
    }
    asked.is(&(reference::cores(file, trace, order) + "\n" + &standing(file, &lent)), name);
}

fn reruns(asked: &Asked, name: &str) {
    let (file, trace, list) = asked.three();
    let mut lent = match fresh(file) {
        Ok(lent) => lent,
        Err(number) => return asked.refused(number, 0, name),
    };
    match rerun(file, trace, list, &mut lent) {
        refusal::NONE => {}
        refusal::TRACE => return asked.refused(refusal::TRACE, 1, name),
        number => return asked.refused(number, asked.names.len() - 1, name),
    }
    let lines = lent.table.iter().enumerate().map(|(core, Core { registers: r, .. })| {
        let (mode, cycles, flags, count) = (r.mode, r.cycles, r.flags, r.count);
        format!("{core} {mode} {cycles} {flags} {count}\n")
    });
    let listing: String = lines.collect();
    asked.is(&format!("core mode cycles flags count\n{listing}\n{}", standing(file, &lent)), name);
}

/// Registers, semaphore and memories as the command words them.
fn standing(file: &[u8], lent: &Lent) -> String {
    let mut text: String = (0..lent.table.len()).map(|core| registers(core, &lent.table[core])).collect();
    text += &line(&lent.semaphore);
    text += "\n";
    let mut begin = 0;
    for core in 0..lent.table.len() {
        let size = u16::from_le_bytes([file[5 + 6 * core], file[6 + 6 * core]]) as usize;
        text += &memory(&format!("core {core}"), &lent.buffer[begin..begin + size]);
        begin += size;
    }
    text + &memory("shared", &lent.shared)
}

fn registers(number: usize, core: &Core) -> String {
    const MODES: [&str; 6] = ["between cycles", "reading", "executing", "waiting to write", "writing", "stopped"];
    const FLAGS: [&str; 7] = [
        "array index",
        "instruction limit",
        "cold start",
        "zero divisor",
        "address beyond the data",
        "seventeenth nested call",
        "a result that the destination cannot hold",
    ];
    let r = &core.registers;
    let bits: Vec<&str> = (0..7).filter(|bit| r.flags & (1 << bit) != 0).map(|bit| FLAGS[bit]).collect();
    let flags = if r.flags == 0 { "no flags".to_string() } else { format!("flags {} ({})", r.flags, bits.join(", ")) };
    let cycles = if r.cycles == 1 { "1 cycle".to_string() } else { format!("{} cycles", r.cycles) };
    let mut text = format!("core {number}: {}, {cycles} complete, {flags}\n", MODES[r.mode as usize]);
    let (time, counter, offset, count) = (r.time as i32, r.counter, r.offset, r.count);
    text += &format!("    time {time} ms, program counter {counter}, data offset {offset}, instruction count {count}");
    if r.mode == 1 || r.mode == 4 {
        text += &format!(", exchange number {}", r.exchange);
    }
    text += "\n";
    for at in 0..r.depth as usize {
        text += &format!("    open call: back to {} with data offset {}\n", core.places[at], core.offsets[at]);
    }
    text
}

fn line(semaphore: &Semaphore) -> String {
    let held = if semaphore.holder == 0 { "free".to_string() } else { format!("held by core {}", semaphore.holder - 1) };
    let names: Vec<String> = semaphore.line[..semaphore.waiting as usize].iter().map(|core| format!("core {core}")).collect();
    let line = if names.is_empty() { "nobody in line".to_string() } else { format!("in line: {}", names.join(", ")) };
    format!("semaphore: {held}, {line}\n")
}

fn stretch(what: &str, start: usize, bytes: &[u8]) -> String {
    let mut text = String::new();
    for (at, byte) in bytes.iter().enumerate() {
        if at % 8 == 0 {
            text += &format!("{what} at {}:", start + at);
        }
        text += &format!(" {byte:02x}");
        if at % 8 == 7 || at + 1 == bytes.len() {
            text += "\n";
        }
    }
    text
}

/// Up to the last line with a byte other than 0.
fn memory(what: &str, memory: &[u8]) -> String {
    let lines = memory.chunks(8).rposition(|line| line.iter().any(|&byte| byte != 0)).map_or(0, |last| last + 1);
    stretch(what, 0, &memory[..memory.len().min(8 * lines)])
}

fn lowest(asked: &Asked, name: &str) {
    let run = &asked.files[0];
    let span = asked.value_of("--span").expect("a span").parse::<u64>().expect("a number").min(u32::MAX as u64) as u32;
    let least: i16 = asked.value_of("--least").map_or(720, |least| least.parse().expect("a reading"));
    let mut answers = vec![0; 2 * run.len().div_ceil(6)];
    let number = holding::lowest(run, span, &mut answers);
    if number != holding::NONE {
        return asked.refused(number, 0, name);
    }
    let mut text = format!("span {span} ms; under-held where the lowest reading is below {least}\n      time  reading   lowest\n");
    let mut under = 0;
    for (record, answer) in run.chunks(6).zip(answers.chunks(2)) {
        let time = i32::from_le_bytes([record[0], record[1], record[2], record[3]]);
        let (reading, lowest) = (i16::from_le_bytes([record[4], record[5]]), i16::from_le_bytes([answer[0], answer[1]]));
        let mark = if lowest < least { "  under-held" } else { "" };
        under += (lowest < least) as usize;
        text += &format!("{time:>10}  {reading:>7}  {lowest:>7}{mark}\n");
    }
    asked.is(&format!("{text}{} records, {under} under-held", run.len() / 6), name);
}

fn convert(folder: &Path, asked: &Asked, name: &str) {
    let convert = if asked.has("--new") { reference::to_new } else { reference::to_old };
    let mut out = vec![0; asked.files[0].len() + 8];
    match convert(&asked.files[0], &mut out) {
        Err(number) => asked.refused(number, 0, name),
        Ok(length) => {
            assert_eq!(fs::read(folder.join(&asked.names[1])).expect("the file that was written"), out[..length], "{name}");
            asked.is(&format!("{}: {length} bytes", asked.names[1]), name);
        }
    }
}

/// What fed each reading, by looking back from it for the latest writing of each core in turn.
fn timeline(asked: &Asked, name: &str) {
    let (picture, files) = asked.files.split_last().expect("files");
    let (file, trace, order): (&[u8], &[u8], &[u8]) = match files {
        [file, order] if asked.has("--trace-none") => (file, &[], order),
        [file, trace, order] => (file, trace, order),
        files => panic!("{} files", files.len()),
    };
    let refused = |number: u8, named: usize| {
        assert!(picture.is_empty(), "{name}: a picture of what is refused");
        asked.refused(number, named, name)
    };
    let Lent { mut table, mut semaphore, mut buffer, mut shared } = match fresh(file) {
        Ok(lent) => lent,
        Err(number) => return refused(number, 0),
    };
    let (mut list, mut taken) = (vec![0; order.len()], 0);
    match reference::run(file, trace, &mut table, &mut semaphore, &mut buffer, &mut shared, order, &mut list, &mut taken) {
        refusal::NONE => {}
        refusal::TRACE => return refused(refusal::TRACE, 1),
        number => return refused(number, files.len() - 1),
    }
    let (list, cores) = (&list[..taken], table.len());
    let number = |count: usize, noun: &str| format!("{count} {noun}{}", if count == 1 { "" } else { "s" });
    let mut text = format!("{}: {}, {}\n", asked.names[files.len()], number(order.len(), "step"), number(taken, "taking"));
    // The attribute bytes: WRITE of core k is bit k, READ is bit 4 + k.
    let variables = &file[6 + 6 * cores..][..12 * file[5 + 6 * cores] as usize];
    let writings = |core: usize, end: usize| list[..end].iter().filter(|&&taking| taking as usize == 16 + core).count();
    for (at, reader) in list.iter().enumerate().filter(|(_, &taking)| taking < 16).map(|(at, &taking)| (at, taking as usize)) {
        let reads =
            |writer: &usize| variables.chunks(12).any(|variable| variable[3] >> writer & 1 == 1 && variable[3] >> (4 + reader) & 1 == 1);
        let source = |writer: usize| match writings(writer, at) {
            0 => format!("the start values of core {writer}"),
            cycle => format!("cycle {cycle} of core {writer}"),
        };
        let sources: Vec<String> = (0..cores).filter(reads).map(source).collect();
        if !sources.is_empty() {
            text += &format!("core {reader}, cycle {}, read {}\n", writings(reader, at) + 1, sources.join(", "));
        }
    }
    asked.is(&text, name);
    assert!(picture.starts_with(b"<svg ") && picture.ends_with(b"</svg>\n"), "{name}");
}

/// Takes the steps of a dialogue again, and holds what is shown to what they leave.
fn debug(asked: &Asked, name: &str) {
    let (file, trace): (&[u8], &[u8]) = match &asked.files[..] {
        [file] => (file, &[]),
        [file, trace] => (file, trace),
        files => panic!("{} files", files.len()),
    };
    let mut lent = match fresh(file) {
        Ok(lent) => lent,
        Err(number) => return asked.refused(number, 0, name),
    };
    if reference::check_trace(file, trace) != refusal::NONE {
        return asked.refused(refusal::TRACE, 1, name);
    }
    let cores = lent.table.len();
    let mut last = cores as u8 - 1;
    let mut order = "order".to_string();
    let mut answer = asked.exchange.answer.iter().map(String::as_str).peekable();
    for typed in &asked.exchange.typed {
        let words: Vec<&str> = typed.split_whitespace().collect();
        let number = |at: usize| words[at].parse::<usize>().ok();
        let named = |at: usize| number(at).filter(|&core| core < cores);
        let mut expect = |text: String| text.lines().for_each(|line| assert_eq!(answer.next(), Some(line), "{name}: {typed}"));
        match words[..] {
            ["step", _] if named(1).is_some() => {
                last = named(1).expect("a core") as u8;
                let taken = step(file, trace, &mut lent, last, &mut order);
                let line = answer.next().expect("an answer");
                assert!(line.starts_with(&format!("core {last}: ")) && line.contains("takes") == taken, "{name}: {typed}: {line}");
            }
            ["next"] | ["taking"] => loop {
                let line = answer.next().expect("an answer");
                let Ok(Some(core)) = reference::next_core(file, trace, &lent.table, &lent.semaphore, last) else {
                    assert!(line.starts_with("no core can move"), "{name}: {typed}: {line}");
                    break;
                };
                last = core;
                let taken = step(file, trace, &mut lent, last, &mut order);
                assert!(line.starts_with(&format!("core {last}: ")) && line.contains("takes") == taken, "{name}: {typed}: {line}");
                if taken || words[0] == "next" {
                    break;
                }
            },
            ["registers"] => expect((0..cores).map(|core| registers(core, &lent.table[core])).collect()),
            ["registers", _] if named(1).is_some() => {
                expect(registers(number(1).expect("a core"), &lent.table[number(1).expect("a core")]))
            }
            ["line"] => expect(line(&lent.semaphore)),
            ["order"] => expect(order.clone()),
            [memory @ ("data" | "code"), _, _, _] if number(3).is_some() => {
                let (core, start, count) = (number(1).expect("a core"), number(2).expect("a start"), number(3).expect("a length"));
                let shown = if memory == "data" { window::Shown::Data } else { window::Shown::Code };
                match window::find(file, &lent.buffer, window::Asked { shown, core: core as u8, start, count }) {
                    Ok(place) if memory == "data" => expect(stretch(&format!("core {core}"), start, &lent.buffer[place..place + count])),
                    Ok(_) => while answer.next_if(|line| is_code(line)).is_some() {},
                    Err(number) => {
                        assert!(answer.next().expect("an answer").starts_with(&format!("refused, {number}: ")), "{name}: {typed}")
                    }
                }
            }
            ["shared", _, _] if number(1).zip(number(2)).is_some_and(|(start, count)| start + count <= SHARED_SIZE) => {
                let start = number(1).expect("a start");
                expect(stretch("shared", start, &lent.shared[start..start + number(2).expect("a length")]));
            }
            ["fresh"] => {
                lent = fresh(file).expect("an accepted file");
                last = cores as u8 - 1;
                order = "order".to_string();
                expect("the fresh state".to_string());
            }
            ["code", _] if named(1).is_some() => while answer.next_if(|line| is_code(line)).is_some() {},
            ["help"] => while answer.next_if(|line| !line.starts_with("core ")).is_some() {},
            ["quit"] | [] => {}
            _ => _ = answer.next().expect("what is wrong with the line"),
        }
    }
    assert_eq!(answer.next(), None, "{name}");
}

/// A line of instructions, which `tests/round_trip.rs` is about.
fn is_code(line: &str) -> bool {
    line.starts_with("    ") || line.starts_with('>')
}

/// A step, its taking noted; whether it was one.
fn step(file: &[u8], trace: &[u8], lent: &mut Lent, core: u8, order: &mut String) -> bool {
    let Lent { table, semaphore, buffer, shared } = lent;
    let mut taken = None;
    assert_eq!(reference::step(file, trace, table, semaphore, buffer, shared, core, &mut taken), refusal::NONE);
    if let Some(taking) = taken {
        *order += &format!(" {}{}", taking % 16, if taking < 16 { 'r' } else { 'w' });
    }
    taken.is_some()
}
