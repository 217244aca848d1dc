//! Stored dialogues: what is typed, what comes back and the exit status.
//!
//! A file of `dialogues` has exchanges one after another. `$ rikzord ..` is the command line; lines that begin with `< ` are typed afterwards; the answer
//! follows as it is printed, then lines of the error output, each after `! `, and `[status N]`. Lines with `#` between exchanges are for the reader.
//!
//! The commands run in a folder with the files of `dialogues/files` (hex with comments becomes bytes, `.text` is copied) and the pasteuriser's.

use std::fs;
use std::io::Write;
use std::path::{Path, PathBuf};
use std::process::{Command, Stdio};

#[derive(Clone, PartialEq, Debug)]
pub struct Exchange {
    /// The lines before it that are for the reader.
    pub remarks: Vec<String>,
    pub arguments: Vec<String>,
    pub typed: Vec<String>,
    pub answer: Vec<String>,
    pub errors: Vec<String>,
    pub status: i32,
}

/// The bytes that a commented text stands for: two hex digits each, NN*k for k times NN; '#' starts a comment.
pub fn bytes(text: &str) -> Vec<u8> {
    let words = text.lines().flat_map(|line| line.split('#').next().unwrap_or("").split_whitespace());
    let stretch = |word: &str| {
        let (byte, times) = word.split_once('*').unwrap_or((word, "1"));
        vec![u8::from_str_radix(byte, 16).expect("two hex digits"); times.parse().expect("a number of times")]
    };
    words.flat_map(stretch).collect()
}

fn here() -> &'static Path {
    Path::new(env!("CARGO_MANIFEST_DIR"))
}

/// Makes the folder in which the commands of a test run.
pub fn folder(test: &str) -> PathBuf {
    let folder = Path::new(env!("CARGO_TARGET_TMPDIR")).join(test);
    let _ = fs::remove_dir_all(&folder);
    fs::create_dir_all(&folder).expect("the folder of the test");
    let put =
        |from: &Path, name: String| fs::write(folder.join(name), bytes(&fs::read_to_string(from).expect("a stored file"))).expect("a file");
    for file in fs::read_dir(here().join("dialogues/files")).expect("the stored files") {
        let path = file.expect("a stored file").path();
        let name = path.file_name().expect("a name").to_str().expect("a name in UTF-8");
        match name.strip_suffix(".txt") {
            Some(name) => put(&path, format!("{name}.bin")),
            None => _ = fs::copy(&path, folder.join(name)).expect("a copy"),
        }
    }
    let plant = here().join("../../examples/pasteuriser");
    for (set, name) in [(".", "plant"), ("fault", "fault"), ("setpoints", "setpoints")] {
        for part in ["task", "trace", "order-a", "order-b"] {
            put(&plant.join(set).join(format!("{part}.txt")), format!("{name}-{part}.bin"));
        }
    }
    put(&plant.join("holding/run.txt"), "holding.bin".to_string());
    folder
}

/// Every stored dialogue: its path and its exchanges.
#[allow(dead_code, reason = "not every test reads them")]
pub fn dialogues() -> Vec<(PathBuf, Vec<Exchange>)> {
    let mut paths: Vec<PathBuf> =
        fs::read_dir(here().join("dialogues")).expect("the dialogues").map(|file| file.expect("a dialogue").path()).collect();
    paths.retain(|path| path.extension().is_some_and(|extension| extension == "txt"));
    paths.sort();
    let read = |path: PathBuf| {
        let exchanges = parse(&fs::read_to_string(&path).expect("a dialogue"));
        (path, exchanges)
    };
    paths.into_iter().map(read).collect()
}

fn parse(text: &str) -> Vec<Exchange> {
    let mut list = Vec::new();
    let mut remarks = Vec::new();
    let mut open: Option<Exchange> = None;
    for line in text.lines() {
        let Some(exchange) = &mut open else {
            match line.strip_prefix("$ rikzord") {
                None => remarks.push(line.to_string()),
                Some(arguments) => {
                    let arguments = arguments.split_whitespace().map(str::to_string).collect();
                    let remarks = std::mem::take(&mut remarks);
                    open = Some(Exchange { remarks, arguments, typed: vec![], answer: vec![], errors: vec![], status: 0 });
                }
            }
            continue;
        };
        if let Some(typed) = line.strip_prefix("< ") {
            exchange.typed.push(typed.to_string());
        } else if let Some(error) = line.strip_prefix("! ") {
            exchange.errors.push(error.to_string());
        } else if let Some(status) = line.strip_prefix("[status ").and_then(|rest| rest.strip_suffix(']')) {
            exchange.status = status.parse().expect("a status");
            list.extend(open.take());
        } else {
            exchange.answer.push(line.to_string());
        }
    }
    assert!(open.is_none(), "a dialogue ends with a status");
    list
}

/// The text of a dialogue, as it is stored.
#[allow(dead_code, reason = "only one of the tests stores")]
pub fn text(exchanges: &[Exchange]) -> String {
    let mut text = String::new();
    let mut line = |line: String| text += &(line + "\n");
    for exchange in exchanges {
        exchange.remarks.iter().for_each(|remark| line(remark.clone()));
        line(["$ rikzord".to_string()].into_iter().chain(exchange.arguments.clone()).collect::<Vec<_>>().join(" "));
        exchange.typed.iter().for_each(|typed| line(format!("< {typed}")));
        exchange.answer.iter().for_each(|answer| line(answer.clone()));
        exchange.errors.iter().for_each(|error| line(format!("! {error}")));
        line(format!("[status {}]", exchange.status));
    }
    text
}

/// What comes where the command line and the typed lines of an exchange are given to the command.
pub fn perform(folder: &Path, stored: &Exchange) -> Exchange {
    let mut command = Command::new(env!("CARGO_BIN_EXE_rikzord"));
    command.current_dir(folder).args(&stored.arguments).stdin(Stdio::piped()).stdout(Stdio::piped()).stderr(Stdio::piped());
    let mut child = command.spawn().expect("the command starts");
    let typed: String = stored.typed.iter().map(|line| format!("{line}\n")).collect();
    // A command that reads nothing may have ended already.
    let _ = child.stdin.take().expect("its input").write_all(typed.as_bytes());
    let output = child.wait_with_output().expect("the command ends");
    let lines = |bytes: Vec<u8>| String::from_utf8(bytes).expect("a text").lines().map(str::to_string).collect();
    let status = output.status.code().expect("an exit status");
    Exchange { answer: lines(output.stdout), errors: lines(output.stderr), status, ..stored.clone() }
}
