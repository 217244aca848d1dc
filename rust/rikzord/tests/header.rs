//! The C header and this crate say the same: the numbers of the refusals and modes, the names of the calls.

use rikzord::{Mode, Refusal};
use std::collections::BTreeMap;

fn header() -> String {
    std::fs::read_to_string(concat!(env!("CARGO_MANIFEST_DIR"), "/../../include/rikzord.h")).expect("the header")
}

/// The names of an enum without their prefix, in the style of this crate, by number.
fn numbers(of: &str) -> BTreeMap<u8, String> {
    let header = header();
    let (_, body) = header.split_once(&format!("enum {of} {{")).expect("the enum");
    let (body, _) = body.split_once("};").expect("its end");
    let camel = |name: &str| -> String {
        let word = |word: &str| word[..1].to_string() + &word[1..].to_lowercase();
        name.trim().trim_start_matches("RIKZORD_").split('_').map(word).collect()
    };
    let row = |line: &str| {
        let (name, rest) = line.split_once(" = ")?;
        let digits: String = rest.chars().take_while(char::is_ascii_digit).collect();
        Some((digits.parse().ok()?, camel(name)))
    };
    body.lines().filter_map(row).collect()
}

#[test]
fn refusals_are_the_headers() {
    let mut expected: BTreeMap<u8, String> = Refusal::ALL.iter().map(|refusal| (refusal.number(), format!("{refusal:?}"))).collect();
    expected.insert(0, "Accepted".to_string());
    assert_eq!(numbers("rikzord_refusal"), expected);
}

#[test]
fn modes_are_the_headers() {
    let modes = [Mode::BetweenCycles, Mode::Reading, Mode::Executing, Mode::WaitingToWrite, Mode::Writing, Mode::Stopped];
    let expected: BTreeMap<u8, String> = modes.into_iter().map(|mode| (mode.number(), format!("{mode:?}"))).collect();
    assert_eq!(numbers("rikzord_mode"), expected);
}

#[test]
fn calls_are_the_headers() {
    let calls = |text: &str, before: &str| -> Vec<String> {
        let name = |line: &str| Some(line.trim().strip_prefix(before)?.split_once('(')?.0.to_string());
        let mut names: Vec<String> = text.lines().filter_map(name).collect();
        names.sort();
        names
    };
    let lent = std::fs::read_to_string(concat!(env!("CARGO_MANIFEST_DIR"), "/src/lent.rs")).expect("the calls");
    let declared = calls(&header(), "uint8_t rikzord_");
    assert!(!declared.is_empty());
    assert_eq!(calls(&lent, "pub fn rikzord_"), declared, "bound");
    let safe: Vec<String> = calls(&lent, "pub fn ").into_iter().filter(|name| !name.starts_with("rikzord_")).collect();
    for name in &declared {
        assert!(safe.contains(name), "no safe function for rikzord_{name}");
    }
}
