//! `show` and `assemble`: every file that the library accepts comes back byte for byte; the table of instructions is the independent machine's.

use command::assemble::assemble;
use command::instructions::{decode, Operand, COMMANDS, TYPES};
use command::show;
use independent::random::{self, Random};
use independent::reference::{command::*, takes_type, types, LENGTHS};
use rikzord::TaskSet;

#[test]
fn random_files_come_back() {
    let random = &mut Random::new(32);
    let mut texts = String::new();
    for round in 0..600 {
        let file = random::task_set(random).bytes();
        let text = show::text(&TaskSet::load(&file).expect("a sound file"));
        let back = assemble(&text).unwrap_or_else(|mistake| panic!("round {round}: {mistake:?}\n{text}"));
        assert_eq!(back, file, "round {round}\n{text}");
        texts += &text;
    }
    for command in &COMMANDS {
        assert!(texts.contains(&format!("\n    {} ", command.name)), "{} never came", command.name);
    }
    for kind in TYPES {
        assert!(texts.contains(&format!(" {kind} ")), "{kind} never came");
    }
    assert!(texts.contains("old form") && texts.contains("new form"));
}

#[test]
fn comments_blanks_and_labels_are_free() {
    let random = &mut Random::new(33);
    for _ in 0..100 {
        let file = random::task_set(random).bytes();
        let text = show::text(&TaskSet::load(&file).expect("a sound file"));
        let bare: String = text.lines().map(|line| line.split('#').next().unwrap_or("").trim().to_string() + "\n").collect();
        assert_eq!(assemble(&bare), Ok(file.clone()));
        assert_eq!(assemble(&bare.replace('\n', "   # a remark\r\n\r\n")), Ok(file.clone()));
        let rename = |text: String, digit| {
            text.replace(&format!(" L{digit}"), &format!(" place_{digit}")).replace(&format!("\nL{digit}"), &format!("\nplace_{digit}"))
        };
        let renamed = (0..10).fold(bare, rename);
        assert_eq!(assemble(&renamed), Ok(file));
    }
}

/// A damaged text gives bytes or a mistake at one of its lines, and never more than that.
#[test]
fn damaged_texts_are_answered() {
    let random = &mut Random::new(34);
    let mut mistakes = 0;
    for _ in 0..4_000 {
        let text = show::text(&TaskSet::load(&random::task_set(random).bytes()).expect("a sound file"));
        let mut lines: Vec<String> = text.lines().map(str::to_string).collect();
        for _ in 0..random.between(1, 3) {
            let at = random.below(lines.len());
            let line = &mut lines[at];
            let place = random.below(line.len() + 1);
            match random.below(5) {
                0 => _ = lines.remove(at),
                1 => line.insert(place, random.pick(&['@', '%', ',', ':', '#', ' ', '9', 'x', 'é', '-'])),
                2 => line.truncate(place),
                3 => *line = line.split_whitespace().rev().collect::<Vec<_>>().join(" "),
                _ => lines.insert(at, lines[random.below(lines.len())].clone()),
            }
            if lines.is_empty() {
                lines.push(String::new());
            }
        }
        match assemble(&lines.join("\n")) {
            Ok(file) => _ = rikzord::check(&file, rikzord::Profile::Full),
            Err(mistake) => {
                assert!((1..=lines.len() + 1).contains(&mistake.line) && !mistake.words.is_empty(), "{mistake:?}");
                mistakes += 1;
            }
        }
    }
    assert!(mistakes > 1_000, "{mistakes} mistakes");
}

#[test]
fn the_table_has_every_command() {
    let length = |operand: &Operand| match operand {
        Operand::Type | Operand::Size => 1,
        Operand::Address | Operand::Target | Operand::Count => 2,
        // The byte n; its n bytes come on top, in the table of lengths too.
        Operand::Constant => 1,
    };
    for code in 0..=255 {
        let row = COMMANDS.iter().find(|command| command.code == code);
        let rows_length = row.map_or(0, |command| 1 + command.operands.iter().map(length).sum::<u8>());
        assert_eq!(rows_length, LENGTHS[code as usize], "code {code}");
        let typed = row.is_some_and(|command| command.operands.first() == Some(&Operand::Type));
        let takes_any = (0..12).any(|kind| takes_type(code, kind)) || matches!(code, 43..=45);
        assert_eq!(typed, takes_any, "types of code {code}");
    }
}

/// A round trip would not see two names that changed places; the independent machine's names do.
#[test]
fn names_are_the_independent_machines() {
    macro_rules! named {
        ($($code:ident)*) => {
            [$((stringify!($code), $code)),*]
        };
    }
    let commands = named! {
        RETURN JMP JZ JNZ CALB CALF MCD MEMCP AURD AUWD ADD SUB MUL DIV MOD AND OR XOR NOT SHL SHR ROL ROR GT GE EQ LE LT NE CYCLE_TIME FLAG_BYTE
        CONVERT PACK UNPACK
    };
    assert!(COMMANDS.iter().map(|command| (command.name, command.code)).eq(commands));
    use types::*;
    let kinds = named! { BOOL SINT BYTE INT WORD DINT DWORD LINT LWORD REAL LREAL TIME };
    assert!(TYPES.into_iter().zip(0..).eq(kinds));
}

/// The pasteuriser's files have each instruction by hand: its code place, its command, its type.
#[test]
fn the_pasteuriser_reads_as_its_authors_wrote_it() {
    let mut compared = 0;
    for set in ["", "fault/", "setpoints/"] {
        let written =
            std::fs::read_to_string(format!("{}/../../examples/pasteuriser/{set}task.txt", env!("CARGO_MANIFEST_DIR"))).expect("a file");
        let bytes = written.lines().flat_map(|line| line.split('#').next().unwrap_or("").split_whitespace());
        let file: Vec<u8> = bytes.map(|byte| u8::from_str_radix(byte, 16).expect("two hex digits")).collect();
        let set = TaskSet::load(&file).expect("an accepted file");
        let mut shown = set.tasks().iter().flat_map(|task| decode(&task.code));
        for line in written.lines() {
            let Some((bytes, remark)) = line.split_once('#') else { continue };
            let words: Vec<&str> = remark.split_whitespace().collect();
            let (false, Some(Ok(place))) = (bytes.trim().is_empty(), words.first().map(|word| word.parse::<u16>())) else { continue };
            let Some(&name) = words.get(1).filter(|name| name.chars().all(|letter| letter.is_ascii_uppercase())) else { continue };
            let instruction = shown.next().expect("as many instructions as there are lines");
            let text = instruction.text();
            let mut of_text = text.split([' ', ',']);
            // The file says TIME where the table has no name of its own.
            let name = if name == "TIME" { "CYCLE_TIME" } else { name };
            assert_eq!((instruction.place, of_text.next()), (place, Some(name)), "{line}");
            let operand = of_text.next();
            assert!(operand.is_none_or(|kind| !TYPES.contains(&kind) || words[2] == kind), "{line}: {text}");
            compared += 1;
        }
        assert!(shown.next().is_none(), "an instruction that the file does not name");
    }
    assert!(compared > 40, "{compared} instructions");
}
