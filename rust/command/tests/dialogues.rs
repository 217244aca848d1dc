//! Every stored dialogue, word for word. With `RIKZORD_STORE=yes` what comes is stored instead; `tests/answers.rs` then still holds the results of runs to
//! the independent machine.

mod support;

use std::slice::from_ref;
use support::{dialogues, folder, perform, text};

#[test]
fn dialogues_are_as_stored() {
    let folder = folder("dialogues");
    let store = std::env::var_os("RIKZORD_STORE").is_some();
    let mut different = Vec::new();
    for (path, stored) in dialogues() {
        let came: Vec<_> = stored.iter().map(|exchange| perform(&folder, exchange)).collect();
        if store {
            std::fs::write(&path, text(&came)).expect("the dialogue is stored");
        }
        for (stored, came) in stored.iter().zip(&came).filter(|(stored, came)| stored != came) {
            different.push(format!("{}\n-- stored\n{}-- came\n{}", path.display(), text(from_ref(stored)), text(from_ref(came))));
        }
    }
    assert!(store || different.is_empty(), "{}", different.join("\n"));
}

#[test]
fn every_command_has_a_dialogue() {
    let told: Vec<String> =
        dialogues().into_iter().flat_map(|(_, exchanges)| exchanges).filter_map(|exchange| exchange.arguments.first().cloned()).collect();
    for command in command::COMMANDS {
        assert!(told.iter().any(|name| name == command.name), "no dialogue with `{}`", command.name);
    }
}
