//! The pasteuriser's readable sources, held to the bytes that stand beside them, and its stored pictures. With `RIKZORD_STORE=yes` the pictures that come are stored.

mod support;

use command::assemble::assemble;
use std::fs;
use std::path::{Path, PathBuf};
use support::{bytes, folder, perform, Exchange};

fn plant() -> PathBuf {
    Path::new(env!("CARGO_MANIFEST_DIR")).join("../../examples/pasteuriser")
}

#[test]
fn sources_are_their_bytes() {
    for set in [".", "fault", "setpoints"] {
        let read = |name: &str| fs::read_to_string(plant().join(set).join(name)).expect("a stored file");
        assert_eq!(assemble(&read("task.text")).expect("a text without mistakes"), bytes(&read("task.txt")), "{set}");
    }
}

#[test]
fn pictures_are_as_stored() {
    let folder = folder("example");
    let store = std::env::var_os("RIKZORD_STORE").is_some();
    for (set, name, order) in [(".", "plant", "a"), (".", "plant", "b"), ("fault", "fault", "b")] {
        // Names as `examples/pasteuriser/run` has them; they stand in the picture.
        for part in ["task", "trace", &format!("order-{order}")] {
            fs::copy(folder.join(format!("{name}-{part}.bin")), folder.join(format!("{part}.bin"))).expect("a copy");
        }
        let line = format!("timeline task.bin trace.bin order-{order}.bin came.svg");
        let arguments = line.split_whitespace().map(str::to_string).collect();
        let asked = Exchange { remarks: vec![], arguments, typed: vec![], answer: vec![], errors: vec![], status: 0 };
        assert_eq!(perform(&folder, &asked).status, 0);
        let came = fs::read_to_string(folder.join("came.svg")).expect("a picture");
        let stored = plant().join(set).join(format!("order-{order}.svg"));
        if store {
            fs::write(&stored, &came).expect("the picture is stored");
        }
        assert!(fs::read_to_string(&stored).expect("a stored picture") == came, "{}", stored.display());
    }
}
