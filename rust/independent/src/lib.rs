//! An independent machine of document 01 in Rust, and what compares it with another one.
//!
//! `reference` is the machine; it shares no code with the proved one. `interface` says what a machine offers, `draft` writes task set files, `random` makes
//! cases from them, `comparison` runs two machines on the cases. `holding` has the lowest reading over the holding time, `lines` the lines between cores,
//! `forms` the converters between the two forms of a file, `profiles` the small profile, `bounds` what a task will take, `window` the memory window and
//! `rerun` the rerun of a list of takings; they stand beside the machine, each with its own comparison. The package `trials` has the proved machine to
//! compare with.

pub mod bounds;
pub mod comparison;
pub mod draft;
pub mod forms;
pub mod holding;
pub mod interface;
pub mod lines;
pub mod profiles;
pub mod random;
pub mod reference;
pub mod rerun;
pub mod window;
