//! Rikzord, a multi-core task machine whose every function is proved to meet its contract, for programs in Rust.
//!
//! A [`TaskSet`] is a file that the library accepted, a [`Trace`] the inputs of its cores, a [`State`] the cores' registers, the semaphore with its
//! line, and both memories. A state is made fresh, stepped, run or rerun; each call either does what document 01 says or gives a [`Refusal`] and
//! changes nothing. Document 01's listing:
//!
//! ```
//! use rikzord::{Mode, State, TaskSet, Trace};
//!
//! let file = [0x4D, 0x43, 0x53, 0x31, 1, 1, 0, 0, 0, 1, 0, 0, 1, 0, 0];
//! let set = TaskSet::load(&file)?;
//! let trace = Trace::new(&set, &[1, 0, 0, 0, 0, 0])?;
//! let mut state = State::fresh(&set);
//! let takings = state.run(&set, &trace, &[0; 5])?;
//! assert_eq!(takings.iter().map(|taking| taking.to_string()).collect::<Vec<_>>(), ["0r", "0w"]);
//! let core = &state.table()[0];
//! assert_eq!((core.mode(), core.cycles, core.flags, core.count), (Mode::BetweenCycles, 1, 0, 1));
//! # Ok::<(), rikzord::Refusal>(())
//! ```
//!
//! Beside the machine: what a task will take ([`TaskSet::takes`]), the lines between cores ([`TaskSet::lines`]), the two forms of a file
//! ([`to_new`], [`to_old`]) and the lowest reading over the holding time ([`lowest`]).
//!
//! Every answer is that of the proved library. What this crate adds: memories of the right size, names for numbers, and a reading of the sections of
//! a file or trace that the library accepted. Module [`lent`] has the calls as they are, on memory that the caller lends.

#![warn(missing_docs)]

mod holding;
pub mod lent;
mod refusal;
mod state;
mod task_set;
mod trace;

pub use holding::{lowest, records, Record};
pub use lent::{Core, Semaphore};
pub use refusal::Refusal;
pub use state::{flag_words, Exchange, Mode, State, Taking};
pub use task_set::{check, to_new, to_old, Form, Lines, Local, Longest, Profile, Takes, Task, TaskSet, Variable};
pub use trace::{InputRecord, Trace};

/// The bytes of shared memory.
pub const SHARED_SIZE: usize = 1_024;
/// The most cores of a task set.
pub const MOST_CORES: usize = 4;
/// Calls that can be open in a core.
pub const CALL_DEPTH: usize = 16;
