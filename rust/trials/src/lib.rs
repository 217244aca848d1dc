//! The proved machine and the independent one on the same cases. `linked` is the proved machine as module `interface` of the independent one's crate wants
//! a machine; the commands `compare`, `bench` and `threads` and the tests run both. `workloads` is what is timed and counted.

pub mod linked;
pub mod workloads;
