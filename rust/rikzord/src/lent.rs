//! The calls of `include/rikzord.h` on memory that the caller lends, as safe functions: the same names without their prefix, the same answers.
//!
//! Each answers the number of document 01 or 02, 0 for none, in the order that the header names; a refused call changes nothing. Any bytes and any
//! lengths may be lent.

use crate::{CALL_DEPTH, MOST_CORES};
use std::mem::offset_of;

/// A record of the core table: a core's registers and call stack, as `struct rikzord_core` of the header.
#[repr(C)]
#[derive(Clone, Copy, PartialEq, Eq, Debug, Default)]
pub struct Core {
    /// Of the cycle's input record.
    pub time: u32,
    /// The program counter.
    pub counter: u16,
    /// The data offset.
    pub offset: u16,
    /// The instruction count of the cycle.
    pub count: u16,
    /// The exchange number: bytes copied since the taking.
    pub exchange: u16,
    /// Complete cycles.
    pub cycles: u16,
    /// See [`crate::Mode`].
    pub mode: u8,
    /// Open calls.
    pub depth: u8,
    /// See [`crate::flag_words`].
    pub flags: u8,
    /// Never judged; zeros after a call that writes the record.
    pub spare: [u8; 3],
    /// Return places; 0 from the depth on.
    pub places: [u16; CALL_DEPTH],
    /// The data offsets that go with them.
    pub offsets: [u16; CALL_DEPTH],
}

const _: () = assert!(size_of::<Core>() == 84 && offset_of!(Core, mode) == 14 && offset_of!(Core, places) == 20);

/// The semaphore and the line of cores that wait for it, as `struct rikzord_semaphore` of the header.
#[repr(C)]
#[derive(Clone, Copy, PartialEq, Eq, Debug, Default)]
pub struct Semaphore {
    /// 0 where it is free, k + 1 where core k holds it.
    pub holder: u8,
    /// Cores in line.
    pub waiting: u8,
    /// Their numbers, the first one first.
    pub line: [u8; MOST_CORES],
}

const _: () = assert!(size_of::<Semaphore>() == 6);

impl Semaphore {
    /// The core that holds it.
    pub fn held_by(&self) -> Option<u8> {
        self.holder.checked_sub(1)
    }

    /// The cores in line, the first one first.
    pub fn in_line(&self) -> &[u8] {
        &self.line[..MOST_CORES.min(self.waiting as usize)]
    }
}

/// The interface itself. Safety of each call below: every pointer comes from a slice or a reference that lives through the call, with the slice's own
/// length, and no two of those that are written overlap, as Rust's borrows assure.
mod c {
    use super::{Core, Semaphore};

    extern "C" {
        pub fn rikzord_check_file(file: *const u8, file_length: usize) -> u8;

        pub fn rikzord_check_file_small(file: *const u8, file_length: usize) -> u8;

        pub fn rikzord_fresh(
            file: *const u8,
            file_length: usize,
            table: *mut Core,
            table_length: usize,
            semaphore: *mut Semaphore,
            buffer: *mut u8,
            buffer_length: usize,
            shared: *mut u8,
            shared_length: usize,
        ) -> u8;

        pub fn rikzord_fresh_small(
            file: *const u8,
            file_length: usize,
            table: *mut Core,
            table_length: usize,
            semaphore: *mut Semaphore,
            buffer: *mut u8,
            buffer_length: usize,
            shared: *mut u8,
            shared_length: usize,
        ) -> u8;

        pub fn rikzord_step(
            file: *const u8,
            file_length: usize,
            trace: *const u8,
            trace_length: usize,
            table: *mut Core,
            table_length: usize,
            semaphore: *mut Semaphore,
            buffer: *mut u8,
            buffer_length: usize,
            shared: *mut u8,
            shared_length: usize,
            core: u8,
        ) -> u8;

        pub fn rikzord_run(
            file: *const u8,
            file_length: usize,
            trace: *const u8,
            trace_length: usize,
            table: *mut Core,
            table_length: usize,
            semaphore: *mut Semaphore,
            buffer: *mut u8,
            buffer_length: usize,
            shared: *mut u8,
            shared_length: usize,
            order: *const u8,
            order_length: usize,
            list: *mut u8,
            list_length: usize,
            taken: *mut usize,
        ) -> u8;

        pub fn rikzord_rerun(
            file: *const u8,
            file_length: usize,
            trace: *const u8,
            trace_length: usize,
            list: *const u8,
            list_length: usize,
            table: *mut Core,
            table_length: usize,
            semaphore: *mut Semaphore,
            buffer: *mut u8,
            buffer_length: usize,
            shared: *mut u8,
            shared_length: usize,
        ) -> u8;

        pub fn rikzord_next_core(
            file: *const u8,
            file_length: usize,
            trace: *const u8,
            trace_length: usize,
            table: *const Core,
            table_length: usize,
            semaphore: *const Semaphore,
            given: u8,
            found: *mut u8,
        ) -> u8;

        pub fn rikzord_lowest(run: *const u8, run_length: usize, span: u32, answers: *mut u8, answers_length: usize) -> u8;

        pub fn rikzord_check_cycles(file: *const u8, file_length: usize, lines: *mut u8) -> u8;

        pub fn rikzord_code_window(
            file: *const u8,
            file_length: usize,
            buffer: *const u8,
            buffer_length: usize,
            core: u8,
            start: usize,
            count: usize,
            place: *mut usize,
        ) -> u8;

        pub fn rikzord_data_window(
            file: *const u8,
            file_length: usize,
            buffer: *const u8,
            buffer_length: usize,
            core: u8,
            start: usize,
            count: usize,
            place: *mut usize,
        ) -> u8;

        pub fn rikzord_to_new(file: *const u8, file_length: usize, out: *mut u8, out_length: usize, length: *mut usize) -> u8;

        pub fn rikzord_to_old(file: *const u8, file_length: usize, out: *mut u8, out_length: usize, length: *mut usize) -> u8;

        pub fn rikzord_takes(
            file: *const u8,
            file_length: usize,
            lengths: *mut usize,
            lengths_length: usize,
            counts: *mut u32,
            counts_length: usize,
            depths: *mut u32,
            depths_length: usize,
        ) -> u8;
    }
}

/// The core that [`next_core`] finds where there is none.
pub const NO_CORE: u8 = 255;

/// Judges a task set file.
pub fn check_file(file: &[u8]) -> u8 {
    unsafe { c::rikzord_check_file(file.as_ptr(), file.len()) }
}

/// Judges a task set file for the smallest controller.
pub fn check_file_small(file: &[u8]) -> u8 {
    unsafe { c::rikzord_check_file_small(file.as_ptr(), file.len()) }
}

/// Makes the fresh state.
pub fn fresh(file: &[u8], table: &mut [Core], semaphore: &mut Semaphore, buffer: &mut [u8], shared: &mut [u8]) -> u8 {
    unsafe {
        c::rikzord_fresh(
            file.as_ptr(),
            file.len(),
            table.as_mut_ptr(),
            table.len(),
            semaphore,
            buffer.as_mut_ptr(),
            buffer.len(),
            shared.as_mut_ptr(),
            shared.len(),
        )
    }
}

/// Makes the fresh state of a file that is loaded as small.
pub fn fresh_small(file: &[u8], table: &mut [Core], semaphore: &mut Semaphore, buffer: &mut [u8], shared: &mut [u8]) -> u8 {
    unsafe {
        c::rikzord_fresh_small(
            file.as_ptr(),
            file.len(),
            table.as_mut_ptr(),
            table.len(),
            semaphore,
            buffer.as_mut_ptr(),
            buffer.len(),
            shared.as_mut_ptr(),
            shared.len(),
        )
    }
}

/// One step of a core.
pub fn step(
    file: &[u8],
    trace: &[u8],
    table: &mut [Core],
    semaphore: &mut Semaphore,
    buffer: &mut [u8],
    shared: &mut [u8],
    core: u8,
) -> u8 {
    unsafe {
        c::rikzord_step(
            file.as_ptr(),
            file.len(),
            trace.as_ptr(),
            trace.len(),
            table.as_mut_ptr(),
            table.len(),
            semaphore,
            buffer.as_mut_ptr(),
            buffer.len(),
            shared.as_mut_ptr(),
            shared.len(),
            core,
        )
    }
}

/// The steps of an order, one byte a step; the takings go to the front of `list`, and how many there are to `taken`.
#[allow(clippy::too_many_arguments)]
pub fn run(
    file: &[u8],
    trace: &[u8],
    table: &mut [Core],
    semaphore: &mut Semaphore,
    buffer: &mut [u8],
    shared: &mut [u8],
    order: &[u8],
    list: &mut [u8],
    taken: &mut usize,
) -> u8 {
    unsafe {
        c::rikzord_run(
            file.as_ptr(),
            file.len(),
            trace.as_ptr(),
            trace.len(),
            table.as_mut_ptr(),
            table.len(),
            semaphore,
            buffer.as_mut_ptr(),
            buffer.len(),
            shared.as_mut_ptr(),
            shared.len(),
            order.as_ptr(),
            order.len(),
            list.as_mut_ptr(),
            list.len(),
            taken,
        )
    }
}

/// Reruns an order list from the fresh state.
pub fn rerun(
    file: &[u8],
    trace: &[u8],
    list: &[u8],
    table: &mut [Core],
    semaphore: &mut Semaphore,
    buffer: &mut [u8],
    shared: &mut [u8],
) -> u8 {
    unsafe {
        c::rikzord_rerun(
            file.as_ptr(),
            file.len(),
            trace.as_ptr(),
            trace.len(),
            list.as_ptr(),
            list.len(),
            table.as_mut_ptr(),
            table.len(),
            semaphore,
            buffer.as_mut_ptr(),
            buffer.len(),
            shared.as_mut_ptr(),
            shared.len(),
        )
    }
}

/// The first core after `given`, round the ring and that one last, whose step would change something; `found` becomes [`NO_CORE`] where there is none.
pub fn next_core(file: &[u8], trace: &[u8], table: &[Core], semaphore: &Semaphore, given: u8, found: &mut u8) -> u8 {
    unsafe {
        c::rikzord_next_core(file.as_ptr(), file.len(), trace.as_ptr(), trace.len(), table.as_ptr(), table.len(), semaphore, given, found)
    }
}

/// The lowest reading over the holding time, of each record.
pub fn lowest(run: &[u8], span: u32, answers: &mut [u8]) -> u8 {
    unsafe { c::rikzord_lowest(run.as_ptr(), run.len(), span, answers.as_mut_ptr(), answers.len()) }
}

/// The lines between cores: `lines` becomes 0 where they are free, 1 where two cores read each other, 2 where there is a ring.
pub fn check_cycles(file: &[u8], lines: &mut u8) -> u8 {
    unsafe { c::rikzord_check_cycles(file.as_ptr(), file.len(), lines) }
}

/// Where a stretch of a core's code stands in the file.
pub fn code_window(file: &[u8], buffer: &[u8], core: u8, start: usize, count: usize, place: &mut usize) -> u8 {
    unsafe { c::rikzord_code_window(file.as_ptr(), file.len(), buffer.as_ptr(), buffer.len(), core, start, count, place) }
}

/// Where a stretch of a core's data stands in the data buffer.
pub fn data_window(file: &[u8], buffer: &[u8], core: u8, start: usize, count: usize, place: &mut usize) -> u8 {
    unsafe { c::rikzord_data_window(file.as_ptr(), file.len(), buffer.as_ptr(), buffer.len(), core, start, count, place) }
}

/// An old file in the new form, at the front of `out`; its length goes to `length`.
pub fn to_new(file: &[u8], out: &mut [u8], length: &mut usize) -> u8 {
    unsafe { c::rikzord_to_new(file.as_ptr(), file.len(), out.as_mut_ptr(), out.len(), length) }
}

/// A new file in the old form, at the front of `out`; its length goes to `length`.
pub fn to_old(file: &[u8], out: &mut [u8], length: &mut usize) -> u8 {
    unsafe { c::rikzord_to_old(file.as_ptr(), file.len(), out.as_mut_ptr(), out.len(), length) }
}

/// What a task will take: three lengths, and the greatest instruction count and call depth of each core.
pub fn takes(file: &[u8], lengths: &mut [usize], counts: &mut [u32], depths: &mut [u32]) -> u8 {
    unsafe {
        c::rikzord_takes(
            file.as_ptr(),
            file.len(),
            lengths.as_mut_ptr(),
            lengths.len(),
            counts.as_mut_ptr(),
            counts.len(),
            depths.as_mut_ptr(),
            depths.len(),
        )
    }
}
