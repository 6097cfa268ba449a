//! The operations over plain byte slices, those of the depot over bytes, and the report on waiting
//! transactions over its rows, just as C sees them.
//!
//! They take anything: a slice of a wrong length is refused with the number of the refusal.
//! Slices can't be null and can't overlap, which is all that the C interface asks of its caller.

#[cfg(feature = "edition2")]
pub mod edition2;
#[cfg(feature = "pairs")]
pub mod pairs;

use crate::waiting::{Ring, Row};
use crate::State;

/// The proved library's own symbols.
mod linked {
    use crate::waiting::{Ring, Row};
    use crate::State;

    extern "C" {
        pub fn nekahuiro_run(
            store: *mut u8,
            store_bytes: usize,
            events: *const u8,
            events_bytes: usize,
            work: *mut u8,
            work_bytes: usize,
            answers: *mut u8,
            answers_bytes: usize,
        ) -> u8;
        pub fn nekahuiro_portion(
            state: *mut State,
            store: *mut u8,
            store_bytes: usize,
            events: *const u8,
            events_bytes: usize,
            work: *mut u8,
            work_bytes: usize,
            answers: *mut u8,
            answers_bytes: usize,
        ) -> u8;
        pub fn nekahuiro_page_write(
            state: *const State,
            store: *const u8,
            store_bytes: usize,
            event: *const u8,
            event_bytes: usize,
            work: *const u8,
            work_bytes: usize,
            index: u8,
            write: *mut u8,
            write_bytes: usize,
        ) -> u8;
        pub fn nekahuiro_fresh(store: *mut u8, store_bytes: usize) -> u8;
        pub fn nekahuiro_age(
            store: *const u8,
            store_bytes: usize,
            record: u8,
            clock: u32,
            limit: u32,
            age: *mut i64,
        ) -> u8;
        pub fn nekahuiro_audit(
            start: *const u8,
            start_bytes: usize,
            events: *const u8,
            events_bytes: usize,
            answers: *const u8,
            answers_bytes: usize,
            end: *const u8,
            end_bytes: usize,
            place: *mut u16,
        ) -> u8;
        pub fn nekahuiro_depot(state: *mut u8, message: u8, reply: *mut u8) -> u8;
        pub fn nekahuiro_vote(kind: u8, number: u8, value: u8) -> u8;
        pub fn nekahuiro_waiting(state: *const State, rows: *const Row, count: usize, ring: *mut Ring) -> u8;
        pub fn nekahuiro_sheet(
            sheet: *const u8,
            sheet_bytes: usize,
            list: *mut u8,
            list_bytes: usize,
            told: *mut usize,
        ) -> u8;
    }
}

/// Plays a list of event words: 0, or a refusal's number with no buffer touched.
pub fn run(store: &mut [u8], events: &[u8], work: &mut [u8], answers: &mut [u8]) -> u8 {
    // SAFETY: four live slices with their own lengths; the three that are written are borrowed alone.
    unsafe {
        linked::nekahuiro_run(
            store.as_mut_ptr(),
            store.len(),
            events.as_ptr(),
            events.len(),
            work.as_mut_ptr(),
            work.len(),
            answers.as_mut_ptr(),
            answers.len(),
        )
    }
}

/// Plays a portion of event words on a lent state: 0, or a refusal's number with nothing changed.
pub fn portion(state: &mut State, store: &mut [u8], events: &[u8], work: &mut [u8], answers: &mut [u8]) -> u8 {
    // SAFETY: a live struct of integers, laid out as in C, and four live slices with their own lengths;
    // the struct and the three slices that are written are borrowed alone.
    unsafe {
        linked::nekahuiro_portion(
            state,
            store.as_mut_ptr(),
            store.len(),
            events.as_ptr(),
            events.len(),
            work.as_mut_ptr(),
            work.len(),
            answers.as_mut_ptr(),
            answers.len(),
        )
    }
}

/// The page write of this number that an event word makes if nothing cuts it: 0 with `write` set, 12 if there
/// is none, or a refusal's number; then nothing is written.
pub fn page_write(state: &State, store: &[u8], event: &[u8], work: &[u8], index: u8, write: &mut [u8]) -> u8 {
    // SAFETY: a live struct of integers, laid out as in C, and four live slices with their own lengths; the one
    // that is written is borrowed alone.
    unsafe {
        linked::nekahuiro_page_write(
            state,
            store.as_ptr(),
            store.len(),
            event.as_ptr(),
            event.len(),
            work.as_ptr(),
            work.len(),
            index,
            write.as_mut_ptr(),
            write.len(),
        )
    }
}

/// Lays down a fresh store: 0, or 22 with nothing written.
pub fn fresh(store: &mut [u8]) -> u8 {
    // SAFETY: a live slice, borrowed alone, with its length.
    unsafe { linked::nekahuiro_fresh(store.as_mut_ptr(), store.len()) }
}

/// Tells the age of a record: 0 live, 1 ahead, 2 stale, with `age` set; else a refusal's number and `age` untouched.
pub fn age(store: &[u8], record: u8, clock: u32, limit: u32, age: &mut i64) -> u8 {
    // SAFETY: a live slice with its length, and a live integer, borrowed alone.
    unsafe { linked::nekahuiro_age(store.as_ptr(), store.len(), record, clock, limit, age) }
}

/// Audits a list: 0 it belongs to the stores and answers; 1 or 2 with `place` set to the first wrong event or page; else
/// a refusal's number. At 0 and at a refusal `place` is untouched.
pub fn audit(start: &[u8], events: &[u8], answers: &[u8], end: &[u8], place: &mut u16) -> u8 {
    // SAFETY: four live slices with their own lengths, and a live integer, borrowed alone.
    unsafe {
        linked::nekahuiro_audit(
            start.as_ptr(),
            start.len(),
            events.as_ptr(),
            events.len(),
            answers.as_ptr(),
            answers.len(),
            end.as_ptr(),
            end.len(),
            place,
        )
    }
}

/// One message to the depot: 0 with its state and the reply set; else 27 with nothing written.
pub fn depot(state: &mut u8, message: u8, reply: &mut u8) -> u8 {
    // SAFETY: two live bytes, each borrowed alone.
    unsafe { linked::nekahuiro_depot(state, message, reply) }
}

/// The gateway's vote after an event of this kind with this answer: 1 yes, 2 no, 0 none.
pub fn vote(kind: u8, number: u8, value: u8) -> u8 {
    // SAFETY: it takes and gives plain bytes.
    unsafe { linked::nekahuiro_vote(kind, number, value) }
}

/// Reports on transactions that wait on each other: 0 with `ring` set; else a refusal's number and `ring`
/// untouched.
pub fn waiting(state: &State, rows: &[Row], ring: &mut Ring) -> u8 {
    // SAFETY: a live struct of integers and a live slice of structs of bytes with its length, which are only
    // read, and a live struct of bytes, borrowed alone; all are laid out as in C.
    unsafe { linked::nekahuiro_waiting(state, rows.as_ptr(), rows.len(), ring) }
}

/// Makes a list of event words of a job sheet: 0, with the list's length in bytes told; 28 with nothing
/// touched; or 29 with the place of the fault told and the list untouched.
pub fn sheet(sheet: &[u8], list: &mut [u8], told: &mut usize) -> u8 {
    // SAFETY: two live slices with their own lengths, of which the one that is written is borrowed alone, and a
    // live integer, borrowed alone.
    unsafe { linked::nekahuiro_sheet(sheet.as_ptr(), sheet.len(), list.as_mut_ptr(), list.len(), told) }
}
