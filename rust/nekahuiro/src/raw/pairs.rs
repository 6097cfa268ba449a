//! The operations where pages can tear, over plain byte slices, just as C sees them.

use crate::State;

/// The symbols of the proved library for pages that can tear.
mod linked {
    use crate::State;

    extern "C" {
        pub fn nekahuiro_run_pairs(
            store: *mut u8,
            store_bytes: usize,
            events: *const u8,
            events_bytes: usize,
            work: *mut u8,
            work_bytes: usize,
            answers: *mut u8,
            answers_bytes: usize,
        ) -> u8;
        pub fn nekahuiro_portion_pairs(
            state: *mut State,
            store: *mut u8,
            store_bytes: usize,
            events: *const u8,
            events_bytes: usize,
            work: *mut u8,
            work_bytes: usize,
            answers: *mut u8,
            answers_bytes: usize,
        ) -> u8;
        pub fn nekahuiro_page_write_pairs(
            state: *const State,
            store: *const u8,
            store_bytes: usize,
            event: *const u8,
            event_bytes: usize,
            work: *const u8,
            work_bytes: usize,
            index: u8,
            write: *mut u8,
            write_bytes: usize,
        ) -> u8;
        pub fn nekahuiro_fresh_pairs(store: *mut u8, store_bytes: usize) -> u8;
        pub fn nekahuiro_age_pairs(
            store: *const u8,
            store_bytes: usize,
            record: u8,
            clock: u32,
            limit: u32,
            age: *mut i64,
        ) -> u8;
    }
}

/// Plays a list of event words: 0, or a refusal's number with no buffer touched.
pub fn run(store: &mut [u8], events: &[u8], work: &mut [u8], answers: &mut [u8]) -> u8 {
    // SAFETY: four live slices with their own lengths; the three that are written are borrowed alone.
    unsafe {
        linked::nekahuiro_run_pairs(
            store.as_mut_ptr(),
            store.len(),
            events.as_ptr(),
            events.len(),
            work.as_mut_ptr(),
            work.len(),
            answers.as_mut_ptr(),
            answers.len(),
        )
    }
}

/// Plays a portion of event words on a lent state: 0, or a refusal's number with nothing changed.
pub fn portion(state: &mut State, store: &mut [u8], events: &[u8], work: &mut [u8], answers: &mut [u8]) -> u8 {
    // SAFETY: a live struct of integers, laid out as in C, and four live slices with their own lengths;
    // the struct and the three slices that are written are borrowed alone.
    unsafe {
        linked::nekahuiro_portion_pairs(
            state,
            store.as_mut_ptr(),
            store.len(),
            events.as_ptr(),
            events.len(),
            work.as_mut_ptr(),
            work.len(),
            answers.as_mut_ptr(),
            answers.len(),
        )
    }
}

/// The copy write of this number that an event word makes if nothing cuts it: 0 with `write` set, 12 if there
/// is none, or a refusal's number; then nothing is written.
pub fn page_write(state: &State, store: &[u8], event: &[u8], work: &[u8], index: u8, write: &mut [u8]) -> u8 {
    // SAFETY: a live struct of integers, laid out as in C, and four live slices with their own lengths; the one
    // that is written is borrowed alone.
    unsafe {
        linked::nekahuiro_page_write_pairs(
            state,
            store.as_ptr(),
            store.len(),
            event.as_ptr(),
            event.len(),
            work.as_ptr(),
            work.len(),
            index,
            write.as_mut_ptr(),
            write.len(),
        )
    }
}

/// Lays down a fresh store: 0, or 22 with nothing written.
pub fn fresh(store: &mut [u8]) -> u8 {
    // SAFETY: a live slice, borrowed alone, with its length.
    unsafe { linked::nekahuiro_fresh_pairs(store.as_mut_ptr(), store.len()) }
}

/// Tells the age of a record: 0 live, 1 ahead, 2 stale, with `age` set; else a refusal's number and `age` untouched.
pub fn age(store: &[u8], record: u8, clock: u32, limit: u32, age: &mut i64) -> u8 {
    // SAFETY: a live slice with its length, and a live integer, borrowed alone.
    unsafe { linked::nekahuiro_age_pairs(store.as_ptr(), store.len(), record, clock, limit, age) }
}
