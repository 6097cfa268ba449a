//! The operations of edition 2 over plain byte slices, just as C sees them.

/// The symbols of the proved library of edition 2.
mod linked {
    extern "C" {
        pub fn nekahuiro_run_edition2(
            store: *mut u8,
            store_bytes: usize,
            events: *const u8,
            events_bytes: usize,
            work: *mut u8,
            work_bytes: usize,
            answers: *mut u8,
            answers_bytes: usize,
        ) -> u8;
        pub fn nekahuiro_page_write_edition2(
            store: *mut u8,
            store_bytes: usize,
            events: *const u8,
            events_bytes: usize,
            work: *mut u8,
            work_bytes: usize,
            answers: *mut u8,
            answers_bytes: usize,
            event: *const u8,
            event_bytes: usize,
            index: u8,
            write: *mut u8,
            write_bytes: usize,
        ) -> u8;
        pub fn nekahuiro_fresh_edition2(store: *mut u8, store_bytes: usize) -> u8;
        pub fn nekahuiro_age_edition2(
            store: *const u8,
            store_bytes: usize,
            record: u8,
            clock: u32,
            limit: u32,
            age: *mut i64,
        ) -> u8;
    }
}

/// Plays a list of event words: 0, or a refusal's number with no buffer touched.
pub fn run(store: &mut [u8], events: &[u8], work: &mut [u8], answers: &mut [u8]) -> u8 {
    // SAFETY: four live slices with their own lengths; the three that are written are borrowed alone.
    unsafe {
        linked::nekahuiro_run_edition2(
            store.as_mut_ptr(),
            store.len(),
            events.as_ptr(),
            events.len(),
            work.as_mut_ptr(),
            work.len(),
            answers.as_mut_ptr(),
            answers.len(),
        )
    }
}

/// Plays a list of event words, and tells the page write of this number that one more event word makes after it if
/// nothing cuts it: 0 with `write` set, 12 if there is none, or a refusal's number with no buffer touched.
pub fn page_write(
    store: &mut [u8],
    events: &[u8],
    work: &mut [u8],
    answers: &mut [u8],
    event: &[u8],
    index: u8,
    write: &mut [u8],
) -> u8 {
    // SAFETY: six live slices with their own lengths; the four that are written are borrowed alone.
    unsafe {
        linked::nekahuiro_page_write_edition2(
            store.as_mut_ptr(),
            store.len(),
            events.as_ptr(),
            events.len(),
            work.as_mut_ptr(),
            work.len(),
            answers.as_mut_ptr(),
            answers.len(),
            event.as_ptr(),
            event.len(),
            index,
            write.as_mut_ptr(),
            write.len(),
        )
    }
}

/// Lays down a fresh store: 0, or 22 with nothing written.
pub fn fresh(store: &mut [u8]) -> u8 {
    // SAFETY: a live slice, borrowed alone, with its length.
    unsafe { linked::nekahuiro_fresh_edition2(store.as_mut_ptr(), store.len()) }
}

/// Tells the age of a record: 0 live, 1 ahead, 2 stale, with `age` set; else a refusal's number and `age` untouched.
pub fn age(store: &[u8], record: u8, clock: u32, limit: u32, age: &mut i64) -> u8 {
    // SAFETY: a live slice with its length, and a live integer, borrowed alone.
    unsafe { linked::nekahuiro_age_edition2(store.as_ptr(), store.len(), record, clock, limit, age) }
}
