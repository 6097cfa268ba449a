//! The header's number of stack bytes is enough: whole runs on a thread that has no more.

use nekahuiro::limits::{ANSWER_BYTES, EVENTS, WORK_BYTES};
use nekahuiro::{raw, Store};
use nekahuiro_lists::timing;
use std::thread::Builder;

/// NEKAHUIRO_STACK_BYTES of the header. A thread's own needs come on top, and the system rounds up.
const STACK_BYTES: usize = 16_384;

#[test]
fn whole_runs_on_sixteen_kib_of_stack() {
    for (name, events) in timing::all() {
        let (mut store, mut work, mut answers) = (Store::fresh(), vec![0; WORK_BYTES], vec![0; EVENTS * ANSWER_BYTES]);
        let due = raw::run(Store::fresh().bytes_mut(), &events, &mut work.clone(), &mut answers.clone());
        let thread = Builder::new().stack_size(STACK_BYTES);
        let run = thread.spawn(move || raw::run(store.bytes_mut(), &events, &mut work, &mut answers));
        assert_eq!(run.map(|handle| handle.join().ok()).ok().flatten(), Some(due), "{name}");
    }
}
