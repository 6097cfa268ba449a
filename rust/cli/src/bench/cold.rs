//! One event whose caches are cold, as where events come seldom: buffers, state and code have been pushed out meanwhile.

use crate::failure::Outcome;
use nekahuiro::limits::{ANSWER_BYTES, EVENT_BYTES, WORK_BYTES};
use nekahuiro::{raw, State, Store};
use nekahuiro_lists::timing;
use nekahuiro_player::Volatile;
use nekahuiro_tuned::Tuned;
use std::fmt::Write;
use std::hint::black_box;
use std::time::Instant;

/// More than the caches hold.
const EVICTING: usize = 64 << 20;
/// Events that are timed of each list, and those that are played before each of them.
const TIMED: usize = 40;
const BETWEEN: usize = 61;

/// Writes to each line of a large buffer.
fn evict(buffer: &mut [u8]) {
    buffer.iter_mut().step_by(64).for_each(|byte| *byte = byte.wrapping_add(1));
    black_box(buffer);
}

/// The median time of a portion of one event.
fn median(events: &[u8], mut play: impl FnMut(&[u8], &mut [u8])) -> f64 {
    let (mut buffer, mut answer, mut taken) = (vec![0; EVICTING], [0; ANSWER_BYTES], Vec::new());
    let mut words = events.chunks_exact(EVENT_BYTES);
    for _ in 0..TIMED {
        words.by_ref().take(BETWEEN).for_each(|word| play(word, &mut answer));
        evict(&mut buffer);
        if let Some(word) = words.next() {
            let start = Instant::now();
            play(black_box(word), &mut answer);
            taken.push(start.elapsed().as_secs_f64() * 1e9);
        }
    }
    taken.sort_by(f64::total_cmp);
    taken.get(taken.len() / 2).copied().unwrap_or_default()
}

pub fn text() -> Outcome<String> {
    let mut text =
        String::from("# one event with cold caches, median nanoseconds: list; engine; ordinary player; tuned player\n");
    for (name, events) in timing::all() {
        let (mut store, mut work, mut state) = (Store::fresh(), vec![0; WORK_BYTES], State::new());
        let engine = median(&events, |word, answer| {
            black_box(raw::portion(&mut state, store.bytes_mut(), word, &mut work, answer));
        });
        let (mut store, mut volatile) = (Store::fresh(), Volatile::default());
        let player = median(&events, |word, answer| {
            black_box(nekahuiro_player::portion(&mut volatile, store.bytes_mut(), word, &mut work, answer));
        });
        let (mut store, mut tuned) = (Store::fresh(), Tuned::default());
        let tuned = median(&events, |word, answer| {
            black_box(tuned.portion(store.bytes_mut(), word, &mut work, answer));
        });
        let _ = writeln!(text, "# {name} {engine:.0} {player:.0} {tuned:.0}");
    }
    Ok(text)
}
