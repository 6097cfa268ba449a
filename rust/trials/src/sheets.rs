//! Texts made into lists by the library and by the player's own reader, compared to the last byte.

use crate::settings;
use nekahuiro::limits::LIST_BYTES;
use nekahuiro::raw;
use nekahuiro_player::sheet;
use std::sync::atomic::{AtomicU64, Ordering};
use std::sync::Mutex;

/// What is behind the longest list.
const TAIL_BYTES: usize = 16;

/// How often texts were taken and were bad.
#[derive(Debug, Default, Clone, Copy)]
pub struct Tally {
    /// Taken.
    pub taken: u64,
    /// 29.
    pub bad: u64,
}

/// Compares the two on a text: answer, number told, and every byte of the output.
pub fn compare(text: &[u8]) -> Result<u8, String> {
    let (mut output, mut told) = ([0x99; LIST_BYTES + TAIL_BYTES], usize::MAX);
    let number = raw::sheet(text, &mut output, &mut told);
    let (mut due, mut due_told) = ([0x99; LIST_BYTES + TAIL_BYTES], usize::MAX);
    let due_number = sheet::sheet(text, &mut due, &mut due_told);
    if (number, told) != (due_number, due_told) {
        let text = String::from_utf8_lossy(text);
        return Err(format!("{text:?}: {number} with {told} told, by the player {due_number} with {due_told}"));
    }
    match output == due {
        true => Ok(number),
        false => Err(format!("{:?}: other bytes in the output", String::from_utf8_lossy(text))),
    }
}

/// Compares them on texts that are made from their numbers, shared among threads; the first difference fails.
pub fn compare_all(texts: u64, text: impl Fn(u64) -> Vec<u8> + Sync) -> Tally {
    let (next, taken, bad) = (AtomicU64::new(0), AtomicU64::new(0), AtomicU64::new(0));
    let fault = Mutex::new(None);
    let worker = || loop {
        let number = next.fetch_add(1, Ordering::Relaxed);
        if number >= texts {
            return;
        }
        match compare(&text(number)) {
            Ok(0) => _ = taken.fetch_add(1, Ordering::Relaxed),
            Ok(_) => _ = bad.fetch_add(1, Ordering::Relaxed),
            Err(difference) => {
                next.store(texts, Ordering::Relaxed);
                *fault.lock().expect("no thread panics") = Some(difference);
            }
        }
    };
    std::thread::scope(|scope| {
        for _ in 0..settings::threads() {
            scope.spawn(worker);
        }
    });
    if let Some(difference) = fault.into_inner().expect("no thread panics") {
        panic!("{difference}");
    }
    Tally { taken: taken.into_inner(), bad: bad.into_inner() }
}
