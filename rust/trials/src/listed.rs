//! Lists written down by hand, with the answers due.

use crate::{check, Case, Program};
use nekahuiro::limits::{ANSWER_BYTES, EVENT_BYTES};
use nekahuiro::Event;
use nekahuiro_lists::stores::{self, Bytes};

/// The words of a list such as `recover 63, begin none, 70000001`: events in words or in hex.
///
/// # Panics
/// If a part is neither; the lists are constants of the tests.
pub fn words(list: &str) -> Vec<u8> {
    let word = |part: &str| match (part.len(), u32::from_str_radix(part, 16)) {
        (8, Ok(bits)) => bits.to_be_bytes(),
        _ => part.parse::<Event>().unwrap_or_else(|bad| panic!("{part}: {bad}")).word(),
    };
    list.split(',').map(str::trim).filter(|part| !part.is_empty()).flat_map(word).collect()
}

/// Plays a list on the engine, checks all that [`check()`] checks, and gives the answers as hex words
/// and the store after.
///
/// # Panics
/// If the check fails.
pub fn play(store: Bytes, list: &str) -> (String, Bytes) {
    let case = Case { store, events: words(list) };
    let played = match check(Program::Engine, Program::Player, &case) {
        Ok(played) => played,
        Err(_) => panic!("{list}:\n{}", crate::random::told(Program::Engine, Program::Player, case)),
    };
    let answers = played.answers[..case.events.len() / EVENT_BYTES * ANSWER_BYTES].chunks_exact(ANSWER_BYTES);
    let answers: Vec<String> = answers.map(|pair| format!("{:02X}{:02X}", pair[0], pair[1])).collect();
    (answers.join(" "), played.store)
}

/// Plays a list on a fresh store and compares the last answers with those due.
///
/// # Panics
/// If they differ.
pub fn ends_with(list: &str, due: &str) {
    let (answers, _) = play(stores::fresh(), list);
    assert!(answers.ends_with(due), "{list}\n  answers {answers}\n  should end with {due}");
}
