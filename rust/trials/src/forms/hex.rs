//! Words, answers and pages written down in hex.

use super::{check, Case, Form, Program};

/// The bytes of hex digits, between which there may be blanks.
///
/// # Panics
/// If they aren't: they are constants of the tests.
pub fn bytes(text: &str) -> Vec<u8> {
    let digits: Vec<char> = text.chars().filter(|digit| !digit.is_whitespace()).collect();
    let byte = |pair: &[char]| u8::from_str_radix(&String::from_iter(pair), 16).unwrap_or_else(|_| panic!("{text}"));
    digits.chunks(2).map(byte).collect()
}

/// Bytes as hex digits.
pub fn of(bytes: &[u8]) -> String {
    bytes.iter().map(|byte| format!("{byte:02X}")).collect()
}

/// Plays a list in hex on the engine of a form, with all that is checked of a case; the answers in hex, and the
/// store after.
///
/// # Panics
/// If the check fails.
pub fn play<F: Form>(store: &[u8], list: &str) -> (String, Vec<u8>) {
    let case = Case { store: store.to_vec(), events: bytes(list) };
    let played =
        check::<F>(Program::Engine, Program::Player, &case).unwrap_or_else(|fault| panic!("{list}: {fault:?}"));
    let answers: Vec<String> = played.told().iter().map(|(number, value)| of(&[*number, *value])).collect();
    (answers.join(" "), played.store)
}
