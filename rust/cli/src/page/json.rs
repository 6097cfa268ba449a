//! JSON text, as much of it as a page needs.

use std::collections::HashMap;
use std::fmt::{Display, Write};

/// A text in quotes. Nothing in it ends the script that it stands in.
pub fn text(text: &str) -> String {
    let mut quoted = String::from("\"");
    for c in text.chars() {
        let _ = match c {
            '"' | '\\' => write!(quoted, "\\{c}"),
            '<' | '>' | '&' | '\u{2028}' | '\u{2029}' => write!(quoted, "\\u{:04x}", u32::from(c)),
            c if c.is_control() => write!(quoted, "\\u{:04x}", u32::from(c)),
            c => write!(quoted, "{c}"),
        };
    }
    quoted + "\""
}

/// Values one after the other.
pub fn list<T: Display>(values: impl IntoIterator<Item = T>) -> String {
    let values: Vec<String> = values.into_iter().map(|value| value.to_string()).collect();
    format!("[{}]", values.join(","))
}

/// Values under names.
pub fn object(values: &[(&str, String)]) -> String {
    let values: Vec<String> = values.iter().map(|(name, value)| format!("\"{name}\":{value}")).collect();
    format!("{{{}}}", values.join(","))
}

/// Bytes in hex.
pub fn hex(bytes: &[u8]) -> String {
    let digits: String = bytes.iter().map(|byte| format!("{byte:02X}")).collect();
    format!("\"{digits}\"")
}

/// Texts of which many are equal: each stands once, and is known by its place.
#[derive(Default)]
pub struct Texts {
    all: Vec<String>,
    places: HashMap<String, usize>,
}

impl Texts {
    /// The place of a text.
    pub fn place(&mut self, text: String) -> usize {
        let next = self.all.len();
        let place = *self.places.entry(text.clone()).or_insert(next);
        if place == next {
            self.all.push(text);
        }
        place
    }

    /// All of them.
    pub fn json(&self) -> String {
        list(self.all.iter().map(|one| text(one)))
    }
}
