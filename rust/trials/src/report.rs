//! A failing case as text: the store's pages, then each event in words with both answers.

use crate::{Case, Fault, Program};
use nekahuiro::limits::{ANSWER_BYTES, EVENT_BYTES, PAGE_BYTES};
use nekahuiro_lists::stores;
use std::fmt::Write;

/// Tells a case and what is wrong with it.
pub fn tell(case: &Case, fault: &Fault, program: Program, reference: Program) -> String {
    let mut text = format!("{fault:?}\nstart store, other than fresh:\n");
    for (page, (bytes, fresh)) in pages(&case.store).zip(pages(&stores::fresh())).enumerate() {
        if bytes != fresh {
            let _ = writeln!(text, "  page {page:2} {}", hex(bytes));
        }
    }
    let (one, two) = (program.play(case, 0x5A), reference.play(case, 0));
    let _ = writeln!(text, "event  word      {:8} {:8} in words", program.name(), reference.name());
    for at in 0..case.length() {
        let word = &case.events[at * EVENT_BYTES..][..EVENT_BYTES];
        let answer = at * ANSWER_BYTES..(at + 1) * ANSWER_BYTES;
        let (one, two) = (hex(&one.answers[answer.clone()]), hex(&two.answers[answer]));
        let words = nekahuiro::describe([word[0], word[1], word[2], word[3]]);
        let _ = writeln!(text, "{at:5}  {}  {one:8} {two:8} {words}", hex(word));
    }
    for (page, (one, two)) in pages(&one.store).zip(pages(&two.store)).enumerate() {
        if one != two {
            let _ = writeln!(text, "end, page {page:2}, {:7} {}", program.name(), hex(one));
            let _ = writeln!(text, "end, page {page:2}, {:7} {}", reference.name(), hex(two));
        }
    }
    text
}

fn pages(store: &[u8]) -> impl Iterator<Item = &[u8]> {
    store.chunks_exact(PAGE_BYTES)
}

fn hex(bytes: &[u8]) -> String {
    bytes.iter().map(|byte| format!("{byte:02X}")).collect()
}
