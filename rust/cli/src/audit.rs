//! `audit START EVENTS ANSWERS END`: whether two stores, a list and its answers belong together.

use crate::command::Command;
use crate::failure::{Failure, Outcome, Status};
use crate::files::{cant_read, need, read_store, read_up_to};
use crate::show::digits;
use crate::store::page_in_words;
use crate::trace::what_happened;
use crate::{list, say};
use nekahuiro::audit::{audit, Verdict};
use nekahuiro::limits::{ANSWER_BYTES, EVENT_BYTES};
use nekahuiro::{describe, Answer, Edition, Store};

/// More than the answers of any list that is audited.
const LIMIT: usize = 1 << 20;

/// The command.
pub const COMMAND: Command = Command {
    name: "audit",
    names: &["START", "EVENTS", "ANSWERS", "END"],
    options: &[("--raw", "", "EVENTS has raw event words of 4 bytes")],
    summary: "whether a store, a list, its answers and the store after it belong together",
    help: "\
START is the store before the list, ANSWERS a file that `play --answers` wrote, END the store after it.
The list is judged by an engine of its own, which keeps no locks and no versions and looks up in the events
and answers so far what the next answer should be. If they don't belong together the status is 6, and the
first wrong event is told, counted from 0, or else the first wrong page. A list with a prepare, decide or
query, or a START with a prepared transaction, is refused with 30. It is for stores of edition 1 whose pages
don't tear.
",
    run,
};

/// Prints that they belong together, or fails with the first fault.
fn run(words: &[String]) -> Outcome {
    let ([start, events, answers, end], given) = COMMAND.read(words)?;
    [start, end].into_iter().try_for_each(need_audited)?;
    let start = first(start)?;
    let words = list::read(Edition::FIRST, events, given.has("--raw"))?;
    list::check_length(Edition::FIRST, events, &words)?;
    let missing = "check the name; it should be a file that `play --answers` wrote";
    let given = read_up_to(answers, LIMIT).map_err(|error| cant_read(answers, &error, missing))?;
    let end = first(end)?;
    match audit(&start, &words, &given, &end) {
        Ok(Verdict::Belongs) => say("they belong together\n"),
        Ok(Verdict::WrongEvent(at)) => Err(wrong_event(&start, &words, &given, at)),
        Ok(Verdict::WrongPage(page)) => Err(wrong_page(page)),
        Err(refusal) => Err(Failure::refused(&refusal.to_string(), "audit what the auditor takes; see `help audit`")),
    }
}

/// The auditor is for edition 1, on pages that don't tear.
fn need_audited(path: &str) -> Outcome {
    let why = "and the auditor is for edition 1 on pages that are written all or nothing";
    let mend = "play EVENTS on a copy of START with `--expect ANSWERS`, and compare the copy with END by `show --diff`";
    need(|edition| edition == Edition::FIRST, path, why, mend)
}

/// Reads a store of edition 1.
fn first(path: &str) -> Outcome<Store> {
    Store::of(read_store(path)?.bytes()).map_err(|refusal| {
        Failure::refused(&format!("{path} is no store of edition 1 ({refusal})"), "name a store of edition 1")
    })
}

/// What event `at` should have answered, and why.
fn wrong_event(start: &Store, words: &[u8], given: &[u8], at: usize) -> Failure {
    let mut store = start.clone();
    let due = store.play_words(words).ok().and_then(|answers| answers.get(at).copied());
    let word = words.chunks_exact(EVENT_BYTES).nth(at).map_or([0; EVENT_BYTES], |w| [w[0], w[1], w[2], w[3]]);
    let found = given.chunks_exact(ANSWER_BYTES).nth(at).map_or([0; ANSWER_BYTES], |pair| [pair[0], pair[1]]);
    let hex = |answer: [u8; ANSWER_BYTES]| digits(&answer);
    let right = due.map_or_else(String::new, |due: Answer| {
        format!(", and it should be {}: {}", hex(due.bytes()), what_happened(Edition::FIRST, &word, due))
    });
    let reason = format!("event {at} (from 0), {}: its answer is {}{right}", describe(word), hex(found));
    let mend = "look at the list, its answers, or the store before it; what comes after that event isn't judged";
    Failure::with(Status::OtherAnswers, &reason, mend)
}

/// Which page it is.
fn wrong_page(page: usize) -> Failure {
    let what = page_in_words(Edition::FIRST, page);
    let reason = format!("every answer is right, and page {page} of the store after it, {what}, is wrong");
    Failure::with(Status::OtherAnswers, &reason, "look at the store after the list: something else wrote it")
}
