//! `demo`: the worked list, told step by step.

use crate::command::Command;
use crate::failure::{Failure, Outcome};
use crate::follow::Follower;
use crate::show::digits;
use crate::store::Store;
use crate::{say, show, trace};
use nekahuiro::any::Record;
use nekahuiro::limits::EVENT_BYTES;
use nekahuiro::{Answer, Edition};
use nekahuiro_history::{tell, History};
use nekahuiro_lists::worked;
use std::fmt::Write;

/// The command.
pub const COMMAND: Command =
    Command { name: "demo", names: &[], options: &[], summary: "the worked list, told step by step", help: "", run };

/// The worked list is of edition 1.
const EDITION: Edition = Edition::FIRST;

/// What each event of the worked list shows.
const STEPS: [&str; 16] = [
    "A run starts down. Recover finds an empty commit page and has nothing to copy. (63: the power stays.)",
    "A top transaction begins and gets the lowest free number, 0.",
    "A child begins under it.",
    "The child asks for record 3. Nobody holds or retains its lock.",
    "It writes the byte A5 at offset 2. Its first write makes its own version of record 3.",
    "The child commits: its parent retains the lock and takes the version. No page is written.",
    "Number 1 is free again, so a second child gets it.",
    "The lock is retained by the asker's ancestor only, so it is granted.",
    "It writes 11 over the A5 that it would have read.",
    "The second child aborts: its version goes, the parent's A5 stays.",
    "The parent commits one record: 4 page writes are due, the power goes after 2.",
    "Down: a read is refused.",
    "Recover finds the commit page and copies record 3 home: 2 page writes.",
    "A new top transaction begins.",
    "All locks went with the crash, so it gets record 3.",
    "It reads what survived.",
];

/// Plays the worked list on a fresh store and tells it; fails if an answer isn't the one due.
fn run(words: &[String]) -> Outcome {
    let ([], _) = COMMAND.read(words)?;
    let words = worked::events();
    let mut store = Store::fresh(EDITION);
    let answers = store.play_words(&words).map_err(|refusal| wrong(&refusal.to_string()))?;
    let bytes: Vec<u8> = answers.iter().flat_map(|answer| answer.bytes()).collect();
    let history = tell(&words, &bytes).map_err(|absurd| wrong(absurd.what))?;
    say(&text(&words, &answers, &history, &store)?)?;
    match answers.iter().zip(worked::answers().chunks_exact(2)).position(|(found, due)| found.bytes() != due) {
        Some(at) => Err(wrong(&format!("event {} is answered otherwise than it should be", at + 1))),
        None => Ok(()),
    }
}

fn wrong(what: &str) -> Failure {
    Failure::new(&format!("the worked list failed: {what}"), "make the library again with `tools/archives nekahuiro`")
}

fn text(words: &[u8], answers: &[Answer], history: &History, end: &Store) -> Outcome<String> {
    let mut text = String::from("Sixteen events on a fresh store, played by the proved engine.\n\n");
    let mut follower = Follower::down(EDITION);
    let endings = trace::endings(history);
    for (at, (word, answer)) in words.chunks_exact(EVENT_BYTES).zip(answers).enumerate() {
        let (described, what) = (EDITION.describe(word), trace::what_happened(EDITION, word, *answer));
        let (word_digits, answered) = (digits(word), digits(&answer.bytes()));
        let _ = writeln!(text, "{:2}  {described:16} {word_digits} -> {answered}  {what}", at + 1);
        let _ = writeln!(text, "      {}", STEPS[at]);
        if let Some(event) = EDITION.event(word) {
            follower.event(event, *answer);
        }
        for line in endings.get(&at).map(trace::Ending::lines).unwrap_or_default() {
            let _ = writeln!(text, "      {line}");
        }
        let _ = writeln!(text, "      {}", follower.locks_in_words());
        if answer.is_cut() {
            let _ = writeln!(text, "      {}", show::commit_page(&store_after(&words[..(at + 1) * EVENT_BYTES])?));
        }
        text.push('\n');
    }
    let _ = writeln!(text, "At the end {}", show::commit_page(end));
    if let Some(record) = Record::new(3) {
        let _ = writeln!(text, "record 3 is {}", show::hex(&end.settled(record)));
    }
    Ok(text)
}

/// The store after the first events of the list.
fn store_after(words: &[u8]) -> Outcome<Store> {
    let mut store = Store::fresh(EDITION);
    store.play_words(words).map_err(|refusal| wrong(&refusal.to_string()))?;
    Ok(store)
}
