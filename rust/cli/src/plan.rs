//! `plan STORE EVENTS`: the page writes of each event, in their order, told before it is played.

use crate::alone::Alone;
use crate::command::{Command, WAIT};
use crate::failure::{Failure, Outcome};
use crate::files::edition_of;
use crate::live::Live;
use crate::pair::{need_edition, need_no_state, Pair};
use crate::show::{digits, hex};
use crate::store::{self, page_in_words, Refused, Store};
use crate::trace::what_happened;
use crate::{list, number_of, say, state_file};
use nekahuiro::any::{CommitPage, Event, Map};
use nekahuiro::pairs::Half;
use nekahuiro::{Answer, Cut, Edition, Tear};
use std::fmt::Write;

/// The command.
pub const COMMAND: Command = Command {
    name: "plan",
    names: &["STORE", "EVENTS"],
    options: &[
        ("--state", "FILE", "start from the state in FILE, as `play --state` leaves it; without it, start down"),
        ("--raw", "", "take EVENTS as raw event words of 4 bytes"),
        WAIT,
    ],
    summary: "the page writes of each event, in their order",
    help: "\
This is what a device has to bring to its medium, one page write after the other and in this order, before
the event counts; docs/DEVICE.md says how. A page write is told by its number, from 0, the page, its 32
bytes and what they are. They are those of an event that nothing cuts; where its own count cuts it, the rest
is marked as not made, and the list goes on after the cut. No file is changed.

Where pages can tear these are copy writes: of each page the first copy, then the second. What mends the store before a
recover comes first, and has no number.
",
    run,
};

/// Tells the page writes.
fn run(words: &[String]) -> Outcome {
    let ([store, events], given) = COMMAND.read(words)?;
    let state = given.value("--state");
    let edition = edition_of(store);
    need_no_state(store, state)?;
    let words = list::read(edition, events, given.has("--raw"))?;
    let files: Vec<&str> = std::iter::once(store).chain(state).collect();
    let alone = Alone::with(&files, given.wait()?)?;
    let (pair, live) = Pair::read(store, state, true)?;
    drop(alone);
    need_edition(store, &pair.store, edition)?;
    let text = tell(pair.store, live, &words).map_err(|refused| match state {
        Some(path) if refused.is_of_state() => state_file::unsound(path),
        _ => Failure::refused(&format!("the list was {refused}"), "no file was changed"),
    })?;
    say(&text)
}

/// Each event with its writes to the medium.
fn tell(mut store: Store, mut live: Live, words: &[u8]) -> Result<String, Refused> {
    let edition = store.edition;
    let unit = if edition.tears { "copy write" } else { "page write" };
    let width = 2 * edition.event_bytes;
    let mut text = format!("event  {:width$}  answer  what happens, and its {unit}s\n", "word");
    let (mut planned, mut made, mut mended) = (0, 0, 0);
    for (at, word) in (1..).zip(words.chunks_exact(edition.event_bytes)) {
        let writes = live.writes(&store, word)?;
        let before = store.clone();
        let Some(answer) = live.portion(&mut store, word)?.first().copied() else {
            break;
        };
        let happened = what_happened(edition, word, answer);
        let (hex_word, pair) = (digits(word), digits(&answer.bytes()));
        let _ = writeln!(text, "{at:5}  {hex_word}  {pair}    {}: {happened}", edition.describe(word));
        let mends = mends(&before, word, answer);
        mends.iter().for_each(|write| text += &line(edition, "mend", write, ""));
        let reached = Reached::of(edition, word, answer, writes.len());
        for (index, write) in writes.iter().enumerate() {
            text += &line(edition, &index.to_string(), write, reached.in_words(index));
        }
        (planned, made, mended) = (planned + writes.len(), made + reached.made, mended + mends.len());
    }
    let events = number_of(words.len() / edition.event_bytes, "event");
    let not_made = if made < planned { format!(", {} not made", planned - made) } else { String::new() };
    let mended = if mended > 0 { format!(", {} mended", number_of(mended, "page")) } else { String::new() };
    let _ = writeln!(text, "{events}: {}{not_made}{mended}", number_of(planned, unit));
    Ok(text)
}

/// A write to the medium in a line.
fn line(edition: Edition, number: &str, write: &store::Write, not: &str) -> String {
    let page_width = edition.pages().to_string().len();
    // What mends the medium has a word in the place of a number.
    let number_width = if edition.tears { "mend".len() } else { page_width };
    let indent = " ".repeat(15 + 2 * edition.event_bytes);
    let copy = match write.half {
        None => "",
        Some(Half::First) => "first   ",
        Some(Half::Second) => "second  ",
    };
    let (page, what, bytes) = (write.page, what(edition, write), hex(&write.bytes));
    format!("{indent}{number:>number_width$}  page {page:page_width$}  {copy}{bytes}  {what}{not}\n")
}

/// What mends the medium before an event: there is something only before a recover that isn't refused.
fn mends(before: &Store, word: &[u8], answer: Answer) -> Vec<store::Write> {
    match before.edition.event(word) {
        Some::<Event>(Event::Recover { .. }) if answer.is_accepted() => before.mends(),
        _ => Vec::new(),
    }
}

/// How many writes of an event were made, and whether the next was torn and left bad.
struct Reached {
    made: usize,
    left_bad: bool,
}

impl Reached {
    fn of(edition: Edition, word: &[u8], answer: Answer, due: usize) -> Reached {
        let cut = match edition.event(word) {
            Some::<Event>(Event::Commit { count, .. } | Event::Recover { count }) if edition.tears => Some(count),
            _ => None,
        };
        match cut {
            _ if !answer.is_cut() => Reached { made: due, left_bad: false },
            None => Reached { made: due.min(answer.value.into()), left_bad: false },
            Some(Cut { count, tear }) => Reached {
                made: due.min(2 * usize::from(count) + usize::from(matches!(tear, Tear::SecondBad | Tear::SecondOld))),
                left_bad: matches!(tear, Tear::FirstBad | Tear::SecondBad),
            },
        }
    }

    fn in_words(&self, index: usize) -> &'static str {
        match index {
            index if index < self.made => "",
            index if index == self.made && self.left_bad => " (left bad)",
            _ => " (not made)",
        }
    }
}

/// What a page is, in words.
fn what(edition: Edition, write: &store::Write) -> String {
    match (write.page, edition.commit_page(&write.bytes)) {
        (1.., _) => page_in_words(edition, usize::from(write.page)).trim_start_matches("the ").to_string(),
        (0, CommitPage::Empty) => "commit page, empty".to_string(),
        (0, CommitPage::Committed(map)) => format!("commit page, committed: {}", named(map)),
        (0, CommitPage::Prepared(map, identity)) => format!("commit page, prepared {identity}: {}", named(map)),
        (0, CommitPage::Damaged(why)) => format!("commit page, damaged: {why}"),
    }
}

fn named(map: Map) -> String {
    map.records().map(|record| record.to_string()).collect::<Vec<_>>().join(", ")
}
