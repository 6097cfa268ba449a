//! `--page FILE.html`: a run to look at in a browser, in one file that needs no other. The file has what each event
//! changes; its script draws from that what is in view.

mod json;
mod lost;
mod steps;
mod timeline;

use crate::failure::{Failure, Outcome};
use crate::follow::Follower;
use crate::live::Live;
use crate::names::Names;
use crate::picture::{self, Told};
use crate::store::Store;
use crate::{number_of, sentence, trace};
use json::{hex, list, object, text, Texts};
use nekahuiro::limits::EVENTS;
use nekahuiro::{Answer, Edition};
use nekahuiro_history::History;
use std::path::Path;

/// The events of the longest list that a page is made of.
const LONGEST: usize = 16 * EVENTS;

const HTML: &str = include_str!("page.html");
const STYLE: &str = include_str!("page.css");
/// Its parts, in their order: each uses what those before it define.
const SCRIPT: [&str; 4] =
    [include_str!("moments.js"), include_str!("tables.js"), include_str!("timeline.js"), include_str!("controls.js")];

/// A run that was played.
pub struct Run<'r> {
    /// What it is called.
    pub title: String,
    /// Store and state before it.
    pub before: (&'r Store, &'r Live),
    /// The same in words.
    pub start: &'r Follower,
    /// The list.
    pub words: &'r [u8],
    /// The names in it.
    pub names: &'r Names,
    /// The answers.
    pub answers: &'r [Answer],
    /// What they tell.
    pub history: &'r History,
    /// The store after it.
    pub after: &'r Store,
}

/// A page is HTML, so its name may not promise something else.
pub fn check_name(name: &str) -> Outcome {
    match Path::new(name).extension() {
        Some(other) if !["html", "htm"].iter().any(|ending| other.eq_ignore_ascii_case(ending)) => {
            let reason = format!("--page makes HTML, and {name} is the name of something else");
            Err(Failure::usage(&reason, "give it a name that ends in .html"))
        }
        _ => Ok(()),
    }
}

/// Whether a list isn't too long for a page.
pub fn check_length(edition: Edition, name: &str, words: &[u8]) -> Outcome {
    let events = words.len() / edition.event_bytes;
    if events > LONGEST {
        let reason = format!("{name}: {events} events, but a page shows at most {LONGEST}");
        let mend = "play it in parts, one after the other with --state, each with a page of its own";
        return Err(Failure::refused(&reason, &format!("{mend}; no file was changed")));
    }
    Ok(())
}

/// The page of a run.
pub fn draw(run: &Run) -> Outcome<String> {
    let edition = run.after.edition;
    let told = Told::of(edition, run.start, run.words, run.answers, run.history);
    let mut texts = Texts::default();
    let (start, steps) = steps::of(run.before, run.words, (run.after, run.answers), &mut texts)?;
    let events = events(run, &told, steps, &mut texts);
    let title = format!("{}, {}", number_of(run.answers.len(), "event"), trace::fates(run.history));
    let data = object(&[
        ("title", text(&title)),
        ("start", start),
        ("events", events),
        ("transactions", timeline::transactions(&told, run.names)),
        ("timeline", timeline::rows(&told)),
        ("lost", lost_writes(&told)),
        ("refusals", list(told.refusals().into_values().map(|reason| text(&reason)))),
        ("carried", run.start.live.len().to_string()),
        ("texts", texts.json()),
    ]);
    Ok(HTML
        .replace("{{title}}", &escaped(&run.title))
        .replace("{{style}}", &format!("{}{STYLE}", picture::STYLE))
        .replace("{{script}}", &SCRIPT.concat())
        .replace("{{tears}}", &edition.tears.to_string())
        .replace("{{pages}}", &edition.pages().to_string())
        .replace("{{records}}", &edition.records.to_string())
        .replace("{{data}}", &data))
}

/// Each event: its word, as it is written, in a sentence, its answer, what happened, whose it is, its mark, what it
/// changes.
fn events(run: &Run, told: &Told, steps: Vec<String>, texts: &mut Texts) -> String {
    let endings = trace::endings(run.history);
    let mut events = Vec::with_capacity(steps.len());
    for (at, changes) in steps.into_iter().enumerate() {
        let (word, answer) = (told.words[at], run.answers[at]);
        let lines = endings.get(&at).map(trace::Ending::lines).unwrap_or_default();
        let what = [vec![trace::what_happened(told.edition, word, answer)], lines].concat().join("\n");
        let owner = told.history.owner[at].map_or(-1, |owner| owner as i64);
        events.push(list([
            hex(word),
            texts.place(run.names.describe(told.edition, at, word)).to_string(),
            texts.place(sentence::of(told.edition, word)).to_string(),
            hex(&answer.bytes()),
            texts.place(what).to_string(),
            owner.to_string(),
            timeline::mark(told, at, texts),
            changes,
        ]));
    }
    format!("[{}]", events.join(",\n"))
}

/// The lost writes: event, transaction, record, offset, value, how, and whether it is open.
fn lost_writes(told: &Told) -> String {
    list(lost::writes(told).into_iter().map(|lost::Lost { write, how, open }| {
        let (record, offset) = (write.record.to_string(), write.offset.to_string());
        let number = (write.at + 1).to_string();
        list([
            number,
            write.transaction.to_string(),
            record,
            offset,
            hex(&[write.value]),
            text(&how),
            u8::from(open).to_string(),
        ])
    }))
}

/// Text in HTML.
fn escaped(text: &str) -> String {
    text.replace('&', "&amp;").replace('<', "&lt;").replace('>', "&gt;").replace('"', "&quot;")
}
