//! `--picture FILE.svg`: a run as a timeline. Time goes to the right, one column an event.

mod bars;
mod layout;
mod locks;
pub mod ring;
mod svg;

use crate::failure::{Failure, Outcome};
use crate::follow::Follower;
use crate::store::refusal_in_words;
use crate::{number_of, trace};
use layout::Scale;
use nekahuiro::any::Event;
use nekahuiro::{Answer, Edition};
use nekahuiro_history::History;
use std::collections::BTreeMap;
use std::path::Path;
use svg::Svg;

pub use bars::{class as bar_class, tip as bar_tip, Mark};
pub use layout::{Layout, GAP, ROW};
pub use locks::{Rows, Stretch};
pub use svg::STYLE;

/// What each part of the picture is drawn from.
pub struct Told<'t> {
    /// The edition of the store.
    pub edition: Edition,
    /// Each event word.
    pub words: Vec<&'t [u8]>,
    /// Each event, none where its word is bad.
    pub events: Vec<Option<Event>>,
    /// The engine's answers.
    pub answers: &'t [Answer],
    /// What they tell.
    pub history: &'t History,
    /// What is known before the first event.
    pub start: &'t Follower,
}

impl<'t> Told<'t> {
    /// What the events and answers tell.
    pub fn of(
        edition: Edition,
        start: &'t Follower,
        words: &'t [u8],
        answers: &'t [Answer],
        history: &'t History,
    ) -> Told<'t> {
        let words: Vec<&[u8]> = words.chunks_exact(edition.event_bytes).collect();
        let events = words.iter().map(|word| edition.event(word)).collect();
        Told { edition, words, events, answers, history, start }
    }

    /// An event and its answer in words.
    pub fn tip(&self, at: usize) -> String {
        let (edition, word) = (self.edition, self.words[at]);
        let happened = trace::what_happened(edition, word, self.answers[at]);
        format!("event {}, {}: {happened}", at + 1, edition.describe(word))
    }

    /// Whether the store goes down at an event.
    pub fn is_crash(&self, at: usize) -> bool {
        let crash = matches!(self.events[at], Some(Event::Crash)) && self.answers[at].is_accepted();
        crash || self.answers[at].is_cut()
    }

    /// The refusals of this run, each number once.
    pub fn refusals(&self) -> BTreeMap<u8, String> {
        let refused = self.answers.iter().filter(|answer| !answer.is_accepted());
        refused.map(|answer| (answer.number, refusal_in_words(self.edition, answer.number))).collect()
    }

    /// Whether a transaction survives, in a word.
    pub fn fate(&self, transaction: usize) -> &'static str {
        match self.history.transactions[transaction].survives {
            true => "survives",
            false if self.history.is_undecided(transaction) => "undecided",
            false => "lost",
        }
    }
}

const TITLE: f64 = 30.0;
const AXIS: f64 = 44.0;
const CRASH_LABEL: f64 = 28.0;
const LEGEND: f64 = 74.0;
const LEGEND_ROW: f64 = 16.0;
const LEAST_WIDTH: f64 = 900.0;

/// A picture is SVG, so its name may not promise something else.
pub fn check_name(name: &str) -> Outcome {
    match Path::new(name).extension() {
        Some(other) if !other.eq_ignore_ascii_case("svg") => {
            let reason = format!("--picture draws SVG, and {name} is the name of something else");
            Err(Failure::usage(&reason, "give it a name that ends in .svg"))
        }
        _ => Ok(()),
    }
}

/// Draws a run.
pub fn draw(edition: Edition, start: &Follower, words: &[u8], answers: &[Answer], history: &History) -> String {
    let told = Told::of(edition, start, words, answers, history);
    let scale = Scale::of(answers.len());
    let bars = Layout::of(history, answers.len());
    let locks = locks::Rows::of(&told);
    let top_of_bars = TITLE + AXIS;
    let top_of_locks = top_of_bars + bars.height + 12.0;
    let bottom = top_of_locks + locks.height();
    let width = scale.right().max(LEAST_WIDTH);
    let mut svg = Svg::new(width, bottom + CRASH_LABEL + LEGEND + told.refusals().len() as f64 * LEGEND_ROW);
    let title = format!("{}, {}", number_of(answers.len(), "event"), trace::fates(history));
    svg.text(16.0, 20.0, "title", &title);
    axis(&mut svg, &told, &scale);
    bars::draw(&mut svg, &told, &scale, &bars, top_of_bars);
    locks.draw(&mut svg, &scale, top_of_locks);
    crashes(&mut svg, &told, &scale, bottom);
    legend(&mut svg, &told, &scale, bottom + CRASH_LABEL + 12.0);
    svg.finish()
}

/// Event numbers, the numbers of refusals, and a band that is green while the store is up.
fn axis(svg: &mut Svg, told: &Told, scale: &Scale) {
    let (numbers, refusals, band) = (TITLE + 10.0, TITLE + 23.0, TITLE + 30.0);
    svg.text(16.0, numbers, "label", "event");
    svg.text(16.0, refusals, "label", "refused");
    svg.text(16.0, band + 6.0, "label", "store");
    let every = scale.number_every();
    let mut up = told.start.up;
    for (at, answer) in told.answers.iter().enumerate() {
        if at == 0 || (at + 1) % every == 0 {
            svg.text(scale.middle(at), numbers, "number", &(at + 1).to_string());
        }
        let tip = told.tip(at);
        if !answer.is_accepted() && scale.has_room_for_text() {
            svg.text_with_tip(scale.middle(at), refusals, "refusal", &answer.number.to_string(), &tip);
        } else if !answer.is_accepted() {
            svg.rect(scale.left(at), refusals - 8.0, scale.step, 8.0, "refused-tick", &tip);
        }
        // A crash comes at the right end of its column, a recover in the middle.
        svg.rect(scale.left(at), band, scale.step, 9.0, if up { "up" } else { "down" }, &tip);
        let recovers = matches!(told.events[at], Some(Event::Recover { .. })) && answer.is_accepted();
        up = (up || recovers) && !told.is_crash(at);
        if recovers {
            let class = if up { "recover" } else { "recover-cut" };
            svg.rect(scale.middle(at), band, scale.step / 2.0, 9.0, if up { "up" } else { "down" }, &tip);
            svg.arrow_up(scale.middle(at), band + 8.5, scale.step.min(8.0), class, &tip);
        }
    }
}

/// A line through all at each crash. Labels stand in two rows by turns, so that neighbours don't touch.
fn crashes(svg: &mut Svg, told: &Told, scale: &Scale, bottom: f64) {
    let mut lower = false;
    for (at, answer) in told.answers.iter().enumerate() {
        if !told.is_crash(at) {
            continue;
        }
        let x = scale.left(at) + scale.step - 1.0;
        svg.line(x, TITLE + 26.0, x, bottom, "crash");
        if scale.has_room_for_text() {
            let what = if answer.is_cut() { format!("cut at {}", answer.value) } else { "crash".to_string() };
            svg.text(x, bottom + if lower { 24.0 } else { 11.0 }, "crash-label", &what);
            lower = !lower;
        }
    }
}

fn legend(svg: &mut Svg, told: &Told, scale: &Scale, top: f64) {
    let mut x = 16.0;
    let mut entry = |svg: &mut Svg, class: &str, text: &str| {
        svg.rect(x, top, 22.0, 12.0, class, "");
        svg.text(x + 28.0, top + 10.0, "legend", text);
        x += 42.0 + 6.3 * text.len() as f64;
    };
    entry(svg, "survives", "survives");
    entry(svg, "lost", "lost");
    if (0..told.history.transactions.len()).any(|place| told.history.is_undecided(place)) {
        entry(svg, "undecided", "undecided");
    }
    entry(svg, "held", "lock held by");
    entry(svg, "held-to-read", "0r: to read");
    entry(svg, "retained", "lock retained by");
    if told.events.iter().flatten().any(|event| matches!(event, Event::Prepare { .. })) || told.start.prepared.is_some()
    {
        entry(svg, "prepared", "p7: prepared, identity 7");
    }
    entry(svg, "up", "store up");
    entry(svg, "down", "store down");
    let letters = [
        "L lock, W write, R read, each with its record; L3r: only to read",
        "struck through: refused",
        "P prepare, \u{2713} commit, cut: cut and lost",
        "\u{25B2} recover",
        "\u{2717} abort, \u{2717}\u{2191} with a report",
    ];
    let marks = [
        "black: an event of the transaction",
        "red: a refused one",
        "orange: a commit cut and lost",
        "\u{25B2} recover",
    ];
    let crash =
        if scale.has_room_for_text() { "red line: crash; cut at 2: after 2 page writes" } else { "red line: crash" };
    let lines = [crash, "a bar inside a bar is a child", "dashed: still live or waiting"];
    let signs = if scale.has_room_for_text() { &letters[..] } else { &marks[..] };
    svg.text(16.0, top + 30.0, "legend", &signs.join(" \u{b7} "));
    svg.text(16.0, top + 46.0, "legend", &lines.join(" \u{b7} "));
    for (row, reason) in told.refusals().values().enumerate() {
        svg.text(16.0, top + 62.0 + row as f64 * LEGEND_ROW, "refused-legend", reason);
    }
}
