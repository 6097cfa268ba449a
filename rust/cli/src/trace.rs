//! `--trace`: each event and answer in words, with who holds, who retains and what crashed.

use crate::follow::Follower;
use crate::names::Names;
use crate::number_of;
use crate::show::digits;
use crate::store::refusal_in_words;
use nekahuiro::any::Event;
use nekahuiro::{page_writes, Answer, Edition, Tear};
use nekahuiro_history::{End, History};
use std::collections::BTreeMap;
use std::fmt::Write;

/// Tells a run, a line or two for each event, from what is known before it.
pub fn tell(
    edition: Edition,
    start: &Follower,
    words: &[u8],
    names: &Names,
    answers: &[Answer],
    history: &History,
) -> String {
    let width = 2 * edition.event_bytes;
    let indent = " ".repeat(19 + width);
    let mut text = format!("event  {:width$}  answer  what happened\n", "word");
    let mut follower = start.clone();
    let mut locks = follower.locks_in_words();
    let endings = endings(history);
    if follower.up {
        let live: Vec<String> = follower.live.keys().map(u8::to_string).collect();
        let live = if live.is_empty() { "nothing".to_string() } else { live.join(", ") };
        let _ = writeln!(text, "{indent}before: the store is up, live: {live}; {locks}");
    }
    for (at, (word, answer)) in words.chunks_exact(edition.event_bytes).zip(answers).enumerate() {
        let what = what_happened(edition, word, *answer);
        let what = names.begun.get(&at).map_or(what.clone(), |name| format!("{what}, called {name}"));
        let _ = writeln!(
            text,
            "{:5}  {}  {}    {}: {what}",
            at + 1,
            digits(word),
            digits(&answer.bytes()),
            names.describe(edition, at, word)
        );
        if let Some(event) = edition.event(word) {
            follower.event(event, *answer);
        }
        for line in endings.get(&at).map(Ending::lines).unwrap_or_default() {
            let _ = writeln!(text, "{indent}{line}");
        }
        let after = follower.locks_in_words();
        if after != locks {
            let _ = writeln!(text, "{indent}{after}");
            locks = after;
        }
    }
    text
}

/// The answer in words that fit the event.
pub fn what_happened(edition: Edition, word: &[u8], answer: Answer) -> String {
    let event = edition.event(word);
    if let Some(why) = edition.why_bad(word).filter(|_| answer.number == 1) {
        return format!("refused 1: {why}");
    }
    if answer.is_cut() && matches!(event, Some(Event::Decide { .. })) {
        let stored = if answer.value > 0 { "is stored" } else { "isn't stored" };
        return format!("{answer}; the decision {stored}");
    }
    if let (true, Some(Event::Commit { count, .. } | Event::Recover { count })) = (answer.is_cut(), event) {
        return format!("{answer}{}", torn(count.tear));
    }
    if answer.is_cut() {
        return answer.to_string();
    }
    if answer.number != 0 {
        return refusal_in_words(edition, answer.number);
    }
    match event {
        Some(Event::Begin { .. }) => format!("transaction {} begins", answer.value),
        Some(Event::Read { .. }) => format!("the byte is {:02X}", answer.value),
        Some(Event::Commit { .. }) => format!("done, {}", page_writes(answer.value)),
        Some(Event::Recover { .. }) => format!("the store is up, {}", page_writes(answer.value)),
        Some(Event::Prepare { .. }) if answer.value == 0 => "committed, since it changed nothing".to_string(),
        Some(Event::Prepare { .. }) => format!("prepared, {}", page_writes(answer.value)),
        Some(Event::Decide { .. }) if answer.value == 0 => "nothing to do: it isn't prepared".to_string(),
        Some(Event::Decide { commit: true, .. }) => format!("committed, {}", page_writes(answer.value)),
        Some(Event::Decide { commit: false, .. }) => format!("aborted, {}", page_writes(answer.value)),
        Some(Event::Query { .. }) if answer.value == 1 => "it is prepared".to_string(),
        Some(Event::Query { .. }) => "it isn't prepared".to_string(),
        Some(Event::Abort { report: true, .. }) => "done, with a report".to_string(),
        Some(Event::Crash) => "the store is down".to_string(),
        _ => "done".to_string(),
    }
}

/// What a cut left torn.
fn torn(tear: Tear) -> &'static str {
    match tear {
        Tear::None => "",
        Tear::FirstBad => "; the next is torn, its first copy left bad",
        Tear::SecondBad => "; the last of them is torn, its second copy left bad",
        Tear::SecondOld => "; the last of them is torn, its second copy left old",
    }
}

/// Who ended at an event, other than by a whole commit of its own.
#[derive(Default)]
pub struct Ending {
    cut: Option<String>,
    crashed: Vec<String>,
    aborted: Vec<String>,
}

/// Where transactions ended, and which.
pub fn endings(history: &History) -> BTreeMap<usize, Ending> {
    let mut endings: BTreeMap<usize, Ending> = BTreeMap::new();
    for told in &history.transactions {
        let number = told.number.to_string();
        match told.end {
            End::Committed { at, cut: true, .. } => {
                let fate =
                    if told.survives { "survives: the commit page was" } else { "is lost: the commit page was not" };
                let line = format!("the store is down; transaction {number} {fate} written");
                endings.entry(at).or_default().cut = Some(line);
            }
            End::Prepared { at, cut: true, .. } => {
                let line = format!("the store is down; transaction {number} is lost: it isn't prepared");
                endings.entry(at).or_default().cut = Some(line);
            }
            End::Crashed(at) => endings.entry(at).or_default().crashed.push(number),
            End::Aborted(at) => endings.entry(at).or_default().aborted.push(number),
            End::Committed { .. } | End::Prepared { .. } | End::Never => {}
        }
    }
    endings
}

impl Ending {
    /// In words, a line each.
    pub fn lines(&self) -> Vec<String> {
        let crashed = (!self.crashed.is_empty()).then(|| format!("crashed and lost: {}", self.crashed.join(", ")));
        let aborted = (!self.aborted.is_empty()).then(|| format!("aborted: {}", self.aborted.join(", ")));
        self.cut.iter().cloned().chain(crashed).chain(aborted).collect()
    }
}

/// How many transactions there were, and what became of them.
pub fn fates(history: &History) -> String {
    let all = history.transactions.len();
    let survive = history.transactions.iter().filter(|told| told.survives).count();
    let open = (0..all).filter(|place| history.is_undecided(*place)).count();
    let verb = if survive == 1 { "survives" } else { "survive" };
    let open_in_words = if open == 0 { String::new() } else { format!(", {open} undecided") };
    format!("{}: {survive} {verb}, {} lost{open_in_words}", number_of(all, "transaction"), all - survive - open)
}
