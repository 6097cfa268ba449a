//! What `play` tells when all is done.

use super::{Options, Played};
use crate::failure::visible;
use crate::pair::without_state;
use crate::show::digits;
use crate::store::{is_lent, refusal_in_words};
use crate::{number_of, show, trace};
use nekahuiro::{Answer, Edition};
use nekahuiro_history::History;
use std::collections::BTreeMap;
use std::fmt::Write;

/// As many events of a refusal as are told.
const SHOWN: usize = 8;

/// The answers or the trace, and what came of it.
pub fn text(options: &Options, played: &Played) -> String {
    let Played { store, start, words, names, answers, history, .. } = played;
    let mut text = String::new();
    if options.trace {
        text.push_str(&trace::tell(store.edition, start, words, names, answers, history));
    } else if options.answers.is_none() && options.page.is_none() {
        for (word, answer) in words.chunks_exact(store.edition.event_bytes).zip(answers) {
            let _ = writeln!(text, "{} {}", digits(word), digits(&answer.bytes()));
        }
    }
    text.push_str(&counts(answers, history));
    if !options.trace {
        text.push_str(&refusals(store.edition, answers));
    }
    let open = (0..history.transactions.len()).any(|place| history.is_undecided(place));
    match options.state {
        Some(path) => {
            let _ = writeln!(text, "{}: {}", visible(path), played.left.follower(store.commit_page()).in_words());
        }
        None if open => {
            let _ = writeln!(text, "what is live at the end isn't kept{}", without_state(store.edition));
        }
        None => {}
    }
    let _ = writeln!(text, "{}", show::commit_page(store));
    text.push_str(&show::torn(store));
    if let Some(page) = options.page {
        let _ = writeln!(text, "{}: the run to look at, in a browser", visible(page));
    }
    if options.dry {
        let state = if is_lent(store.edition) { ", and so is the state file" } else { "" };
        let _ = writeln!(text, "a dry run: the store is left as it was{state}");
    }
    text
}

/// How many events were done, refused and cut, and what became of the transactions.
pub fn counts(answers: &[Answer], history: &History) -> String {
    let count = |wanted: fn(&Answer) -> bool| answers.iter().filter(|answer| wanted(answer)).count();
    let (accepted, cut) = (count(|answer| answer.is_accepted()), count(|answer| answer.is_cut()));
    let (events, refused) = (number_of(answers.len(), "event"), answers.len() - accepted);
    let done = accepted - cut;
    format!("{events}: {done} done, {refused} refused, {cut} cut by a crash; {}\n", trace::fates(history))
}

/// Each refusal in words, once, and where it was given.
pub fn refusals(edition: Edition, answers: &[Answer]) -> String {
    let mut places: BTreeMap<u8, Vec<usize>> = BTreeMap::new();
    for (at, answer) in (1..).zip(answers).filter(|(_, answer)| !answer.is_accepted()) {
        places.entry(answer.number).or_default().push(at);
    }
    let mut text = String::new();
    for (number, places) in places {
        let shown: Vec<String> = places.iter().take(SHOWN).map(usize::to_string).collect();
        let more = if places.len() > SHOWN { " and more" } else { "" };
        let events = if places.len() == 1 { "event" } else { "events" };
        let _ = writeln!(text, "{}: {events} {}{more}", refusal_in_words(edition, number), shown.join(", "));
    }
    text
}
