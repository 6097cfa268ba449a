//! Names of transactions in lists: `begin none as refresh`, then `lock refresh 3`. A name stands for the transaction that
//! the last begin with it began, and for nobody once that has ended: so a number that is given again is never meant by
//! an old name. Which number it is, the answers tell.

use crate::live::Live;
use crate::store::{Refused, Store};
use nekahuiro::any::Event;
use nekahuiro::{Answer, BadWords, Edition, Fields};
use std::collections::{BTreeMap, BTreeSet};

/// The number of a name that stands for nobody: an event with it is refused with 5.
const NOBODY: u8 = 30;
/// The longest name.
const LONGEST: usize = 24;
/// Words that are no names.
const TAKEN: [&str; 3] = ["none", "as", "report"];

/// The names in one event.
#[derive(Clone, Default)]
pub struct Named {
    /// Whom the event names.
    pub whom: Option<String>,
    /// How the transaction is called that it begins.
    pub as_what: Option<String>,
}

impl Named {
    /// Whether there is a name at all.
    pub fn is_some(&self) -> bool {
        self.whom.is_some() || self.as_what.is_some()
    }
}

/// The names in a list that was played, by event: of whom it begins, and of whom it names.
#[derive(Default)]
pub struct Names {
    /// The names of transactions, by the events that began them.
    pub begun: BTreeMap<usize, String>,
    /// The names in events, as they were written.
    pub whom: BTreeMap<usize, String>,
}

impl Names {
    /// The names of a list with these answers.
    pub fn of(named: BTreeMap<usize, Named>, answers: &[Answer]) -> Names {
        let mut names = Names::default();
        for (at, Named { whom, as_what }) in named {
            names.whom.extend(whom.map(|name| (at, name)));
            names.begun.extend(as_what.filter(|_| answers[at].is_accepted()).map(|name| (at, name)));
        }
        names
    }

    /// An event in words, with the name that was written for the number.
    pub fn describe(&self, edition: Edition, at: usize, word: &[u8]) -> String {
        match self.whom.get(&at) {
            Some(name) => format!("{} ({name})", edition.describe(word)),
            None => edition.describe(word),
        }
    }
}

/// Names that stand in the lines so far.
pub struct Known {
    /// The edition of the events.
    pub edition: Edition,
    names: BTreeSet<String>,
}

impl Known {
    /// No names yet.
    pub fn of(edition: Edition) -> Known {
        Known { edition, names: BTreeSet::new() }
    }

    /// An event in words as a word, with its names; a name that is not known yet is an error.
    pub fn event(&mut self, line: &str) -> Result<(Vec<u8>, Named), BadWords> {
        let mut words: Vec<&str> = line.split_whitespace().collect();
        let mut named = Named::default();
        let kind = words.first().map(|kind| kind.to_ascii_lowercase()).unwrap_or_default();
        if let ("begin", [.., word, name]) = (&kind[..], &words[..]) {
            if word.eq_ignore_ascii_case("as") {
                named.as_what = Some(checked(name)?);
                words.truncate(words.len() - 2);
            }
        }
        let is_name = |word: &str| word.starts_with(|first: char| first.is_alphabetic());
        let names_somebody = !matches!(&kind[..], "decide" | "query" | "recover" | "crash");
        let whom = words.get(1).filter(|word| names_somebody && is_name(word) && !word.eq_ignore_ascii_case("none"));
        let nobody = NOBODY.to_string();
        if let Some(name) = whom.copied() {
            named.whom = Some(self.known(name)?);
            words[1] = &nobody;
        }
        let event: Event = self.edition.parse(&words.join(" "))?;
        self.names.extend(named.as_what.clone());
        Ok((self.edition.word(event.fields()), named))
    }

    fn known(&self, name: &str) -> Result<String, BadWords> {
        match self.names.contains(name) {
            true => Ok(name.to_string()),
            false => Err(BadWords {
                reason: format!("no transaction is called `{name}` before this line"),
                mend: format!("give its number, or name it where it begins: `begin none as {name}`"),
            }),
        }
    }
}

/// A word that can be a name.
fn checked(word: &str) -> Result<String, BadWords> {
    let plain = |c: char| c.is_ascii_alphanumeric() || c == '-' || c == '_';
    let first = word.starts_with(|first: char| first.is_ascii_alphabetic());
    let taken = TAKEN.iter().any(|taken| taken.eq_ignore_ascii_case(word));
    match first && !taken && word.chars().all(plain) && word.len() <= LONGEST {
        true => Ok(word.to_string()),
        false => Err(BadWords {
            reason: format!("`{word}` can't be a name"),
            mend: format!("begin it with a letter, with letters, digits, - or _ after it, at most {LONGEST} in all"),
        }),
    }
}

/// Whom each name stands for, as the answers come.
#[derive(Default)]
pub struct Bound {
    numbers: BTreeMap<String, u8>,
}

impl Bound {
    /// The word of an event, with the number of whom it names.
    pub fn resolve(&self, edition: Edition, word: &[u8], named: &Named) -> Vec<u8> {
        let (Some(name), Some(fields)) = (&named.whom, edition.fields(word)) else { return word.to_vec() };
        let transaction = self.numbers.get(name).copied().unwrap_or(NOBODY);
        edition.word(Fields { transaction, ..fields })
    }

    /// Takes note of an event's answer, and of who is live after it.
    pub fn answered(&mut self, named: &Named, answer: Answer, live: &Live) {
        self.numbers.retain(|_, number| live.has(*number));
        if let Some(name) = &named.as_what {
            match answer.is_accepted() {
                true => self.numbers.insert(name.clone(), answer.value),
                false => self.numbers.remove(name),
            };
        }
    }
}

/// Plays one event after the other, and puts into the words the numbers that the answers give to names.
pub fn play(
    store: &mut Store,
    live: &mut Live,
    words: &mut [u8],
    names: &BTreeMap<usize, Named>,
) -> Result<Vec<Answer>, Refused> {
    let (mut bound, nobody, mut answers) = (Bound::default(), Named::default(), Vec::new());
    for (at, word) in words.chunks_exact_mut(store.edition.event_bytes).enumerate() {
        let named = names.get(&at).unwrap_or(&nobody);
        word.copy_from_slice(&bound.resolve(store.edition, word, named));
        for answer in live.portion(store, word)? {
            bound.answered(named, answer, live);
            answers.push(answer);
        }
    }
    Ok(answers)
}

#[cfg(test)]
mod tests {
    use super::*;
    use nekahuiro_history::{End, Form, Transaction};
    use nekahuiro_lists::Rng;

    /// A line with names that are known, drawn by chance.
    fn line(rng: &mut Rng, known: &[&str]) -> String {
        let names = ["a", "b", "c", "d"];
        let mut name = || *rng.pick(if known.is_empty() { &["0"] } else { known }).unwrap_or(&"0");
        let (one, other) = (name(), name());
        let new = *rng.pick(&names).unwrap_or(&"a");
        match rng.below(16) {
            0 | 1 => format!("begin none as {new}"),
            2 | 3 => format!("begin {one} as {new}"),
            4 => "begin none".to_string(),
            5..=7 => format!("lock {one} {}", rng.below(3)),
            8 | 9 => format!("write {one} {} 0 11", rng.below(3)),
            10 | 11 => format!("commit {one}"),
            12 => format!("commit {other} {}", rng.below(4)),
            13 => format!("abort {one}"),
            14 if rng.below(4) == 0 => "crash".to_string(),
            _ => "recover".to_string(),
        }
    }

    /// Told from the events and answers alone: an event belongs to the transaction that the last begin with its
    /// name began, and to nobody if that has ended or was refused.
    #[test]
    fn a_name_is_the_last_that_began_with_it_and_lives() {
        for (edition, form, lists) in [
            (Edition::FIRST, Form::PLAIN, 2_000),
            (Edition::SECOND, Form::EDITION_2, 500),
            (Edition::PAIRS, Form::PAIRS, 500),
        ] {
            let (mut rng, mut owned, mut nobody) = (Rng::new(12), 0, 0);
            for _ in 0..lists {
                let (mut known, mut words, mut names) = (Known::of(edition), Vec::new(), BTreeMap::new());
                for at in 0..40 {
                    let so_far: Vec<String> = known.names.iter().cloned().collect();
                    let so_far: Vec<&str> = so_far.iter().map(String::as_str).collect();
                    let line = if at == 0 { "recover".to_string() } else { line(&mut rng, &so_far) };
                    let (word, named) = known.event(&line).unwrap_or_else(|bad| panic!("{line}: {bad}"));
                    words.extend(word);
                    names.insert(at, named);
                }
                let mut store = Store::fresh(edition);
                let mut live = Live::start(&store);
                let answers = play(&mut store, &mut live, &mut words, &names).unwrap_or_else(|no| panic!("{no}"));
                let bytes: Vec<u8> = answers.iter().flat_map(|answer| answer.bytes()).collect();
                let history = form.tell(&words, &bytes).unwrap();
                for (at, named) in names.iter().filter(|(_, named)| named.whom.is_some()) {
                    let giver = names.range(..at).rev().find(|(_, other)| other.as_what == named.whom);
                    let giver = giver.map(|(at, _)| *at);
                    let begun = |told: &Transaction| told.begun.is_some() && told.begun == giver;
                    let meant = history.transactions.iter().position(begun).filter(|place| {
                        match history.transactions[*place].end {
                            End::Never => true,
                            End::Committed { at: end, .. } | End::Prepared { at: end, .. } => end >= *at,
                            End::Aborted(end) | End::Crashed(end) => end >= *at,
                        }
                    });
                    let begins = words[edition.event_bytes * at] >> 4 == 1 && answers[*at].is_accepted();
                    let found = match begins {
                        true => history.owner[*at].and_then(|owner| history.transactions[owner].parent),
                        false => history.owner[*at],
                    };
                    assert_eq!(found, meant, "event {at}");
                    *(if meant.is_some() { &mut owned } else { &mut nobody }) += 1;
                }
            }
            assert!(owned > 5 * lists && nobody > lists / 2, "{owned} events of somebody, {nobody} of nobody");
        }
    }
}
