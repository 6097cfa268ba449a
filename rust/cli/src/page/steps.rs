//! What each event changes: the list is played once more, one event at a time, and after each of them store, state and
//! working buffer are looked at.

use super::json::{hex, list, object, text, Texts};
use crate::failure::{Failure, Outcome};
use crate::follow::{Bearers, Lock, Mode};
use crate::live::{Live, Versions};
use crate::show;
use crate::store::{library, Store};
use nekahuiro::{Answer, Edition};

/// All that is shown of a moment between two events.
#[derive(Clone, PartialEq)]
struct Moment {
    up: bool,
    store: Vec<u8>,
    /// Page 0 in words.
    page_0: String,
    /// Of each record who holds its lock, who retains it, and whether it waits for a decision.
    locks: Vec<[String; 3]>,
    /// By record and transaction.
    versions: Versions,
    /// Live transactions: number, parent and depth; parents before children.
    live: Vec<(u8, Option<u8>, usize)>,
}

impl Moment {
    /// Before anything is known.
    fn blank(edition: Edition) -> Moment {
        let (store, locks) = (vec![0; edition.store_bytes()], vec![<[String; 3]>::default(); edition.records]);
        let (versions, live) = (Versions::new(), Vec::new());
        Moment { up: false, store, page_0: String::new(), locks, versions, live }
    }

    /// What store, state and working buffer say.
    fn of(store: &Store, now: &Live) -> Moment {
        let follower = now.follower(store.commit_page());
        let waits = |record: usize| match &follower.prepared {
            Some((identity, records)) if records.contains(&(record as u8)) => {
                format!("until the decision on identity {identity}")
            }
            _ => String::new(),
        };
        let lock = |(record, lock): (usize, &Lock)| [who(&lock.holders), who(&lock.retainers), waits(record)];
        let mut live: Vec<_> = follower.live.iter().map(|(t, parent)| (*t, *parent, follower.depth(*t))).collect();
        live.sort_by_key(|(number, _, depth)| (*depth, *number));
        Moment {
            up: follower.up,
            store: store.bytes().to_vec(),
            page_0: show::commit_page(store),
            locks: follower.locks.iter().enumerate().map(lock).collect(),
            versions: now.versions(),
            live,
        }
    }

    /// What is otherwise after it.
    fn changes(&self, after: &Moment, texts: &mut Texts) -> String {
        let mut changes = Vec::new();
        let mut note = |name: &'static str, values: Vec<String>| {
            if !values.is_empty() {
                changes.push((name, list(values)));
            }
        };
        note("store", runs(&self.store, &after.store));
        let locks = (0..self.locks.len()).filter(|record| self.locks[*record] != after.locks[*record]);
        let [held, retained, waits] = [0, 1, 2].map(|part| move |record: usize| text(&after.locks[record][part]));
        note("locks", locks.map(|r| list([r.to_string(), held(r), retained(r), waits(r)])).collect());
        let gone = self.versions.keys().filter(|key| !after.versions.contains_key(key));
        let gone = gone.map(|(record, writer)| list([record.to_string(), writer.to_string(), text("")]));
        let made = after.versions.iter().filter(|(key, page)| self.versions.get(key) != Some(page));
        let made = made.map(|((record, writer), page)| list([record.to_string(), writer.to_string(), hex(page)]));
        note("versions", gone.chain(made).collect());
        if self.live != after.live {
            let none = -1;
            let live = after.live.iter().map(|(number, parent, depth)| {
                list([i32::from(*number), parent.map_or(none, i32::from), *depth as i32])
            });
            changes.push(("live", list(live)));
        }
        if self.up != after.up {
            changes.push(("up", u8::from(after.up).to_string()));
        }
        if self.page_0 != after.page_0 {
            changes.push(("page0", texts.place(after.page_0.clone()).to_string()));
        }
        object(&changes)
    }
}

/// Who holds or retains a lock: those that may write, then those that may only read.
fn who(bearers: &Bearers) -> String {
    let of = |wanted: Mode| {
        let who: Vec<String> =
            bearers.iter().filter(|(_, mode)| **mode == wanted).map(|(t, _)| t.to_string()).collect();
        who.join(", ")
    };
    match (of(Mode::Write), of(Mode::Read)) {
        (write, read) if read.is_empty() => write,
        (write, read) if write.is_empty() => format!("{read} to read"),
        (write, read) => format!("{write}; {read} to read"),
    }
}

/// Where bytes differ: each place with the new bytes from there on.
fn runs(before: &[u8], after: &[u8]) -> Vec<String> {
    let mut runs = Vec::new();
    let mut at = 0;
    while at < after.len() {
        let length = (at..after.len()).take_while(|place| before[*place] != after[*place]).count();
        if length > 0 {
            runs.push(list([at.to_string(), hex(&after[at..at + length])]));
        }
        at += length.max(1);
    }
    runs
}

/// What is there before the first event, and what each event changes, in JSON. Store and answers in the end must be
/// those of the play.
pub fn of(
    (store, live): (&Store, &Live),
    words: &[u8],
    due: (&Store, &[Answer]),
    texts: &mut Texts,
) -> Outcome<(String, Vec<String>)> {
    let (mut store, mut live) = (store.clone(), live.clone());
    let edition = store.edition;
    let mut moment = Moment::of(&store, &live);
    let start = Moment::blank(edition).changes(&moment, texts);
    let (mut steps, mut answers) = (Vec::new(), Vec::new());
    for word in words.chunks_exact(edition.event_bytes) {
        let answered = live.portion(&mut store, word);
        answers.extend(answered.map_err(|refused| wrong(edition, &refused.to_string()))?);
        let after = Moment::of(&store, &live);
        steps.push(moment.changes(&after, texts));
        moment = after;
    }
    match (&store, &answers[..]) == due {
        true => Ok((start, steps)),
        false => Err(wrong(edition, "store or answers aren't those of the whole list")),
    }
}

fn wrong(edition: Edition, what: &str) -> Failure {
    let reason = format!("played one event at a time, the list comes out otherwise: {what}");
    let again = format!("make it again with `tools/archives {}`", library(edition));
    Failure::new(&reason, &format!("the linked library isn't the proved one; {again}"))
}
