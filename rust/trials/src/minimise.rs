//! Makes a failing case as small as it gets.

use crate::{Case, Program};
use nekahuiro::limits::{ANSWER_BYTES, COUNT_LIMIT, EVENT_BYTES, PAGES, PAGE_BYTES};
use nekahuiro::{Fields, Transaction};
use nekahuiro_history::{tell, History};
use nekahuiro_lists::stores;

const NO_PARENT: u8 = Transaction::NONE.number();

/// The smallest case found by leaving out events, quieting the store and plainer fields, for which
/// `fails` is still true.
pub fn minimise(mut case: Case, fails: impl Fn(&Case) -> bool) -> Case {
    loop {
        let before = (case.events.clone(), case.store);
        case = fewer_events(case, &fails);
        case = fewer_transactions(case, &fails);
        case = plainer_fields(case, &fails);
        case = quieter_store(case, &fails);
        if (case.events.clone(), case.store) == before {
            return case;
        }
    }
}

fn fewer_events(case: Case, fails: &impl Fn(&Case) -> bool) -> Case {
    let Case { store, events } = case;
    let events = fewer(events, EVENT_BYTES, &|events| fails(&Case { store, events: events.to_vec() }));
    Case { store, events }
}

/// Event words of so many bytes, without those that the failure doesn't need.
pub(crate) fn fewer(mut events: Vec<u8>, word: usize, fails: &impl Fn(&[u8]) -> bool) -> Vec<u8> {
    let mut chunk = (events.len() / word).next_power_of_two();
    while chunk > 0 {
        let mut at = 0;
        while at < events.len() / word {
            let end = (at + chunk).min(events.len() / word);
            let mut shorter = events.clone();
            shorter.drain(at * word..end * word);
            if fails(&shorter) {
                events = shorter;
            } else {
                at += chunk;
            }
        }
        chunk /= 2;
    }
    events
}

/// Leaves out whole transactions; the rest keep their parents but may get other numbers.
fn fewer_transactions(mut case: Case, fails: &impl Fn(&Case) -> bool) -> Case {
    let mut place = 0;
    while let Some(history) = history_of(&case).filter(|history| place < history.transactions.len()) {
        let without = renumbered(&case, &history, place);
        if without.events.len() < case.events.len() && fails(&without) {
            case = without;
        } else {
            place += 1;
        }
    }
    case
}

fn history_of(case: &Case) -> Option<History> {
    let played = Program::Player.play(case, 0);
    tell(&case.events, &played.answers).ok()
}

/// The list without one transaction's own events; its children move up to its parent.
fn renumbered(case: &Case, history: &History, gone: usize) -> Case {
    let mut new = Case { store: case.store, events: Vec::new() };
    let mut numbers = vec![NO_PARENT; history.transactions.len()];
    for (at, (word, owner)) in case.events.chunks_exact(EVENT_BYTES).zip(&history.owner).enumerate() {
        let mut fields = Fields::of([word[0], word[1], word[2], word[3]]);
        let begins = owner.filter(|owner| history.transactions[*owner].begun == Some(at));
        match (begins, owner) {
            (_, Some(owner)) if *owner == gone => continue,
            (Some(owner), _) => {
                let parent = history.transactions[owner].parent;
                let parent = if parent == Some(gone) { history.transactions[gone].parent } else { parent };
                fields.transaction = parent.map_or(NO_PARENT, |parent| numbers[parent]);
            }
            (None, Some(owner)) => fields.transaction = numbers[*owner],
            (None, None) => {}
        }
        new.events.extend(fields.word());
        if let Some(owner) = begins {
            let answers = Program::Player.play(&new, 0).answers;
            numbers[owner] = answers[(new.length() - 1) * ANSWER_BYTES + 1];
        }
    }
    new
}

fn plainer_fields(mut case: Case, fails: &impl Fn(&Case) -> bool) -> Case {
    for at in 0..case.length() {
        let place = at * EVENT_BYTES..(at + 1) * EVENT_BYTES;
        let plainer: [fn(Fields) -> Fields; 5] = [
            |f| Fields { value: 0, ..f },
            |f| Fields { value: 1, ..f },
            |f| Fields { offset: 0, ..f },
            |f| Fields { record: 0, ..f },
            |f| Fields { count: COUNT_LIMIT, ..f },
        ];
        for make in plainer {
            let word = &case.events[place.clone()];
            let old = Fields::of([word[0], word[1], word[2], word[3]]);
            let new = make(old);
            if weight(new) < weight(old) {
                let mut tried = case.clone();
                tried.events[place.clone()].copy_from_slice(&new.word());
                if fails(&tried) {
                    case = tried;
                }
            }
        }
    }
    case
}

/// Smaller is plainer; a count is plainest where nothing is cut.
fn weight(f: Fields) -> u32 {
    let count = if matches!(f.kind, 5 | 8..=10) { COUNT_LIMIT - f.count } else { f.count };
    u32::from(f.value) + u32::from(f.offset) + u32::from(f.record) + u32::from(count)
}

fn quieter_store(mut case: Case, fails: &impl Fn(&Case) -> bool) -> Case {
    let fresh = Case { store: stores::fresh(), ..case.clone() };
    if fails(&fresh) {
        return fresh;
    }
    for page in 0..PAGES {
        let mut tried = case.clone();
        let place = page * PAGE_BYTES..(page + 1) * PAGE_BYTES;
        tried.store[place.clone()].copy_from_slice(&stores::fresh()[place]);
        if fails(&tried) {
            case = tried;
        }
    }
    case
}
