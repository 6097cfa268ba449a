//! As if one transaction at a time: the serial list of a run, found in its events and answers alone.
//!
//! It has one whole recover, and then the accepted events of surviving transactions, top transaction
//! by top transaction in the order in which their commit records were written; who changed nothing
//! stands at its commit. Played over the same store, each commit whole, they leave the same settled
//! records, and each surviving read gives the same byte.

use crate::word::{Kind, Word};
use crate::{End, Form, History, Run};
use std::collections::BTreeMap;

/// The serial list of a run, in words of so many bytes.
#[derive(Clone, Debug)]
pub struct Serial<const WORD: usize = 4> {
    /// The top transactions that are played, one after the other.
    pub turns: Vec<Turn<WORD>>,
    form: Form,
}

/// A top transaction's turn.
#[derive(Clone, Debug)]
pub struct Turn<const WORD: usize = 4> {
    /// The top transaction's place among the transactions; none for one that was prepared in the start
    /// store, of which the decision alone is played.
    pub transaction: Option<usize>,
    /// Its last event's place in the list: this one stored its commit record or the decision on it.
    pub stored: usize,
    /// The events of the top transaction and of its surviving descendants, in list order.
    pub events: Vec<Placed<WORD>>,
}

/// An event of the serial list.
#[derive(Clone, Copy, Debug, PartialEq, Eq)]
pub struct Placed<const WORD: usize = 4> {
    /// Where it stood in the list.
    pub at: usize,
    /// How it is played: with the numbers that begins give now, and no page write cut.
    pub word: [u8; WORD],
    /// The value that it has to be answered, if that is known: a begin's number, the byte of a read.
    pub value: Option<u8>,
}

/// How a serial list, played, isn't as it should be.
#[derive(Clone, Debug, PartialEq, Eq)]
pub enum Unlike {
    /// The recover at its start isn't done.
    Recover([u8; 2]),
    /// An event isn't done.
    Refused {
        /// Where it stood in the list.
        at: usize,
        /// Its answer now.
        answer: [u8; 2],
    },
    /// A begin gives another number than is free, or a read another byte than in the run.
    Value {
        /// Where it stood in the list.
        at: usize,
        /// What it should be.
        due: u8,
        /// What it is.
        found: u8,
    },
    /// A settled record is another.
    Settled {
        /// The record.
        record: usize,
    },
    /// It has more events than the list.
    Longer,
}

/// Finds the serial list of a run of a form with words of four bytes, whose history this is.
pub fn serial(history: &History, events: &[u8], answers: &[u8]) -> Serial {
    serial_of(history, events, answers)
}

/// Finds the serial list of a run, whose history this is. The form's words have so many bytes.
pub fn serial_of<const WORD: usize>(history: &History, events: &[u8], answers: &[u8]) -> Serial<WORD> {
    let form = history.form;
    let mut turns = turns(history);
    let by_top: BTreeMap<_, _> = turns.iter().enumerate().map(|(turn, of)| (of.transaction, turn)).collect();
    let by_last: BTreeMap<_, _> = turns.iter().enumerate().map(|(turn, of)| (of.stored, turn)).collect();
    let mut numbers = vec![Numbers::default(); turns.len()];
    for (at, (bytes, answer)) in events.chunks_exact(WORD).zip(answers.chunks_exact(2)).enumerate() {
        let word = form.word(bytes);
        let accepted = answer[0] == 0 || answer[0] == 11;
        let owner = history.owner[at].filter(|owner| accepted && history.transactions[*owner].survives);
        let turn = match owner {
            Some(owner) => by_top.get(&history.line(owner).last()),
            None => by_last.get(&at).filter(|_| word.kind == Kind::Decide),
        };
        if let Some(turn) = turn {
            let (number, value) = owner.map_or((None, None), |owner| numbers[*turn].event(history, &word, owner));
            let value = if word.kind == Kind::Read { Some(answer[1]) } else { value };
            turns[*turn].events.push(Placed { at, word: form.again(bytes, number), value });
        }
    }
    Serial { turns, form }
}

/// The turns, still without their events.
fn turns<const WORD: usize>(history: &History) -> Vec<Turn<WORD>> {
    let tops = history.transactions.iter().enumerate();
    let survivors = tops.filter(|(_, told)| told.survives && told.parent.is_none());
    let last = survivors.filter_map(|(top, _)| stored(history, top).map(|stored| (Some(top), stored)));
    let last = last.chain(history.decided_before.map(|decision| (None, decision.at)));
    let mut turns: Vec<Turn<WORD>> =
        last.map(|(transaction, stored)| Turn { transaction, stored, events: Vec::new() }).collect();
    turns.sort_by_key(|turn| turn.stored);
    turns
}

/// Where the commit record of a surviving top transaction was written: at its commit, or at the decision
/// on it; where it changed nothing, at its commit or prepare.
fn stored(history: &History, top: usize) -> Option<usize> {
    match history.transactions[top].end {
        End::Committed { at, .. } => Some(at),
        End::Prepared { at, changed: 0, .. } => Some(at),
        End::Prepared { decision, .. } => decision.map(|decision| decision.at),
        End::Never | End::Aborted(_) | End::Crashed(_) => None,
    }
}

/// The numbers of a turn's live transactions. Nothing else is live then, so that its begins get the lowest
/// that none of them bears.
#[derive(Clone, Default)]
struct Numbers(BTreeMap<usize, u8>);

impl Numbers {
    /// The number that an event names now, and what a begin has to be answered.
    fn event(&mut self, history: &History, word: &Word, owner: usize) -> (Option<u8>, Option<u8>) {
        if word.kind == Kind::Begin {
            let parent = history.transactions[owner].parent.and_then(|parent| self.0.get(&parent).copied());
            let free = (0u8..).find(|number| !self.0.values().any(|taken| taken == number));
            self.0.extend(free.map(|free| (owner, free)));
            return (parent, free);
        }
        let ends = matches!(word.kind, Kind::Commit | Kind::Prepare);
        let number = if ends { self.0.remove(&owner) } else { self.0.get(&owner).copied() };
        (number, None)
    }
}

impl<const WORD: usize> Serial<WORD> {
    /// The event words to play.
    pub fn words(&self) -> Vec<u8> {
        let events = self.events().map(|placed| placed.word);
        std::iter::once(self.form.recover()).chain(events).flatten().collect()
    }

    /// All events but the recover.
    pub fn events(&self) -> impl Iterator<Item = &Placed<WORD>> {
        self.turns.iter().flat_map(|turn| &turn.events)
    }

    /// Checks that this list, played over the store that the run began with, is as if the run's own had
    /// been. Over a damaged page 0 the recover is refused, and there is nothing to play.
    pub fn check(&self, run: Run, again: Run) -> Result<(), Unlike> {
        let mut answers = again.answers.chunks_exact(2).map(|answer| [answer[0], answer[1]]);
        match answers.next() {
            Some([0, _]) => {}
            Some([4, 0]) if self.turns.is_empty() => {}
            other => return Err(Unlike::Recover(other.unwrap_or_default())),
        }
        for (placed, answer) in self.events().zip(answers) {
            if answer[0] != 0 {
                return Err(Unlike::Refused { at: placed.at, answer });
            }
            match placed.value {
                Some(due) if due != answer[1] => {
                    return Err(Unlike::Value { at: placed.at, due, found: answer[1] });
                }
                _ => {}
            }
        }
        let (due, found) = (self.form.settled(run.after), self.form.settled(again.after));
        if let Some(record) = (0..due.len()).find(|record| due[*record] != found[*record]) {
            return Err(Unlike::Settled { record });
        }
        match again.events.len() <= run.events.len().max(WORD) {
            true => Ok(()),
            false => Err(Unlike::Longer),
        }
    }
}
