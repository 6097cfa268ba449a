//! Demand 3, checked on runs that were played, and the serial list of a run.
//!
//! All that is known here of a run is its start store, its list, its answers and its end store.
//! Nothing is known of locks, versions or page writes.
//!
//! * First half: the settled records at the end are those at the start with the surviving writes
//!   laid over them in list order ([`first_half`]). A transaction that is prepared in the start store
//!   counts as having written its pages first, once the decision to commit it is stored.
//! * Second half: a second run from the same store, whose list differs only in the values of
//!   accepted writes of lost transactions ([`second_list`]), gives the same answers but for the
//!   values of lost transactions' reads, and the same settled records ([`second_half`]).
//!
//! And that the run is as if one transaction came at a time ([`serial()`]).
//!
//! All this is said of the plain form, edition 1 on atomic pages; a [`Form`] says it of others. Where pages are pairs of
//! copies, records are read through the pairs, on the [premise](Form::premise) of at most one bad copy in each.

mod form;
mod serial;
mod settled;
mod telling;
mod word;

pub use form::Form;
pub use serial::{serial, serial_of, Placed, Serial, Turn, Unlike};
pub use settled::{prepared, settled, Page, Prepared, Records};
pub use telling::{tell, tell_from, Absurd, Decision, Earlier, End, History, Transaction, Write};
use word::Kind;

/// What demand 3 forbids.
#[derive(Clone, Debug, PartialEq, Eq)]
pub enum Breach {
    /// The answers tell no history at all.
    Absurd(Absurd),
    /// First half: a settled record isn't the start's with the surviving writes over it.
    Settled {
        /// The record.
        record: usize,
        /// The first byte that is wrong.
        offset: usize,
        /// What it should be.
        due: u8,
        /// What it is.
        found: u8,
    },
    /// Second half: an event is answered otherwise in the second run.
    Answer {
        /// The event's place in the list.
        at: usize,
        /// The answer in the first run.
        first: [u8; 2],
        /// The answer in the second.
        second: [u8; 2],
    },
    /// Second half: a settled record differs after the second run.
    SecondSettled {
        /// The record.
        record: usize,
    },
}

impl From<Absurd> for Breach {
    fn from(absurd: Absurd) -> Breach {
        Breach::Absurd(absurd)
    }
}

/// A run that was played: as many bytes an event as the form's words have, two bytes an answer.
#[derive(Clone, Copy)]
pub struct Run<'r> {
    /// The store before.
    pub before: &'r [u8],
    /// The list.
    pub events: &'r [u8],
    /// The answers.
    pub answers: &'r [u8],
    /// The store after.
    pub after: &'r [u8],
}

/// Checks the first half of a run of the plain form and hands out the history.
pub fn first_half(run: Run) -> Result<History, Breach> {
    Form::PLAIN.first_half(run)
}

impl Form {
    /// Checks the first half and hands out the history.
    pub fn first_half(self, run: Run) -> Result<History, Breach> {
        let history = self.tell(run.events, run.answers)?;
        let mut due = self.settled(run.before);
        if let Some(decision) = history.decided_before {
            let absurd = Absurd { at: decision.at, what: "decides, but nothing is prepared with its identity" };
            let start = prepared(run.before).filter(|start| start.identity == decision.identity);
            let start = start.ok_or(Breach::Absurd(absurd))?;
            if decision.commit {
                start.pages.into_iter().for_each(|(record, page)| due[record] = page);
            }
        }
        for write in history.surviving_writes() {
            due[usize::from(write.record)][usize::from(write.offset)] = write.value;
        }
        let found = self.settled(run.after);
        for (record, (due, found)) in due.iter().zip(&found).enumerate() {
            if let Some(offset) = (0..due.len()).find(|offset| due[*offset] != found[*offset]) {
                return Err(Breach::Settled { record, offset, due: due[offset], found: found[offset] });
            }
        }
        Ok(history)
    }
}

/// The list of a second run: the values of lost transactions' accepted writes go through `change`.
/// None if there is no such write.
pub fn second_list(history: &History, events: &[u8], mut change: impl FnMut(u8) -> u8) -> Option<Vec<u8>> {
    let lost = |write: &&Write| !history.transactions[write.transaction].survives;
    let (form, mut list) = (history.form, None);
    for write in history.writes.iter().filter(lost) {
        let list: &mut Vec<u8> = list.get_or_insert_with(|| events.to_vec());
        form.put_value(&mut list[form.word_bytes * write.at..][..form.word_bytes], change(write.value));
    }
    list
}

/// Checks the second half: `second` has the same start store and a list by [`second_list`].
pub fn second_half(history: &History, first: Run, second: Run) -> Result<(), Breach> {
    let form = history.form;
    let answers = first.answers.chunks_exact(2).zip(second.answers.chunks_exact(2));
    for (at, ((one, two), word)) in answers.zip(first.events.chunks_exact(form.word_bytes)).enumerate() {
        let (one, two) = ([one[0], one[1]], [two[0], two[1]]);
        let lost = history.owner[at].is_some_and(|owner| !history.transactions[owner].survives);
        let accepted = one[0] == 0 || one[0] == 11;
        let free_value = lost && accepted && form.word(word).kind == Kind::Read;
        if one[0] != two[0] || (one[1] != two[1] && !free_value) {
            return Err(Breach::Answer { at, first: one, second: two });
        }
    }
    let (one, two) = (form.settled(first.after), form.settled(second.after));
    match (0..one.len()).find(|record| one[*record] != two[*record]) {
        Some(record) => Err(Breach::SecondSettled { record }),
        None => Ok(()),
    }
}
