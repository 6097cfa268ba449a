//! The struct of a lent state and the facts it tells: an independent judge of what may be lent.

use nekahuiro::limits::{PAGE_BYTES, RECORDS, TRANSACTIONS};
use nekahuiro::{Record, State, Transaction, Work};
use nekahuiro_lists::stores::Bytes;
use nekahuiro_player::event::{Mode, Record as PlayersRecord, Transaction as PlayersTransaction};
use nekahuiro_player::soundness::{Begun, Facts, Fault};
use nekahuiro_player::store::CommitPage;
use nekahuiro_player::{Form, Plain};

/// Why a struct may not be lent.
#[derive(Clone, Copy, Debug, PartialEq, Eq, PartialOrd, Ord)]
pub enum Unsound {
    /// The facts it tells aren't sound.
    Facts(Fault),
    /// It isn't the struct of the facts it tells: a wrong line, write mode without any mode, a dead entry
    /// or a spare byte that isn't 0, an `up` above 1.
    Struct,
    /// While up a page isn't a pair of good copies that are alike.
    Uneven,
}

/// The facts that a struct tells with a working buffer, be they sound or not.
pub fn facts(state: &State, work: &Work) -> Facts {
    let mut facts = Facts { up: state.up != 0, ..Facts::default() };
    for t in (0..TRANSACTIONS).filter(|t| state.depth[*t] != 0) {
        let parent = state.parent[t];
        let parent = (parent != Transaction::NONE.number()).then_some(PlayersTransaction(parent));
        facts.live.insert(PlayersTransaction(t as u8), Begun { parent, depth: state.depth[t] });
    }
    for record in Record::all() {
        let (r, named) = (usize::from(record.number()), PlayersRecord(record.number()));
        facts.holders.extend(bearers(&state.held, r).map(|(t, mode)| ((named, t), mode)));
        facts.retainers.extend(bearers(&state.retained, r).map(|(t, mode)| ((named, t), mode)));
        for writer in members(state.writers[r]) {
            let depth = state.depth.get(usize::from(writer.0)).copied().unwrap_or(0);
            facts.versions.insert((writer, named), work.version(record, depth));
        }
    }
    facts
}

/// The numbers in a set, also those that no transaction can bear.
fn members(set: u32) -> impl Iterator<Item = PlayersTransaction> {
    (0..32).filter(move |t| set & 1 << t != 0).map(PlayersTransaction)
}

/// Who has to do with a record's lock, by the two sets of the record: in any mode and in write mode.
fn bearers(sets: &[u32; 2 * RECORDS], r: usize) -> impl Iterator<Item = (PlayersTransaction, Mode)> {
    let (any, write) = (sets[2 * r], sets[2 * r + 1]);
    let mode = move |t: &PlayersTransaction| if write & 1 << t.0 != 0 { Mode::Write } else { Mode::Read };
    members(any | write).map(move |t| (t, mode(&t)))
}

/// Notes one who has to do with a record's lock.
fn bear(sets: &mut [u32; 2 * RECORDS], record: PlayersRecord, t: PlayersTransaction, mode: Mode) {
    let at = 2 * usize::from(record.0);
    sets[at] |= bit(t);
    if mode == Mode::Write {
        sets[at + 1] |= bit(t);
    }
}

/// The struct of facts, as far as there is one.
pub fn encode(facts: &Facts) -> State {
    let mut state = State { up: u8::from(facts.up), ..State::new() };
    for (t, Begun { parent, depth }) in &facts.live {
        let Some(at) = Some(usize::from(t.0)).filter(|at| *at < TRANSACTIONS) else { continue };
        state.depth[at] = *depth;
        state.parent[at] = parent.map_or(Transaction::NONE.number(), |parent| parent.0);
        // A line has an end in sound facts; others may have rings.
        let line = std::iter::successors(Some(*t), |t| facts.live.get(t)?.parent).take(TRANSACTIONS);
        state.line[at] = line.fold(0, |set, t| set | bit(t));
    }
    for ((record, t), mode) in &facts.holders {
        bear(&mut state.held, *record, *t, *mode);
    }
    for ((record, t), mode) in &facts.retainers {
        bear(&mut state.retained, *record, *t, *mode);
    }
    for (t, record) in facts.versions.keys() {
        state.writers[usize::from(record.0)] |= bit(*t);
    }
    state
}

fn bit(transaction: PlayersTransaction) -> u32 {
    1u32.checked_shl(transaction.0.into()).unwrap_or(0)
}

/// The facts of a struct that may be lent with this store, or why it may not.
pub fn judge(state: &State, work: &Work, store: &Bytes) -> Result<Facts, Unsound> {
    judge_in::<Plain>(state, work, store)
}

/// The same with the store of a form.
pub fn judge_in<F: Form>(state: &State, work: &Work, store: &[u8]) -> Result<Facts, Unsound> {
    let facts = facts(state, work);
    let page = F::commit_page(store).unwrap_or(CommitPage::Damaged);
    match facts.fault(&page) {
        Some(fault) => Err(Unsound::Facts(fault)),
        None if encode(&facts) != *state => Err(Unsound::Struct),
        None if facts.up && !F::is_even(store) => Err(Unsound::Uneven),
        None => Ok(facts),
    }
}

/// Which bytes of the working buffer hold versions.
pub fn taken(state: &State) -> Vec<bool> {
    let mut taken = vec![false; nekahuiro::limits::WORK_BYTES];
    for (record, t) in (0..RECORDS).flat_map(|r| (0..TRANSACTIONS).map(move |t| (r, t))) {
        let place = Record::new(record as u8).and_then(|record| Work::place(record, state.depth[t]));
        if let Some(at) = place.filter(|_| state.writers[record] >> t & 1 == 1) {
            taken[at..at + PAGE_BYTES].fill(true);
        }
    }
    taken
}
