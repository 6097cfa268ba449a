//! Who is live, who holds and who retains, told from the events and the engine's answers.

use nekahuiro::any::{CommitPage, Event, Record};
use nekahuiro::limits::TRANSACTIONS;
use nekahuiro::{Answer, Edition, Identity, State, Transaction};
use nekahuiro_history::Earlier;
use std::collections::{BTreeMap, BTreeSet};

/// What is known after some events.
#[derive(Clone, PartialEq, Eq)]
pub struct Follower {
    /// Whether the store is up.
    pub up: bool,
    /// Live transactions with their parents.
    pub live: BTreeMap<u8, Option<u8>>,
    /// The lock of each record.
    pub locks: Vec<Lock>,
    /// The records that each of them changed.
    changed: BTreeMap<u8, BTreeSet<u8>>,
    /// Who is prepared: its identity, and the records that nobody gets until its decision.
    pub prepared: Option<(Identity, BTreeSet<u8>)>,
}

/// In which mode a lock is held or retained: write mode is the stronger.
#[derive(Clone, Copy, PartialEq, Eq, PartialOrd, Ord)]
pub enum Mode {
    /// Only to read.
    Read,
    /// To read and to write.
    Write,
}

/// Transactions and the mode in which each of them holds or retains a lock.
pub type Bearers = BTreeMap<u8, Mode>;

/// Who has to do with a record's lock.
#[derive(Clone, Default, PartialEq, Eq)]
pub struct Lock {
    /// Who holds it.
    pub holders: Bearers,
    /// Who retains it.
    pub retainers: Bearers,
}

impl Follower {
    /// Down, with nothing prepared.
    pub fn down(edition: Edition) -> Follower {
        Follower {
            up: false,
            live: BTreeMap::new(),
            locks: vec![Lock::default(); edition.records],
            changed: BTreeMap::new(),
            prepared: None,
        }
    }

    /// What a state and page 0 tell.
    pub fn of(state: &State, page: CommitPage) -> Follower {
        let mut follower = Follower { up: state.is_up(), ..Follower::down(Edition::FIRST) };
        if let CommitPage::Prepared(map, identity) = page {
            follower.prepared = Some((identity, map.records().map(Record::number).collect()));
        }
        follower.live = state.live().map(|t| (t.number(), state.parent(t).map(Transaction::number))).collect();
        for (lock, record) in follower.locks.iter_mut().zip(nekahuiro::Record::all()) {
            for writer in state.writers(record) {
                follower.changed.entry(writer.number()).or_default().insert(record.number());
            }
            for (bearers, any, write) in [
                (&mut lock.holders, numbers(state.holders(record)), numbers(state.write_holders(record))),
                (&mut lock.retainers, numbers(state.retainers(record)), numbers(state.write_retainers(record))),
            ] {
                any.into_iter().for_each(|t| strengthen(bearers, t, Mode::Read));
                write.into_iter().for_each(|t| strengthen(bearers, t, Mode::Write));
            }
        }
        follower
    }

    /// Takes note of an event and its answer.
    pub fn event(&mut self, event: Event, answer: Answer) {
        if !answer.is_accepted() {
            return;
        }
        match event {
            Event::Begin { parent } => {
                let parent = (parent != Transaction::NONE).then(|| parent.number());
                self.live.insert(answer.value, parent);
            }
            Event::Lock { transaction, record } => self.lock(transaction, record, Mode::Write),
            Event::ReadLock { transaction, record } => self.lock(transaction, record, Mode::Read),
            Event::Commit { transaction, .. } => self.commit(transaction.number()),
            Event::Abort { transaction, report } => self.abort(transaction.number(), report),
            Event::Crash => self.crash(),
            Event::Recover { .. } => self.up = true,
            Event::Write { transaction, record, .. } => {
                self.changed.entry(transaction.number()).or_default().insert(record.number());
            }
            Event::Prepare { transaction, identity, .. } => {
                let changed = self.changed.get(&transaction.number()).cloned().unwrap_or_default();
                self.abort(transaction.number(), false);
                if !answer.is_cut() && !changed.is_empty() {
                    self.prepared = Some((identity, changed));
                }
            }
            Event::Decide { .. } if answer.value > 0 => self.prepared = None,
            Event::Read { .. } | Event::Decide { .. } | Event::Query { .. } => {}
        }
        if answer.is_cut() {
            self.crash();
        }
    }

    /// What is prepared outlasts it.
    fn crash(&mut self) {
        self.up = false;
        self.live.clear();
        self.changed.clear();
        self.locks.fill(Lock::default());
    }

    fn lock(&mut self, transaction: Transaction, record: Record, mode: Mode) {
        strengthen(&mut self.locks[usize::from(record.number())].holders, transaction.number(), mode);
    }

    fn commit(&mut self, transaction: u8) {
        let parent = self.live.remove(&transaction).flatten();
        self.pass(transaction, parent);
        let changed = self.changed.remove(&transaction).unwrap_or_default();
        if let Some(parent) = parent.filter(|_| !changed.is_empty()) {
            self.changed.entry(parent).or_default().extend(changed);
        }
    }

    /// The heir retains what a transaction held or retained; without one nobody does.
    fn pass(&mut self, transaction: u8, heir: Option<u8>) {
        for lock in &mut self.locks {
            if let (Some(mode), Some(heir)) = (lock.discard(transaction), heir) {
                strengthen(&mut lock.retainers, heir, mode);
            }
        }
    }

    fn abort(&mut self, aborted: u8, report: bool) {
        let parent = self.live.get(&aborted).copied().flatten().filter(|_| report);
        self.pass(aborted, parent);
        let ended: Vec<u8> = self.live.keys().copied().filter(|t| self.line(*t).any(|up| up == aborted)).collect();
        for transaction in ended {
            self.live.remove(&transaction);
            self.changed.remove(&transaction);
            for lock in &mut self.locks {
                lock.discard(transaction);
            }
        }
    }

    /// A transaction and its ancestors, upwards.
    pub fn line(&self, transaction: u8) -> impl Iterator<Item = u8> + '_ {
        // A state that isn't sound may have no end of ancestors.
        std::iter::successors(Some(transaction), |t| self.live.get(t).copied().flatten()).take(TRANSACTIONS)
    }

    /// How deep a transaction is nested; one at the top is at 1.
    pub fn depth(&self, transaction: u8) -> usize {
        self.line(transaction).count()
    }

    /// The live transactions, parents before children.
    pub fn earlier(&self) -> Vec<Earlier> {
        let mut live: Vec<(&u8, &Option<u8>)> = self.live.iter().collect();
        live.sort_by_key(|(number, _)| self.depth(**number));
        let changed = |number: &u8| self.changed.get(number).into_iter().flatten().copied().collect();
        let earlier = |(number, parent): (&u8, &Option<u8>)| Earlier {
            number: *number,
            parent: *parent,
            changed: changed(number),
        };
        live.into_iter().map(earlier).collect()
    }

    /// Whether it is up, and who is live.
    pub fn in_words(&self) -> String {
        let live: Vec<String> = self.live.keys().map(u8::to_string).collect();
        match (self.up, live.is_empty()) {
            (false, _) => "down".to_string(),
            (true, true) => "up, nothing is live".to_string(),
            (true, false) => format!("up, live: {}", live.join(", ")),
        }
    }

    /// The locks in words, as `record 3 held by 1, retained to read by 0; ..`. What isn't said to be to
    /// read is to write.
    pub fn locks_in_words(&self) -> String {
        let told = self.locks.iter().enumerate().filter_map(|(record, lock)| lock.in_words(record));
        let mut told: Vec<String> = told.collect();
        if let Some((identity, records)) = &self.prepared {
            let which = if records.len() == 1 { "record" } else { "records" };
            let records: Vec<String> = records.iter().map(u8::to_string).collect();
            told.push(format!("{which} {} locked until the decision on identity {identity}", records.join(", ")));
        }
        if told.is_empty() {
            "no lock is held or retained".to_string()
        } else {
            told.join("; ")
        }
    }
}

fn numbers(transactions: impl Iterator<Item = Transaction>) -> Vec<u8> {
    transactions.map(Transaction::number).collect()
}

/// A transaction has this mode from now on, or a stronger one that it has already.
fn strengthen(bearers: &mut Bearers, transaction: u8, mode: Mode) {
    let had = bearers.entry(transaction).or_insert(mode);
    *had = mode.max(*had);
}

/// Who holds or retains, as `held by 1, held to read by 0, 2`; empty for nobody.
pub fn bearers_in_words(done: &str, bearers: &Bearers) -> String {
    let of = |wanted: Mode, how: &str| {
        let who = bearers.iter().filter(|(_, mode)| **mode == wanted).map(|(t, _)| t.to_string());
        let who: Vec<String> = who.collect();
        (!who.is_empty()).then(|| format!("{done} {how}by {}", who.join(", ")))
    };
    let told: Vec<String> = [of(Mode::Write, ""), of(Mode::Read, "to read ")].into_iter().flatten().collect();
    told.join(", ")
}

impl Lock {
    /// Takes a transaction out; the mode in which it held or retained the lock, the stronger of the two.
    fn discard(&mut self, transaction: u8) -> Option<Mode> {
        self.holders.remove(&transaction).max(self.retainers.remove(&transaction))
    }

    fn in_words(&self, record: usize) -> Option<String> {
        let told = [bearers_in_words("held", &self.holders), bearers_in_words("retained", &self.retainers)];
        let told: Vec<&str> = told.iter().map(String::as_str).filter(|words| !words.is_empty()).collect();
        (!told.is_empty()).then(|| format!("record {record} {}", told.join(", ")))
    }
}
