//! Whether a state is sound: the words of the rules, one by one, over plain facts.
//!
//! Facts may say anything: parents in a ring, two who write, a version that nobody may have.

use crate::event::{Mode, Record, Transaction};
use crate::limits::{DEPTH_LIMIT, TRANSACTIONS};
use crate::store::{CommitPage, Page};
use std::collections::BTreeMap;

/// What is said of a live transaction.
#[derive(Clone, Copy, Debug, PartialEq, Eq)]
pub struct Begun {
    /// None for a top transaction.
    pub parent: Option<Transaction>,
    /// How deep it is.
    pub depth: u8,
}

/// What is said of a state.
#[derive(Clone, Debug, Default, PartialEq, Eq)]
pub struct Facts {
    /// Whether it is up.
    pub up: bool,
    /// The live transactions.
    pub live: BTreeMap<Transaction, Begun>,
    /// Who holds which lock, and in which mode.
    pub holders: BTreeMap<(Record, Transaction), Mode>,
    /// Who retains which lock, and in which mode.
    pub retainers: BTreeMap<(Record, Transaction), Mode>,
    /// Who has which version.
    pub versions: BTreeMap<(Transaction, Record), Page>,
}

/// What makes a state unsound, in the order of the words.
#[derive(Clone, Copy, Debug, PartialEq, Eq, PartialOrd, Ord)]
pub enum Fault {
    /// There is no such transaction number.
    Number,
    /// A parent isn't live.
    Parent,
    /// A depth isn't one more than the parent's, or not 1 at the top.
    Depth,
    /// A depth is above the limit.
    TooDeep,
    /// A holder isn't live.
    Holder,
    /// A retainer isn't live.
    Retainer,
    /// A retainer isn't on one line with a write-mode retainer.
    Line,
    /// A holder isn't at or beneath a write-mode retainer.
    Beneath,
    /// A write holder isn't alone.
    NotAlone,
    /// A write holder isn't at or beneath a retainer.
    WriterBeneath,
    /// A version by one who neither holds nor retains its record in write mode.
    Version,
    /// A transaction while down.
    Down,
    /// The commit page is neither empty nor prepared while up.
    Page,
    /// A lock, held or retained, of a record that the prepared transaction changed.
    Prepared,
}

impl Facts {
    /// The first thing that makes the state unsound, if anything does.
    pub fn fault(&self, page: &CommitPage) -> Option<Fault> {
        let checks = [
            (Fault::Number, self.live.keys().all(|t| usize::from(t.0) < TRANSACTIONS)),
            (Fault::Parent, self.parents().all(|(_, parent)| parent.is_none_or(|p| self.live.contains_key(&p)))),
            (Fault::Depth, self.parents().all(|(begun, parent)| begun.depth == self.depth_under(parent))),
            (Fault::TooDeep, self.live.values().all(|begun| begun.depth <= DEPTH_LIMIT)),
            (Fault::Holder, self.holders.keys().all(|(_, t)| self.live.contains_key(t))),
            (Fault::Retainer, self.retainers.keys().all(|(_, t)| self.live.contains_key(t))),
        ];
        // Past these the parents form a tree, so that lines end.
        let tree = checks.into_iter().find(|(_, holds)| !holds).map(|(fault, _)| fault);
        tree.or_else(|| self.fault_of_locks()).or_else(|| self.fault_of_phase(page))
    }

    fn fault_of_locks(&self) -> Option<Fault> {
        let (holders, retainers) = (Bearer::all(&self.holders), Bearer::all(&self.retainers));
        let beneath = |low: Bearer, high: Bearer| self.is_beneath(low.transaction, high.transaction);
        // Every retainer on one line with each write-mode retainer.
        let on_one_line = Bearer::pairs(&retainers, &retainers, |t, w| w.reads() || beneath(t, w) || beneath(w, t));
        // Every holder at or beneath all write-mode retainers.
        let holders_beneath = Bearer::pairs(&holders, &retainers, |t, w| w.reads() || beneath(t, w));
        // A write holder alone and at or beneath every retainer.
        let alone = Bearer::pairs(&holders, &holders, |w, t| w.reads() || w.transaction == t.transaction);
        let writer_beneath = Bearer::pairs(&holders, &retainers, |w, t| w.reads() || beneath(w, t));
        // Versions only in write mode.
        let writes = |told: Option<&Mode>| told == Some(&Mode::Write);
        let in_write_mode = self.versions.keys().all(|(writer, record)| {
            let lock = (*record, *writer);
            writes(self.holders.get(&lock)) || writes(self.retainers.get(&lock))
        });
        let checks = [
            (Fault::Line, on_one_line),
            (Fault::Beneath, holders_beneath),
            (Fault::NotAlone, alone),
            (Fault::WriterBeneath, writer_beneath),
            (Fault::Version, in_write_mode),
        ];
        checks.into_iter().find(|(_, holds)| !holds).map(|(fault, _)| fault)
    }

    fn fault_of_phase(&self, page: &CommitPage) -> Option<Fault> {
        let mut locked = self.holders.keys().chain(self.retainers.keys()).map(|(record, _)| record);
        match page {
            _ if !self.up => (!self.live.is_empty()).then_some(Fault::Down),
            CommitPage::Empty => None,
            CommitPage::Prepared(changed, _) => locked.any(|r| changed.contains(r)).then_some(Fault::Prepared),
            CommitPage::Committed(_) | CommitPage::Damaged => Some(Fault::Page),
        }
    }

    fn parents(&self) -> impl Iterator<Item = (&Begun, Option<Transaction>)> {
        self.live.values().map(|begun| (begun, begun.parent))
    }

    /// The depth due under a parent.
    fn depth_under(&self, parent: Option<Transaction>) -> u8 {
        parent.and_then(|p| self.live.get(&p)).map_or(0, |begun| begun.depth).saturating_add(1)
    }

    /// At or beneath: `low` is `high` or a descendant of it. Rings have been ruled out by the depths.
    fn is_beneath(&self, low: Transaction, high: Transaction) -> bool {
        std::iter::successors(Some(low), |t| self.live.get(t)?.parent).any(|t| t == high)
    }
}

/// One who holds or retains a lock.
#[derive(Clone, Copy)]
struct Bearer {
    record: Record,
    transaction: Transaction,
    mode: Mode,
}

impl Bearer {
    fn all(told: &BTreeMap<(Record, Transaction), Mode>) -> Vec<Bearer> {
        told.iter().map(|((record, t), mode)| Bearer { record: *record, transaction: *t, mode: *mode }).collect()
    }

    /// Whether it is in read mode, to which the clauses on write mode don't apply.
    fn reads(self) -> bool {
        self.mode == Mode::Read
    }

    /// Whether something holds of each two that have to do with the same lock.
    fn pairs(some: &[Bearer], others: &[Bearer], holds: impl Fn(Bearer, Bearer) -> bool) -> bool {
        let of = |one: &Bearer| others.iter().filter(|two| two.record == one.record).all(|two| holds(*one, *two));
        some.iter().all(of)
    }
}
