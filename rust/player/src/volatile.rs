//! What the player remembers between two events, and the same as plain facts.

use crate::event::Record;
use crate::form::{Form, Plain};
use crate::locks::{Locks, Share};
use crate::soundness::{Begun, Facts};
use crate::store::CommitPage;
use crate::tree::{Node, Tree};

/// What the player remembers; at the start it is down and nothing is live.
#[derive(Clone)]
pub struct Volatile<F: Form = Plain> {
    pub(crate) up: bool,
    pub(crate) tree: Tree,
    pub(crate) locks: Locks<F>,
}

impl<F: Form> Default for Volatile<F> {
    fn default() -> Self {
        Volatile { up: false, tree: Tree::default(), locks: Locks::default() }
    }
}

impl<F: Form> Volatile<F> {
    /// All that it remembers.
    pub fn facts(&self) -> Facts {
        let mut facts = Facts { up: self.up, ..Facts::default() };
        for transaction in self.tree.live() {
            let Some(node) = self.tree.get(transaction) else { continue };
            facts.live.insert(transaction, Begun { parent: node.parent, depth: node.depth });
            facts.versions.extend(node.versions.iter().map(|(record, page)| ((transaction, *record), *page)));
        }
        for record in (0..F::RECORDS as u8).map(Record) {
            for Share { transaction, held, retained } in self.locks.shares(record) {
                facts.holders.extend(held.map(|mode| ((record, *transaction), mode)));
                facts.retainers.extend(retained.map(|mode| ((record, *transaction), mode)));
            }
        }
        facts
    }

    /// Whether it can go on over a store with this page 0: while up nothing is committed and not yet
    /// copied home, and nobody has to do with a lock of what a prepared transaction changed.
    pub(crate) fn goes_with(&self, page: &CommitPage) -> bool {
        match page {
            _ if !self.up => true,
            CommitPage::Empty => true,
            CommitPage::Prepared(changed, _) => changed.iter().all(|record| self.locks.shares(*record).is_empty()),
            CommitPage::Committed(_) | CommitPage::Damaged => false,
        }
    }

    /// A volatile that remembers these facts, if they are sound over a store with this page 0.
    pub fn of(facts: &Facts, page: &CommitPage) -> Option<Self> {
        if facts.fault(page).is_some() {
            return None;
        }
        let mut volatile = Volatile { up: facts.up, ..Volatile::default() };
        for (transaction, Begun { parent, depth }) in &facts.live {
            let own = facts.versions.iter().filter(|((writer, _), _)| writer == transaction);
            let versions = own.map(|((_, record), page)| (*record, *page)).collect();
            let children = facts.live.values().filter(|begun| begun.parent == Some(*transaction)).count();
            volatile.tree.put(*transaction, Node { parent: *parent, depth: *depth, children, versions });
        }
        facts.holders.iter().for_each(|((record, holder), mode)| volatile.locks.grant(*holder, *record, *mode));
        facts.retainers.iter().for_each(|((record, t), mode)| volatile.locks.retain(*t, *record, *mode));
        Some(volatile)
    }
}
