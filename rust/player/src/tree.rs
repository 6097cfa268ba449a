//! The live transactions as a tree, each with its own versions.

use crate::event::{Record, Transaction};
use crate::limits::{DEPTH_LIMIT, TRANSACTIONS};
use crate::store::Page;
use std::collections::BTreeMap;

/// A live transaction.
#[derive(Clone)]
pub struct Node {
    /// None for a top transaction.
    pub parent: Option<Transaction>,
    /// 1 for a top transaction.
    pub depth: u8,
    /// How many live children it has.
    pub children: usize,
    /// What it has written, or taken over from children that committed.
    pub versions: BTreeMap<Record, Page>,
}

/// All live transactions, each in the slot of its number.
#[derive(Clone, Default)]
pub struct Tree {
    slots: [Option<Node>; TRANSACTIONS],
}

impl Tree {
    /// The live transaction of this number.
    pub fn get(&self, transaction: Transaction) -> Option<&Node> {
        self.slots.get(usize::from(transaction.0))?.as_ref()
    }

    /// The same, to change.
    pub fn get_mut(&mut self, transaction: Transaction) -> Option<&mut Node> {
        self.slots.get_mut(usize::from(transaction.0))?.as_mut()
    }

    /// Whether the number is live.
    pub fn is_live(&self, transaction: Transaction) -> bool {
        self.get(transaction).is_some()
    }

    /// Whether a child of it would be too deep.
    pub fn is_deepest(&self, transaction: Transaction) -> bool {
        self.get(transaction).is_some_and(|node| node.depth == DEPTH_LIMIT)
    }

    /// Begins a transaction under the lowest free number, if there is one.
    pub fn begin(&mut self, parent: Option<Transaction>) -> Option<Transaction> {
        let depth = 1 + parent.and_then(|p| self.get(p)).map_or(0, |node| node.depth);
        let free = self.slots.iter().position(Option::is_none)?;
        self.slots[free] = Some(Node { parent, depth, children: 0, versions: BTreeMap::new() });
        if let Some(node) = parent.and_then(|parent| self.get_mut(parent)) {
            node.children += 1;
        }
        Some(Transaction(free as u8))
    }

    /// The numbers of live transactions, rising.
    pub fn live(&self) -> impl Iterator<Item = Transaction> + '_ {
        (0..).zip(&self.slots).filter(|(_, slot)| slot.is_some()).map(|(number, _)| Transaction(number))
    }

    /// A transaction and its ancestors, nearest first.
    pub fn line(&self, transaction: Transaction) -> impl Iterator<Item = Transaction> + '_ {
        std::iter::successors(Some(transaction), |t| self.get(*t).and_then(|node| node.parent))
    }

    /// Whether any live transaction has this one as its parent.
    pub fn has_child(&self, transaction: Transaction) -> bool {
        self.get(transaction).is_some_and(|node| node.children > 0)
    }

    /// A transaction and its live descendants.
    pub fn with_descendants(&self, transaction: Transaction) -> Vec<Transaction> {
        self.live().filter(|t| self.line(*t).any(|up| up == transaction)).collect()
    }

    /// What a transaction reads of a record where it or an ancestor has a version.
    pub fn version(&self, transaction: Transaction, record: Record) -> Option<&Page> {
        self.line(transaction).find_map(|t| self.get(t)?.versions.get(&record))
    }

    /// Puts a transaction in the slot of its number, if there is one.
    pub fn put(&mut self, transaction: Transaction, node: Node) {
        if let Some(slot) = self.slots.get_mut(usize::from(transaction.0)) {
            *slot = Some(node);
        }
    }

    /// Ends one transaction and hands out what it was.
    pub fn remove(&mut self, transaction: Transaction) -> Option<Node> {
        let ended = self.slots.get_mut(usize::from(transaction.0))?.take()?;
        if let Some(node) = ended.parent.and_then(|parent| self.get_mut(parent)) {
            node.children -= 1;
        }
        Some(ended)
    }

    /// Ends all.
    pub fn clear(&mut self) {
        *self = Tree::default();
    }
}
