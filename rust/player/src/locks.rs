//! The lock table: for each record every transaction's share in its lock, held and retained apart.

use crate::event::{Mode, Record, Transaction};
use crate::form::Form;

/// What one transaction has of a lock. Held and retained modes are independent of each other.
#[derive(Clone, Copy)]
pub struct Share {
    /// Whose share it is.
    pub transaction: Transaction,
    /// The mode in which it holds the lock.
    pub held: Option<Mode>,
    /// The mode in which it retains the lock.
    pub retained: Option<Mode>,
}

/// A list of shares for each record.
pub trait Table: Clone + AsRef<[Vec<Share>]> + AsMut<[Vec<Share>]> {
    /// Nobody has a share in anything.
    fn empty() -> Self;
}

impl<const RECORDS: usize> Table for [Vec<Share>; RECORDS] {
    fn empty() -> Self {
        [const { Vec::new() }; RECORDS]
    }
}

/// The lock of each record: shares with something in them, one at most for a transaction.
#[derive(Clone)]
pub struct Locks<F: Form> {
    table: F::Table,
}

impl<F: Form> Default for Locks<F> {
    fn default() -> Self {
        Locks { table: F::Table::empty() }
    }
}

impl<F: Form> Locks<F> {
    /// The shares in the lock of a record.
    pub fn shares(&self, record: Record) -> &[Share] {
        &self.table.as_ref()[usize::from(record.0)]
    }

    /// A transaction's share in the lock of a record.
    fn share(&self, transaction: Transaction, record: Record) -> Option<&Share> {
        self.shares(record).iter().find(|share| share.transaction == transaction)
    }

    /// The mode in which this very transaction holds the lock.
    pub fn held(&self, transaction: Transaction, record: Record) -> Option<Mode> {
        self.share(transaction, record)?.held
    }

    /// The mode in which a transaction retains the lock.
    pub fn retained(&self, transaction: Transaction, record: Record) -> Option<Mode> {
        self.share(transaction, record)?.retained
    }

    /// The transaction holds the lock in this mode from now on, or in the one it has if that is stronger.
    pub fn grant(&mut self, transaction: Transaction, record: Record, mode: Mode) {
        let share = share_of(&mut self.table.as_mut()[usize::from(record.0)], transaction);
        share.held = share.held.max(Some(mode));
    }

    /// The transaction retains the lock in this mode from now on, or in the one it has if that is stronger.
    pub fn retain(&mut self, transaction: Transaction, record: Record, mode: Mode) {
        let share = share_of(&mut self.table.as_mut()[usize::from(record.0)], transaction);
        share.retained = share.retained.max(Some(mode));
    }

    /// The parent retains all that its child held or retained, in the stronger mode; the child has
    /// nothing left. A planted bug takes the weaker mode.
    pub fn pass_up(&mut self, child: Transaction, parent: Transaction, weaker: bool) {
        for shares in self.table.as_mut() {
            let Some(at) = shares.iter().position(|share| share.transaction == child) else { continue };
            let Share { held, retained, .. } = shares.swap_remove(at);
            let heir = share_of(shares, parent);
            heir.retained = match weaker {
                false => heir.retained.max(held).max(retained),
                true => [heir.retained, held, retained].into_iter().flatten().min(),
            };
        }
    }

    /// The parent holds what its child held. Only a planted bug does this.
    pub fn hand_over(&mut self, child: Transaction, parent: Transaction) {
        for record in (0..F::RECORDS as u8).map(Record) {
            if let Some(mode) = self.held(child, record) {
                self.grant(parent, record, mode);
            }
        }
    }

    /// Whoever is among these holds and retains nothing any more.
    pub fn discard(&mut self, ended: &[Transaction]) {
        for shares in self.table.as_mut() {
            shares.retain(|share| !ended.contains(&share.transaction));
        }
    }

    /// Nobody holds or retains anything any more.
    pub fn clear(&mut self) {
        *self = Locks::default();
    }
}

/// A transaction's share in a lock, which is empty if it had none.
fn share_of(shares: &mut Vec<Share>, transaction: Transaction) -> &mut Share {
    let at = shares.iter().position(|share| share.transaction == transaction).unwrap_or_else(|| {
        shares.push(Share { transaction, held: None, retained: None });
        shares.len() - 1
    });
    &mut shares[at]
}
