//! Transaction numbers, record numbers and identities: three types, since a 3 of one is no 3 of another.

use crate::limits::{RECORDS, TRANSACTION_NAMES};
use std::fmt;

/// A transaction number as an event names it, 0 to 31. Only 0 to 23 are ever live.
///
/// ```
/// use nekahuiro::Transaction;
/// assert_eq!(Transaction::new(3).map(|t| t.number()), Some(3));
/// assert_eq!(Transaction::new(32), None);
/// ```
#[derive(Clone, Copy, Debug, PartialEq, Eq, PartialOrd, Ord, Hash)]
pub struct Transaction(u8);

impl Transaction {
    /// In begin, the name of no parent.
    pub const NONE: Transaction = Transaction(31);

    /// The transaction of this number, if the field can hold it.
    pub const fn new(number: u8) -> Option<Self> {
        if (number as usize) < TRANSACTION_NAMES {
            Some(Transaction(number))
        } else {
            None
        }
    }

    /// Its number.
    pub const fn number(self) -> u8 {
        self.0
    }
}

/// A record number among so many.
#[derive(Clone, Copy, Debug, PartialEq, Eq, PartialOrd, Ord, Hash)]
pub struct RecordOf<const RECORDS: usize>(u8);

/// A record number, 0 to 15.
///
/// ```
/// use nekahuiro::Record;
/// assert_eq!(Record::new(15).map(|r| r.number()), Some(15));
/// assert_eq!(Record::new(16), None);
/// ```
pub type Record = RecordOf<RECORDS>;

impl<const RECORDS: usize> RecordOf<RECORDS> {
    /// The record of this number, if there is one.
    pub const fn new(number: u8) -> Option<Self> {
        if (number as usize) < RECORDS {
            Some(RecordOf(number))
        } else {
            None
        }
    }

    /// Its number.
    pub const fn number(self) -> u8 {
        self.0
    }

    /// All records, rising.
    pub fn all() -> impl Iterator<Item = Self> {
        (0..RECORDS as u8).map(RecordOf)
    }
}

/// The identity of a transaction that two ends commit together, 0 to 255. It is all that messages between
/// them carry.
#[derive(Clone, Copy, Debug, PartialEq, Eq, PartialOrd, Ord, Hash)]
pub struct Identity(pub u8);

/// What an edition has in the place of an identity.
pub trait Identifies: Copy + fmt::Display {
    /// The identity of this number, if there is one.
    fn of(number: u8) -> Option<Self>;
    /// Its number.
    fn number(self) -> u8;
}

impl Identifies for Identity {
    fn of(number: u8) -> Option<Self> {
        Some(Identity(number))
    }

    fn number(self) -> u8 {
        self.0
    }
}

/// The identity of an edition that has none: nothing can be prepared there.
#[derive(Clone, Copy, Debug, PartialEq, Eq)]
pub enum NoIdentity {}

impl Identifies for NoIdentity {
    fn of(_: u8) -> Option<Self> {
        None
    }

    fn number(self) -> u8 {
        match self {}
    }
}

impl fmt::Display for NoIdentity {
    fn fmt(&self, _: &mut fmt::Formatter) -> fmt::Result {
        match *self {}
    }
}

impl fmt::Display for Identity {
    fn fmt(&self, f: &mut fmt::Formatter) -> fmt::Result {
        self.0.fmt(f)
    }
}

impl fmt::Display for Transaction {
    fn fmt(&self, f: &mut fmt::Formatter) -> fmt::Result {
        self.0.fmt(f)
    }
}

impl<const RECORDS: usize> fmt::Display for RecordOf<RECORDS> {
    fn fmt(&self, f: &mut fmt::Formatter) -> fmt::Result {
        self.0.fmt(f)
    }
}
