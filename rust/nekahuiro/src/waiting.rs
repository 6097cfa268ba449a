//! Transactions that wait on each other: waiting rows, and the ring that a report shows.

use crate::answer::Refusal;
use crate::limits::TRANSACTIONS;
use crate::{raw, Event, Record, State, Transaction};

/// A waiting row: a transaction waits for the lock of a record. Laid out as `include/nekahuiro.h` says; any
/// bytes may stand in one, and what can't be taken is refused.
#[repr(C)]
#[derive(Clone, Copy, Debug, PartialEq, Eq, Hash)]
pub struct Row {
    /// Who waits.
    pub transaction: u8,
    /// For which record.
    pub record: u8,
    /// In which mode: 0 to write, 1 to read.
    pub mode: u8,
}

/// A ring of transactions, each of which points to the next and the last to the first; or none.
#[repr(C)]
#[derive(Clone, Copy, Debug, Default, PartialEq, Eq, Hash)]
pub struct Ring {
    /// How many there are; 0 where there is no ring.
    pub length: u8,
    /// The transactions in order, none twice; zeros after them.
    pub transactions: [u8; TRANSACTIONS],
}

const _: () = assert!(size_of::<Row>() == 3 && size_of::<Ring>() == 25);

impl Row {
    /// A transaction waits to write a record.
    pub const fn to_write(transaction: Transaction, record: Record) -> Row {
        Row { transaction: transaction.number(), record: record.number(), mode: 0 }
    }

    /// A transaction waits to read a record.
    pub const fn to_read(transaction: Transaction, record: Record) -> Row {
        Row { transaction: transaction.number(), record: record.number(), mode: 1 }
    }

    /// The row of a lock event that waits to be granted.
    pub const fn of(event: &Event) -> Option<Row> {
        match event {
            Event::Lock { transaction, record } => Some(Row::to_write(*transaction, *record)),
            Event::ReadLock { transaction, record } => Some(Row::to_read(*transaction, *record)),
            _ => None,
        }
    }
}

impl Ring {
    /// Whether there is no ring.
    pub const fn is_empty(&self) -> bool {
        self.length == 0
    }

    /// The transactions in order: each points to the next, the last to the first.
    pub fn transactions(&self) -> impl Iterator<Item = Transaction> + '_ {
        self.transactions.iter().take(self.length.into()).filter_map(|t| Transaction::new(*t))
    }
}

impl State {
    /// Whether transactions wait on each other while these rows wait: a ring of them, or an empty one. A
    /// waiting transaction points to each that blocks its lock, and to that one's ancestors which are neither
    /// the waiter nor its ancestors; every transaction points to its live children. What is prepared in the
    /// store plays no part.
    ///
    /// Refused, in this order: a state that isn't sound, more than 24 rows, then row by row a transaction
    /// that isn't live, no such record, no such mode.
    pub fn waiting(&self, rows: &[Row]) -> Result<Ring, Refusal> {
        let mut ring = Ring::default();
        match raw::waiting(self, rows, &mut ring) {
            0 => Ok(ring),
            number => Err(Refusal::of(number)),
        }
    }
}
