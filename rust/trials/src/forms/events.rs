//! Events to write lists with, in the words of any form.

use super::Form;
use nekahuiro::Fields;

/// In begin: no parent.
pub const TOP: u8 = 31;

/// The words of these events.
pub fn words<F: Form>(list: &[Fields]) -> Vec<u8> {
    F::LISTS.words(list)
}

/// Begin under a parent.
pub fn begin(transaction: u8) -> Fields {
    Fields { kind: 1, transaction, ..Fields::default() }
}

/// Ask for a lock to write.
pub fn lock(transaction: u8, record: u8) -> Fields {
    Fields { kind: 2, transaction, record, ..Fields::default() }
}

/// Ask for a lock to read.
pub fn read_lock(transaction: u8, record: u8) -> Fields {
    Fields { value: 1, ..lock(transaction, record) }
}

/// Write one byte.
pub fn write(transaction: u8, record: u8, offset: u8, value: u8) -> Fields {
    Fields { kind: 3, transaction, record, offset, value, ..Fields::default() }
}

/// Read one byte.
pub fn read(transaction: u8, record: u8, offset: u8) -> Fields {
    Fields { kind: 4, transaction, record, offset, ..Fields::default() }
}

/// Commit; the power goes after so many page writes.
pub fn commit(transaction: u8, count: u8) -> Fields {
    Fields { kind: 5, transaction, count, ..Fields::default() }
}

/// Abort.
pub fn abort(transaction: u8) -> Fields {
    Fields { kind: 6, transaction, ..Fields::default() }
}

/// The power goes.
pub fn crash() -> Fields {
    Fields { kind: 7, ..Fields::default() }
}

/// Recover; the power goes after so many page writes.
pub fn recover(count: u8) -> Fields {
    Fields { kind: 8, count, ..Fields::default() }
}

/// The same commit or recover, with the next write torn in this way.
pub fn torn(event: Fields, way: u8) -> Fields {
    Fields { value: way, ..event }
}
