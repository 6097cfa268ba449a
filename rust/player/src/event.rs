//! The event word: six fields, most significant first, in the bits that its form has for them.

use crate::form::{Form, Plain, Word};
use crate::limits::{EVENT_BYTES, NO_PARENT};
use crate::medium::Medium;
use crate::planted::{Bug, Planted};

/// A transaction number as an event names it: 0 to 31, of which 24 to 31 are never live.
#[derive(Clone, Copy, Debug, PartialEq, Eq, PartialOrd, Ord)]
pub struct Transaction(pub u8);

/// A record number, below the number of records.
#[derive(Clone, Copy, Debug, PartialEq, Eq, PartialOrd, Ord)]
pub struct Record(pub u8);

/// In which mode a lock is asked for, held or retained: write mode is the stronger.
#[derive(Clone, Copy, Debug, PartialEq, Eq, PartialOrd, Ord)]
pub enum Mode {
    /// Others may read too.
    Read,
    /// Nobody else may read or write.
    Write,
}

/// The identity under which a transaction is prepared: the depot knows it by this alone.
#[derive(Clone, Copy, Debug, PartialEq, Eq)]
pub struct Identity(pub u8);

/// What the depot decided for a prepared transaction.
#[derive(Clone, Copy, Debug, PartialEq, Eq)]
pub enum Decision {
    /// Its changes are to stand.
    Commit,
    /// They are to go.
    Abort,
}

/// An event with no stray bits. When the power goes is said by a number of page writes, or in more words.
#[derive(Clone, Copy, Debug, PartialEq, Eq)]
pub enum Event<Cut = u8> {
    /// Begin a transaction, under a parent or at the top.
    Begin(Option<Transaction>),
    /// Ask for a lock in a mode.
    Lock(Transaction, Record, Mode),
    /// Write one byte: offset, then value.
    Write(Transaction, Record, u8, u8),
    /// Read the byte at an offset.
    Read(Transaction, Record, u8),
    /// Commit, and when the power goes.
    Commit(Transaction, Cut),
    /// Abort with all live descendants; with a report the parent keeps the locks.
    Abort(Transaction, bool),
    /// The power goes.
    Crash,
    /// Recover, and when the power goes.
    Recover(Cut),
    /// Prepare under an identity, and when the power goes.
    Prepare(Transaction, Cut, Identity),
    /// Decide what is prepared under an identity, and when the power goes.
    Decide(Decision, Cut, Identity),
    /// Ask whether a transaction is prepared under an identity.
    Query(Identity),
}

/// When the power goes, as far as an event of the form can say it.
pub type CutOf<F> = <<F as Form>::Medium as Medium>::Cut;

/// The bits of the fields that are as wide in every form.
const KIND_BITS: u32 = 4;
const TRANSACTION_BITS: u32 = 5;
const OFFSET_BITS: u32 = 5;
const VALUE_BITS: u32 = 8;

/// The bits behind the fields of a form's words.
const fn bits_behind<F: Form>() -> u32 {
    let fields = KIND_BITS + TRANSACTION_BITS + F::RECORD_BITS + OFFSET_BITS + F::COUNT_BITS + VALUE_BITS;
    8 * F::EVENT_BYTES as u32 - fields
}

/// The word with as many page writes as it can name before the power goes, where its kind has a count.
pub fn uncut(word: [u8; EVENT_BYTES]) -> [u8; EVENT_BYTES] {
    uncut_as::<Plain>(word)
}

/// The same of a form's word.
pub fn uncut_as<F: Form>(word: F::Word) -> F::Word {
    let bits = word.bits();
    let greatest = (1 << F::COUNT_BITS) - 1;
    match bits >> (8 * F::EVENT_BYTES as u32 - KIND_BITS) {
        5 | 8 | 9 | 10 => F::Word::of_bits(bits | greatest << (bits_behind::<F>() + VALUE_BITS)),
        _ => word,
    }
}

/// The event that a word tells, or none if the word is bad: an unknown kind, a stray bit or a value or
/// decision that the kind doesn't take.
pub fn decode(word: [u8; EVENT_BYTES]) -> Option<Event> {
    decode_as::<Plain>(word, Planted::default())
}

/// The same of a form's word.
pub fn decode_as<F: Form>(word: F::Word, planted: Planted) -> Option<Event<CutOf<F>>> {
    let bits = word.bits();
    let mut before = bits >> bits_behind::<F>();
    if before << bits_behind::<F>() != bits && !planted.is(Bug::BitsBehindIgnored) {
        return None;
    }
    // From the last field to the first.
    let mut take = |width: u32| {
        let field = before & ((1 << width) - 1);
        before >>= width;
        field as u8
    };
    let (value, count, offset) = (take(VALUE_BITS), take(F::COUNT_BITS), take(OFFSET_BITS));
    let (record, named, kind) = (take(F::RECORD_BITS), take(TRANSACTION_BITS), take(KIND_BITS));
    let (record, count) = slips(record, count, planted);
    let (transaction, record) = (Transaction(named), Record(record));
    let no_record = record.0 == 0;
    let (no_offset, no_count, no_value) = (offset == 0, count == 0, value == 0);
    let cut = || F::Medium::cut(count, 0);
    let torn = || F::Medium::cut(count, if planted.is(Bug::TearOfTwoBits) { value & 3 } else { value });
    let two_phases = F::TWO_PHASES || planted.is(Bug::PreparesTaken);
    let (event, unused_are_zero) = match kind {
        1 => {
            let parent = (named != NO_PARENT).then_some(transaction);
            (Event::Begin(parent), no_record && no_offset && no_count && no_value)
        }
        2 => {
            let mode = match value {
                0 => Mode::Write,
                1 => Mode::Read,
                _ => return None,
            };
            (Event::Lock(transaction, record, mode), no_offset && no_count)
        }
        3 => (Event::Write(transaction, record, offset, value), no_count),
        4 => (Event::Read(transaction, record, offset), no_count && no_value),
        5 => (Event::Commit(transaction, torn()?), no_record && no_offset),
        6 => {
            let report = match value {
                0 => false,
                1 => true,
                _ => return None,
            };
            (Event::Abort(transaction, report), no_record && no_offset && no_count)
        }
        7 => (Event::Crash, named == 0 && no_record && no_offset && no_count && no_value),
        8 => (Event::Recover(torn()?), named == 0 && no_record && no_offset),
        9 if two_phases => (Event::Prepare(transaction, cut()?, Identity(value)), no_record && no_offset),
        10 if two_phases => {
            let decision = match offset {
                0 => Decision::Abort,
                1 => Decision::Commit,
                _ => return None,
            };
            (Event::Decide(decision, cut()?, Identity(value)), named == 0 && no_record)
        }
        11 if two_phases => (Event::Query(Identity(value)), named == 0 && no_record && no_offset && no_count),
        _ => return None,
    };
    unused_are_zero.then_some(event)
}

/// Record and count, as they are but for planted bugs.
fn slips(record: u8, count: u8, planted: Planted) -> (u8, u8) {
    let record = if planted.is(Bug::RecordOfFourBits) { record & 15 } else { record };
    let count = if planted.is(Bug::CountOfSixBits) { count & 63 } else { count };
    (record, count)
}
