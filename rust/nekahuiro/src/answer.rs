//! Answers to events, and refusals of whole operations.

use crate::limits::{ANSWER_BYTES, EVENTS, LIST_BYTES, RECORDS, ROWS, STORE_BYTES, WORK_BYTES};
use crate::{Edition, Reason};
use std::fmt;

/// The answer to one event: a number, then a value.
///
/// ```
/// use nekahuiro::Answer;
/// let cut = Answer { number: 11, value: 2 };
/// assert!(cut.is_accepted() && cut.is_cut());
/// assert_eq!(cut.to_string(), "cut by a crash after 2 page writes");
/// ```
#[derive(Clone, Copy, Debug, PartialEq, Eq)]
pub struct Answer {
    /// 0 done, 1 to 10, 13, 14 and 27 refused, 11 cut by a crash.
    pub number: u8,
    /// The new transaction's number for begin, the byte for read, the page writes made for commit,
    /// recover, prepare and decide, 1 for a query of what is prepared; else 0.
    pub value: u8,
}

/// Done.
pub const DONE: u8 = 0;
/// Cut by a crash.
pub const CUT: u8 = 11;

impl Answer {
    /// The answer in two bytes of an answer buffer.
    pub const fn of(bytes: [u8; ANSWER_BYTES]) -> Answer {
        Answer { number: bytes[0], value: bytes[1] }
    }

    /// Its two bytes.
    pub const fn bytes(self) -> [u8; ANSWER_BYTES] {
        [self.number, self.value]
    }

    /// Whether the event took effect: done, or cut by a crash.
    pub const fn is_accepted(self) -> bool {
        self.number == DONE || self.number == CUT
    }

    /// Whether the power went during the event.
    pub const fn is_cut(self) -> bool {
        self.number == CUT
    }

    /// Why the event was refused, if it was.
    pub fn refusal(self) -> Option<Reason> {
        (!self.is_accepted()).then(|| Reason::of(self.number))
    }
}

impl fmt::Display for Answer {
    fn fmt(&self, f: &mut fmt::Formatter) -> fmt::Result {
        match self.refusal() {
            Some(reason) => reason.fmt(f),
            None if self.is_cut() => write!(f, "cut by a crash after {}", page_writes(self.value)),
            None => write!(f, "done, {}", self.value),
        }
    }
}

/// A number of page writes in words.
pub fn page_writes(number: u8) -> String {
    match number {
        1 => "1 page write".to_string(),
        _ => format!("{number} page writes"),
    }
}

/// Why an operation was refused as a whole. No buffer was touched.
#[derive(Clone, Copy, Debug, PartialEq, Eq)]
pub enum Refusal {
    /// 1: a waiting row has a mode that there isn't.
    Mode,
    /// 4: page 0 is damaged, or where pages can tear some page has no good copy.
    Damaged,
    /// 5: the transaction of a waiting row isn't live.
    NotLive,
    /// 20: the event list is no whole number of words, or too long.
    List,
    /// 21: the answer buffer is too short.
    Answers,
    /// 22: the store has the wrong length.
    Store,
    /// 23: no such record.
    Record,
    /// 24: the working buffer has the wrong length.
    Work,
    /// 25: the state isn't sound, or its bytes encode no state.
    State,
    /// 26: there are too many waiting rows.
    Rows,
    /// 27: the depot doesn't take this message in its state.
    Message,
    /// 28: the output for a sheet's list is too short.
    Output,
    /// 29: the text is no sheet that is taken.
    Sheet,
    /// 30: the auditor doesn't take a prepare, decide or query, nor a start store with a prepared transaction.
    Unaudited,
    /// A number that this edition doesn't know.
    Other(u8),
}

impl Refusal {
    /// The refusal of this number.
    pub const fn of(number: u8) -> Refusal {
        match number {
            1 => Refusal::Mode,
            4 => Refusal::Damaged,
            5 => Refusal::NotLive,
            20 => Refusal::List,
            21 => Refusal::Answers,
            22 => Refusal::Store,
            23 => Refusal::Record,
            24 => Refusal::Work,
            25 => Refusal::State,
            26 => Refusal::Rows,
            27 => Refusal::Message,
            28 => Refusal::Output,
            29 => Refusal::Sheet,
            30 => Refusal::Unaudited,
            other => Refusal::Other(other),
        }
    }

    /// Its number.
    pub const fn number(self) -> u8 {
        match self {
            Refusal::Mode => 1,
            Refusal::Damaged => 4,
            Refusal::NotLive => 5,
            Refusal::List => 20,
            Refusal::Answers => 21,
            Refusal::Store => 22,
            Refusal::Record => 23,
            Refusal::Work => 24,
            Refusal::State => 25,
            Refusal::Rows => 26,
            Refusal::Message => 27,
            Refusal::Output => 28,
            Refusal::Sheet => 29,
            Refusal::Unaudited => 30,
            Refusal::Other(number) => number,
        }
    }
}

impl fmt::Display for Refusal {
    fn fmt(&self, f: &mut fmt::Formatter) -> fmt::Result {
        write!(f, "refused {}: ", self.number())?;
        match self {
            Refusal::Mode => write!(f, "a lock is waited for in mode 0, to write, or 1, to read"),
            Refusal::Damaged => write!(f, "page 0 is damaged, or where pages can tear a page has no good copy"),
            Refusal::NotLive => write!(f, "the transaction that waits isn't live"),
            Refusal::List => write!(f, "the event list must be whole words of 4 bytes, at most {EVENTS} of them"),
            Refusal::Answers => write!(f, "the answer buffer must have {ANSWER_BYTES} bytes for each event"),
            Refusal::Store => {
                write!(
                    f,
                    "a store has exactly {STORE_BYTES} bytes, {} where pages can tear",
                    Edition::PAIRS.store_bytes()
                )
            }
            Refusal::Record => write!(f, "records are numbered from 0 to {}", RECORDS - 1),
            Refusal::Work => write!(f, "the working buffer has exactly {WORK_BYTES} bytes"),
            Refusal::State => write!(f, "the state isn't one that the last portion left with this store"),
            Refusal::Rows => write!(f, "a report takes at most {ROWS} waiting rows"),
            Refusal::Message => write!(f, "the depot doesn't take this message in its state"),
            Refusal::Output => write!(f, "the output for a sheet's list has at least {LIST_BYTES} bytes"),
            Refusal::Sheet => write!(f, "the text is no sheet that is taken"),
            Refusal::Unaudited => {
                write!(f, "a list with a prepare, decide or query, or a start store with a prepared transaction, can't be audited")
            }
            Refusal::Other(_) => write!(f, "an unknown refusal"),
        }
    }
}

impl std::error::Error for Refusal {}
