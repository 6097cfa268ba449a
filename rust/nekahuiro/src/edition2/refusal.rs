//! Refusals of whole operations in edition 2.

use super::limits::{EVENT_BYTES, RECORDS, STORE_BYTES, WORK_BYTES};
use crate::limits::{ANSWER_BYTES, EVENTS};
use std::fmt;

/// Why an operation was refused as a whole. No buffer was touched.
#[derive(Clone, Copy, Debug, PartialEq, Eq)]
pub enum Refusal {
    /// 4: page 0 is damaged.
    Damaged,
    /// 20: the event list is no whole number of words, or too long, or an event asked about is no word.
    List,
    /// 21: the answer buffer is too short, or the one for a page write has the wrong length.
    Answers,
    /// 22: the store has the wrong length.
    Store,
    /// 23: no such record.
    Record,
    /// 24: the working buffer has the wrong length.
    Work,
    /// A number that this edition doesn't know.
    Other(u8),
}

impl Refusal {
    /// The refusal of this number.
    pub const fn of(number: u8) -> Refusal {
        match number {
            4 => Refusal::Damaged,
            20 => Refusal::List,
            21 => Refusal::Answers,
            22 => Refusal::Store,
            23 => Refusal::Record,
            24 => Refusal::Work,
            other => Refusal::Other(other),
        }
    }

    /// Its number.
    pub const fn number(self) -> u8 {
        match self {
            Refusal::Damaged => 4,
            Refusal::List => 20,
            Refusal::Answers => 21,
            Refusal::Store => 22,
            Refusal::Record => 23,
            Refusal::Work => 24,
            Refusal::Other(number) => number,
        }
    }
}

impl fmt::Display for Refusal {
    fn fmt(&self, f: &mut fmt::Formatter) -> fmt::Result {
        write!(f, "refused {}: ", self.number())?;
        match self {
            Refusal::Damaged => write!(f, "page 0 is damaged"),
            Refusal::List => {
                write!(f, "the event list must be whole words of {EVENT_BYTES} bytes, at most {EVENTS} of them")
            }
            Refusal::Answers => write!(f, "the answer buffer must have {ANSWER_BYTES} bytes for each event"),
            Refusal::Store => write!(f, "a store of edition 2 has exactly {STORE_BYTES} bytes"),
            Refusal::Record => write!(f, "records are numbered from 0 to {}", RECORDS - 1),
            Refusal::Work => write!(f, "the working buffer of edition 2 has exactly {WORK_BYTES} bytes"),
            Refusal::Other(_) => write!(f, "an unknown refusal"),
        }
    }
}

impl std::error::Error for Refusal {}
