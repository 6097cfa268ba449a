//! Why an event is refused, by name.

use crate::limits::{DEPTH_LIMIT, TRANSACTIONS};
use std::fmt;

/// Why an event was refused. It changed nothing.
///
/// ```
/// use nekahuiro::{Answer, Reason};
/// let answer = Answer { number: 8, value: 0 };
/// assert_eq!(answer.refusal(), Some(Reason::NotGrantable));
/// assert_eq!(Reason::NotGrantable.to_string(), "refused 8: the lock can't be granted now");
/// ```
#[derive(Clone, Copy, Debug, PartialEq, Eq)]
pub enum Reason {
    /// 1: no such kind, mode, report or decision, or a field that it doesn't use isn't 0.
    BadEvent,
    /// 2: down, and the event is neither recover nor crash.
    Down,
    /// 3: a recover while up.
    Up,
    /// 4: page 0 is damaged, or where pages can tear some page has no good copy.
    Damaged,
    /// 5: the named transaction isn't live.
    NotLive,
    /// 6: a begin under a parent at the depth limit.
    TooDeep,
    /// 7: a begin with every transaction number taken.
    TooMany,
    /// 8: the lock can't be granted.
    NotGrantable,
    /// 9: a read without holding the lock, or a write without holding it to write.
    NotHeld,
    /// 10: a commit or prepare with a live child.
    LiveChild,
    /// 13: a prepare or top commit with a changed record, and one is prepared.
    OnePrepared,
    /// 14: a lock, read or write by a transaction with a live child.
    ChildAtWork,
    /// 27: a prepare by a child.
    ChildPrepares,
    /// A number that no event is answered with.
    Other(u8),
}

/// Each reason with its number.
const NUMBERS: [(u8, Reason); 13] = [
    (1, Reason::BadEvent),
    (2, Reason::Down),
    (3, Reason::Up),
    (4, Reason::Damaged),
    (5, Reason::NotLive),
    (6, Reason::TooDeep),
    (7, Reason::TooMany),
    (8, Reason::NotGrantable),
    (9, Reason::NotHeld),
    (10, Reason::LiveChild),
    (13, Reason::OnePrepared),
    (14, Reason::ChildAtWork),
    (27, Reason::ChildPrepares),
];

impl Reason {
    /// The reason of this number.
    pub fn of(number: u8) -> Reason {
        let known = NUMBERS.iter().find(|(known, _)| *known == number);
        known.map_or(Reason::Other(number), |(_, reason)| *reason)
    }

    /// Its number.
    pub fn number(self) -> u8 {
        match self {
            Reason::Other(number) => number,
            known => NUMBERS.iter().find(|(_, reason)| *reason == known).map_or(0, |(number, _)| *number),
        }
    }
}

impl fmt::Display for Reason {
    fn fmt(&self, f: &mut fmt::Formatter) -> fmt::Result {
        write!(f, "refused {}: ", self.number())?;
        f.write_str(match self {
            Reason::BadEvent => {
                "bad event: no such kind, mode, report or decision, or a field that it doesn't use isn't 0"
            }
            Reason::Down => "the store is down: recover first",
            Reason::Up => "the store is up already",
            Reason::Damaged => "page 0 is damaged, or where pages can tear a page has no good copy",
            Reason::NotLive => "the named transaction isn't live",
            Reason::TooDeep => return write!(f, "the parent has depth {DEPTH_LIMIT} already"),
            Reason::TooMany => return write!(f, "{TRANSACTIONS} transactions are live already"),
            Reason::NotGrantable => "the lock can't be granted now",
            Reason::NotHeld => "the transaction doesn't hold the lock, or only to read and would write",
            Reason::LiveChild => "a child is still live",
            Reason::OnePrepared => {
                "another transaction is prepared: until its decision none that changed a record can commit or prepare"
            }
            Reason::ChildAtWork => "a child is still live: its parent can't lock, read or write until it ends",
            Reason::ChildPrepares => "a child can't prepare: only a top transaction can",
            Reason::Other(number) => return write!(f, "unknown number {number}"),
        })
    }
}

impl std::error::Error for Reason {}
