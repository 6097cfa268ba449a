//! How old a record is. A clock reading, a limit and an age are three types.

use crate::answer::Refusal;
use std::fmt;

/// A clock reading in minutes.
#[derive(Clone, Copy, Debug, PartialEq, Eq, PartialOrd, Ord)]
pub struct Clock(pub u32);

/// How many minutes old a record may be.
#[derive(Clone, Copy, Debug, PartialEq, Eq, PartialOrd, Ord)]
pub struct Limit(pub u32);

/// An age in minutes: a clock reading minus the record's stamp, below 0 if the stamp is ahead.
#[derive(Clone, Copy, Debug, PartialEq, Eq, PartialOrd, Ord)]
pub struct Age(i64);

impl Age {
    /// The minutes, from -4,294,967,295 to 4,294,967,295.
    pub const fn minutes(self) -> i64 {
        self.0
    }
}

/// What the store says of a record's age.
///
/// ```
/// use nekahuiro::{Clock, Limit, Record, Store, Verdict};
/// let store = Store::fresh(); // every stamp is 0
/// let record = Record::new(3).unwrap();
/// let verdict = store.age(record, Clock(5), Limit(4))?;
/// assert!(matches!(verdict, Verdict::Stale(age) if age.minutes() == 5));
/// # Ok::<(), nekahuiro::Refusal>(())
/// ```
#[derive(Clone, Copy, Debug, PartialEq, Eq)]
pub enum Verdict {
    /// From 0 to the limit.
    Live(Age),
    /// Below 0.
    Ahead(Age),
    /// Above the limit.
    Stale(Age),
}

impl Verdict {
    /// What the library's answer says, with the age that it told.
    pub fn of(answer: u8, age: i64) -> Result<Verdict, Refusal> {
        match answer {
            0 => Ok(Verdict::Live(Age(age))),
            1 => Ok(Verdict::Ahead(Age(age))),
            2 => Ok(Verdict::Stale(Age(age))),
            number => Err(Refusal::of(number)),
        }
    }
}

impl fmt::Display for Verdict {
    fn fmt(&self, f: &mut fmt::Formatter) -> fmt::Result {
        match self {
            Verdict::Live(age) => write!(f, "live {}", age.0),
            Verdict::Ahead(age) => write!(f, "ahead {}", age.0),
            Verdict::Stale(age) => write!(f, "stale {}", age.0),
        }
    }
}
