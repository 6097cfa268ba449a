//! When the power goes in a commit or a recovery.

use std::fmt;

/// What an edition's commits and recoveries say of a power cut: a count of page writes, or a [`Cut`] where pages can
/// tear.
pub trait Cuts: Copy + PartialEq + fmt::Display {
    /// Of an event word's count and value, if there is such a cut.
    fn of(count: u8, value: u8) -> Option<Self>;
    /// After how many page writes the power goes.
    fn count(self) -> u8;
    /// What stands in the event word's value.
    fn value(self) -> u8;
}

/// Page writes are all or nothing: the power goes between two of them.
impl Cuts for u8 {
    fn of(count: u8, _: u8) -> Option<u8> {
        Some(count)
    }

    fn count(self) -> u8 {
        self
    }

    fn value(self) -> u8 {
        0
    }
}

/// A power cut where pages can tear.
///
/// ```
/// use nekahuiro::{Cut, Tear};
/// assert_eq!(Cut::from(63), Cut { count: 63, tear: Tear::None });
/// assert_eq!(Cut { count: 1, tear: Tear::SecondBad }.to_string(), "1 second-bad");
/// ```
#[derive(Clone, Copy, Debug, PartialEq, Eq)]
pub struct Cut {
    /// After how many page writes the power goes.
    pub count: u8,
    /// What becomes of the next.
    pub tear: Tear,
}

/// What a power cut leaves of the page write that comes next: of its first copy, then of its second.
#[derive(Clone, Copy, Debug, PartialEq, Eq)]
pub enum Tear {
    /// It isn't begun.
    None,
    /// The first copy is left bad, the second stays.
    FirstBad,
    /// The first copy is new, the second left bad. The page write counts as made.
    SecondBad,
    /// The first copy is new, the second stays. The page write counts as made.
    SecondOld,
}

impl Tear {
    /// All, by the value that stands for each in an event word.
    pub const ALL: [Tear; 4] = [Tear::None, Tear::FirstBad, Tear::SecondBad, Tear::SecondOld];

    /// Its word in an event in words; empty where nothing is torn.
    pub const fn word(self) -> &'static str {
        match self {
            Tear::None => "",
            Tear::FirstBad => "first-bad",
            Tear::SecondBad => "second-bad",
            Tear::SecondOld => "second-old",
        }
    }
}

impl Cuts for Cut {
    fn of(count: u8, value: u8) -> Option<Cut> {
        Tear::ALL.get(usize::from(value)).map(|tear| Cut { count, tear: *tear })
    }

    fn count(self) -> u8 {
        self.count
    }

    fn value(self) -> u8 {
        self.tear as u8
    }
}

/// With nothing torn.
impl From<u8> for Cut {
    fn from(count: u8) -> Cut {
        Cut { count, tear: Tear::None }
    }
}

impl fmt::Display for Cut {
    fn fmt(&self, f: &mut fmt::Formatter) -> fmt::Result {
        match self.tear {
            Tear::None => self.count.fmt(f),
            tear => write!(f, "{} {}", self.count, tear.word()),
        }
    }
}
