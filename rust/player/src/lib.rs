//! The ordinary player: the rules of the record store as a plain Rust program.
//!
//! It is the independent program that the proved engine is tested against, and the yardstick of
//! the benchmark. It is written from the rules alone and shares no code and no data structures
//! with the engine: live transactions are a tree of owned nodes with their versions in maps, a lock is
//! a list of shares, a commit is a list of page writes.
//!
//! ```
//! use nekahuiro_player::{fresh, run, limits};
//!
//! let mut store = [0xFF; limits::STORE_BYTES];
//! assert_eq!(fresh(&mut store), 0);
//! let mut work = [0; limits::WORK_BYTES];
//! let mut answers = [0xFF; 4];
//! // recover with count 63, then begin a top transaction: it gets number 0
//! let events = [0x80, 0x00, 0x3F, 0x00, 0x1F, 0x80, 0x00, 0x00];
//! assert_eq!(run(&mut store, &events, &mut work, &mut answers), 0);
//! assert_eq!(answers, [0, 0, 0, 0]);
//! ```

pub mod event;
pub mod form;
pub mod limits;
mod locks;
pub mod medium;
pub mod planted;
mod player;
pub mod sheet;
pub mod soundness;
pub mod store;
mod tree;
mod volatile;
pub mod waiting;

pub use form::{Edition2, Form, Pairs, Plain};
use limits::EVENT_BYTES;
pub use player::{Answer, Player};
use store::Page;
pub use volatile::Volatile;

/// Refused: page 0 is damaged, or nothing of some page is good.
pub const DAMAGED: u8 = 4;
/// Refused: the event list is no whole number of words, or too long.
pub const BAD_LIST: u8 = 20;
/// Refused: the answer buffer is too short.
pub const SHORT_ANSWERS: u8 = 21;
/// Refused: the store has the wrong length.
pub const BAD_STORE: u8 = 22;
/// Refused: no such record.
pub const BAD_RECORD: u8 = 23;
/// Refused: the working buffer has the wrong length.
pub const BAD_WORK: u8 = 24;
/// Refused: the state isn't sound.
pub const BAD_STATE: u8 = 25;

/// [`Form::run`] of the plain form.
pub fn run(store: &mut [u8], events: &[u8], work: &mut [u8], answers: &mut [u8]) -> u8 {
    Plain::run(store, events, work, answers)
}

/// [`Form::portion`] of the plain form.
///
/// ```
/// use nekahuiro_player::{fresh, limits, portion, Volatile};
///
/// let (mut store, mut work) = ([0; limits::STORE_BYTES], [0; limits::WORK_BYTES]);
/// fresh(&mut store);
/// let (mut volatile, mut answer) = (Volatile::default(), [0; 2]);
/// // recover with count 63, then begin: each is a portion
/// for word in [[0x80, 0x00, 0x3F, 0x00], [0x1F, 0x80, 0x00, 0x00]] {
///     assert_eq!(portion(&mut volatile, &mut store, &word, &mut work, &mut answer), 0);
///     assert_eq!(answer, [0, 0]);
/// }
/// ```
pub fn portion(volatile: &mut Volatile, store: &mut [u8], events: &[u8], work: &mut [u8], answers: &mut [u8]) -> u8 {
    Plain::portion(volatile, store, events, work, answers)
}

/// [`Form::page_writes`] of the plain form.
pub fn page_writes(volatile: &Volatile, store: &[u8], word: [u8; EVENT_BYTES]) -> Option<Vec<(u8, Page)>> {
    Plain::page_writes(volatile, store, word)
}

/// [`Form::run_with_bug`] of the plain form.
#[cfg(feature = "planted")]
pub fn run_with_bug(bug: planted::Bug, store: &mut [u8], events: &[u8], work: &mut [u8], answers: &mut [u8]) -> u8 {
    Plain::run_with_bug(bug, store, events, work, answers)
}

/// [`Form::fresh`] of the plain form.
pub fn fresh(store: &mut [u8]) -> u8 {
    Plain::fresh(store)
}

/// How old a record is, in minutes.
#[derive(Clone, Copy, Debug, PartialEq, Eq)]
pub enum Age {
    /// Not below 0 and not above the limit.
    Live(i64),
    /// Below 0.
    Ahead(i64),
    /// Above the limit.
    Stale(i64),
}

/// [`Form::age`] of the plain form.
pub fn age(store: &[u8], record: u8, clock: u32, limit: u32) -> Result<Age, u8> {
    Plain::age(store, record, clock, limit)
}
