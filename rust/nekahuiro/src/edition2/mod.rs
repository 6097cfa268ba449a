//! Edition 2: the same store with sixty-four records, and event words of eight bytes.
//!
//! It has a library of its own, libnekahuiro_edition2.a, which the feature `edition2` links beside the other. Rules
//! and answers are the same; there is no prepare, decide and query, and a list is played as a whole. The page writes of
//! the event that comes next after a list are told too, for a device: [`Store::page_writes`].
//!
//! ```
//! use nekahuiro::edition2::{Event, Record, Store};
//!
//! let list = "recover 255, begin none, lock 0 63, write 0 63 2 A5, commit 0 2";
//! let events: Vec<Event> = list.split(',').map(str::parse).collect::<Result<_, _>>()?;
//! let mut store = Store::fresh();
//! let answers = store.play(&events)?;
//! assert!(answers[4].is_cut()); // after one intention page and the commit page: it survives
//! assert_eq!(store.settled(Record::new(63).ok_or("no such record")?)[2], 0xA5);
//! # Ok::<(), Box<dyn std::error::Error>>(())
//! ```

mod commit_page;
mod event;
pub mod limits;
mod refusal;
mod store;

pub use commit_page::{CommitPage, Map};
pub use event::{describe, encode, fields_of, word_of, Event};
pub use refusal::Refusal;
pub use store::Store;

/// A record number, 0 to 63.
///
/// ```
/// use nekahuiro::edition2::Record;
/// assert_eq!(Record::new(63).map(|r| r.number()), Some(63));
/// assert_eq!(Record::new(64), None);
/// ```
pub type Record = crate::RecordOf<{ limits::RECORDS }>;
