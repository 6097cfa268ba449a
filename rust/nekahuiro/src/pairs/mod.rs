//! Pages that can tear: edition 1's store with every page kept as two copies.
//!
//! A medium that isn't all or nothing may lose its power within a write, and what it was writing is bad then. So every
//! page is written twice, its first copy and then its second, and it is what its first good copy says. This form has a
//! library of its own, libnekahuiro_pairs.a, which the feature `pairs` links beside the other. Records, events, rules and
//! answers are edition 1's, but for prepare, decide and query, which there aren't.
//!
//! Where the power goes in a commit or a recovery, a [`Cut`] says how the next page write is torn.
//!
//! ```
//! use nekahuiro::pairs::{Event, Half, Store};
//! use nekahuiro::Record;
//!
//! let list = "recover, begin none, lock 0 3, write 0 3 2 A5, commit 0 1 second-bad";
//! let events: Vec<Event> = list.split(',').map(str::parse).collect::<Result<_, _>>()?;
//! let mut store = Store::fresh();
//! let answers = store.play(&events)?;
//! assert!(answers[4].is_cut());
//! assert_eq!(answers[4].value, 2); // the commit page's first copy is there: it counts as made
//! assert!(store.copy(0, Half::First).is_good() && !store.copy(0, Half::Second).is_good());
//! assert_eq!(store.settled(Record::new(3).ok_or("no such record")?)[2], 0xA5);
//!
//! store.play(&["recover".parse()?])?; // it mends every page first
//! assert!(store.is_whole());
//! # Ok::<(), Box<dyn std::error::Error>>(())
//! ```
//!
//! A [`Session`] keeps a store with what is live on it, and a [`Device`] brings it to a [`Medium`], copy by copy: the
//! power may go at any moment, also within a write. `docs/DEVICE.md` says what such a medium owes.

mod copies;
mod device;
pub mod limits;
mod store;

pub use copies::{CopyWrite, Half, PageCopy};
pub use device::{Device, Medium};
pub use store::{Pairs, Store};

use crate::limits::RECORDS;
use crate::{BadWords, CommitPageOf, Cut, Edition, EventOf, NoIdentity};
use std::str::FromStr;

/// An event that is not bad. Nothing can be prepared, decided or queried.
///
/// ```
/// use nekahuiro::pairs::Event;
/// use nekahuiro::{Cut, Tear};
/// let event: Event = "recover 1 first-bad".parse()?;
/// assert_eq!(event, Event::Recover { count: Cut { count: 1, tear: Tear::FirstBad } });
/// assert_eq!(event.word(), [0x80, 0, 0x01, 0x01]);
/// assert_eq!((Event::of(event.word()), Event::of([0x80, 0, 0x3F, 4])), (Some(event), None));
/// assert!("query 7".parse::<Event>().is_err());
/// # Ok::<(), nekahuiro::BadWords>(())
/// ```
pub type Event = EventOf<RECORDS, NoIdentity, Cut>;

/// What page 0 says. Nothing is prepared.
pub type CommitPage = CommitPageOf<RECORDS, NoIdentity>;

/// A store with what is live on it: store, state and working buffer, which go together.
///
/// ```
/// use nekahuiro::pairs::{Session, Store};
/// use nekahuiro::{Reason, Record, Transact};
///
/// let mut session = Session::new(Store::fresh());
/// session.recover()?;
/// let top = session.begin(None)?;
/// session.put(top, Record::new(3).unwrap(), &[7; 32])?;
/// assert_eq!(session.commit(top)?, 4); // page writes, each of two copies
/// assert_eq!(session.query(nekahuiro::Identity(1)), Err(Reason::BadEvent));
/// # Ok::<(), Reason>(())
/// ```
pub type Session = crate::Session<Pairs>;

impl Event {
    /// The event of a word, or none if the word is bad.
    pub fn of(word: [u8; crate::limits::EVENT_BYTES]) -> Option<Event> {
        Edition::PAIRS.event(&word)
    }
}

impl FromStr for Event {
    type Err = BadWords;

    fn from_str(line: &str) -> Result<Event, BadWords> {
        Edition::PAIRS.parse(line)
    }
}
