//! A record store with nested transactions and page-by-page commit, proved down to the code.
//!
//! This crate is safe Rust over the proved library's C interface. It adds types, allocates nothing
//! where buffers are lent, and panics on no input. What the library promises is said in
//! `docs/PROMISES.md`; this crate itself is ordinary code, tested and not proved.
//!
//! A store holds sixteen records of 32 bytes. A [`Store`] plays a list of [`Event`]s and gives one
//! [`Answer`] each. Commits and recoveries carry a count: the power goes after that many page
//! writes, and 63 is always enough for no cut.
//!
//! ```
//! use nekahuiro::{Event, Record, Store};
//!
//! let list = "recover 63, begin none, begin 0, lock 1 3, write 1 3 2 A5, commit 1 63, commit 0 63";
//! let events: Vec<Event> = list.split(',').map(str::parse).collect::<Result<_, _>>()?;
//!
//! let mut store = Store::fresh();
//! let answers = store.play(&events)?;
//! assert!(answers.iter().all(|answer| answer.is_accepted()));
//! assert_eq!(answers[6].value, 4); // an intention page, the commit page, a home page, the empty page
//!
//! let record = Record::new(3).ok_or("no such record")?;
//! assert_eq!(store.settled(record)[2], 0xA5);
//! # Ok::<(), Box<dyn std::error::Error>>(())
//! ```
//!
//! A lock is for writing, or with `read-lock` for reading only: then others may read too.
//!
//! ```
//! use nekahuiro::{Event, Store};
//!
//! let list = "recover 63, begin none, begin none, read-lock 0 3, read-lock 1 3, read 1 3 0, lock 1 3";
//! let events: Vec<Event> = list.split(',').map(str::parse).collect::<Result<_, _>>()?;
//! let answers = Store::fresh().play(&events)?;
//! assert!(answers[4].is_accepted() && answers[5].is_accepted()); // two readers
//! assert_eq!(answers[6].number, 8); // no write lock while another reads
//! # Ok::<(), Box<dyn std::error::Error>>(())
//! ```
//!
//! Two ends commit together: the one with the store, the gateway, prepares a transaction and waits; the
//! other, a [`Depot`], asks it, decides once, and tells its decision as often as it is asked.
//!
//! ```
//! use nekahuiro::{vote, Depot, Event, Message, Order, Record, Store};
//!
//! let mut depot = Depot::new();
//! assert_eq!(depot.receive(Message::Start)?, Order::Prepare);
//!
//! let list = "recover 63, begin none, lock 0 3, write 0 3 2 A5, prepare 0 63 7";
//! let events: Vec<Event> = list.split(',').map(str::parse).collect::<Result<_, _>>()?;
//! let mut store = Store::fresh();
//! let answers = store.play(&events)?;
//! let record = Record::new(3).ok_or("no such record")?;
//! assert_eq!(store.settled(record)[2], 0); // it waits, also through power cuts
//!
//! let yes = vote(&events[4], answers[4]).ok_or("a prepare is answered by a vote")?;
//! assert_eq!(yes, Message::Yes);
//! assert_eq!(depot.receive(yes)?, Order::Commit);
//! store.play(&["recover 63".parse()?, "decide commit 63 7".parse()?])?;
//! assert_eq!(store.settled(record)[2], 0xA5);
//! # Ok::<(), Box<dyn std::error::Error>>(())
//! ```
//!
//! A fitter's sheet is text that becomes a list: [`sheet_words`].
//!
//! Whether a store, a list, its answers and the store after it belong together is for the [`audit`] to say.
//!
//! Events that come one by one are played in portions of any length: [`Store::portion`] takes a
//! [`State`] and a [`Work`] that the caller keeps from one portion to the next. A [`Session`] keeps all three,
//! and has a method for each thing to do.
//!
//! A store of edition 2 has sixty-four records: the feature `edition2` has a module for it. On a medium whose writes can
//! tear every page is kept as two copies: the feature `pairs` has a module for that. Where the edition is known only when the program runs, an [`Edition`] reads words and commit pages into the types of [`any`].
//!
//! All this changes a copy of the store in memory. A [`Device`] brings it to a [`Medium`], page write by page
//! write, so that the power may go at any moment; `docs/DEVICE.md` says what a medium owes.
//!
//! Transactions whose locks were refused may wait on each other, and then no retry helps: [`State::waiting`]
//! shows a [`Ring`] of them, of which one has to be aborted.
//!
//! ```
//! use nekahuiro::{Event, Row, State, Store, Work};
//!
//! let list = "recover 63, begin none, begin none, lock 0 3, lock 1 4, lock 0 4, lock 1 3";
//! let events: Vec<Event> = list.split(',').map(str::parse).collect::<Result<_, _>>()?;
//! let (mut store, mut state, mut work) = (Store::fresh(), State::new(), Work::new());
//! let answers = store.portion(&mut state, &mut work, &events)?;
//! assert_eq!((answers[5].number, answers[6].number), (8, 8)); // both locks are refused
//!
//! let rows: Vec<Row> = events[5..].iter().filter_map(Row::of).collect();
//! let ring: Vec<u8> = state.waiting(&rows)?.transactions().map(|t| t.number()).collect();
//! assert_eq!(ring, [0, 1]); // 0 waits for 1, which waits for 0
//! assert!(state.waiting(&rows[..1])?.is_empty());
//! # Ok::<(), Box<dyn std::error::Error>>(())
//! ```

mod age;
mod answer;
pub mod audit;
mod commit_page;
mod cut;
mod depot;
mod device;
mod edition;
#[cfg(feature = "edition2")]
pub mod edition2;
mod event;
mod form;
pub mod limits;
mod numbers;
mod page_write;
#[cfg(feature = "pairs")]
pub mod pairs;
#[allow(unsafe_code)] // the only module that calls the linked library
pub mod raw;
mod reason;
mod session;
mod sheet;
mod state;
mod store;
mod waiting;
mod words;
mod work;

pub use age::{Age, Clock, Limit, Verdict};
pub use answer::{page_writes, Answer, Refusal, CUT, DONE};
pub use commit_page::{CommitPage, CommitPageOf, Map, MapOf, Page};
pub use cut::{Cut, Cuts, Tear};
pub use depot::{vote, Depot, Message, Order, Stage};
pub use device::{Device, Fault, Medium, Programs};
pub use edition::Edition;
pub use event::{encode, Event, EventOf, Fields};
pub use form::{First, Form};
pub use numbers::{Identifies, Identity, NoIdentity, Record, RecordOf, Transaction};
pub use page_write::PageWrite;
pub use reason::Reason;
pub use session::{Session, Transact};
pub use sheet::{sheet_words, BadSheet};
pub use state::State;
pub use store::{Place, Store, StoreOf};
pub use waiting::{Ring, Row};
pub use words::{describe, why_bad, BadWords};
pub use work::Work;

/// Events, records and commit pages of whichever edition, for an [`Edition`] that is known only when the program runs.
pub mod any {
    use crate::{CommitPageOf, Cut, EventOf, Identity, MapOf, RecordOf};

    /// The records of the edition that has the most.
    const RECORDS: usize = crate::Edition::SECOND.records;

    /// An event of any edition.
    pub type Event = EventOf<RECORDS, Identity, Cut>;
    /// A record of any edition.
    pub type Record = RecordOf<RECORDS>;
    /// What page 0 says, in any edition.
    pub type CommitPage = CommitPageOf<RECORDS, Identity>;
    /// The records that a commit page of any edition names.
    pub type Map = MapOf<RECORDS>;
}

/// The README's examples are tested too.
#[cfg(doctest)]
#[doc = include_str!("../../../README.md")]
struct Readme;

/// And those of the page on devices.
#[cfg(doctest)]
#[doc = include_str!("../../../docs/DEVICE.md")]
struct Devices;
