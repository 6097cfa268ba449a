//! Events and their words: six fields, most significant first.

use crate::limits::{COUNT_LIMIT, EVENT_BYTES, RECORDS};
use crate::{Cuts, Edition, Identifies, Identity, RecordOf, Transaction};

/// The six fields of an event word, in their order. Any word has them, also a bad one.
///
/// The widths told are those of edition 1. A number too large for its field keeps its low bits only.
#[derive(Clone, Copy, Debug, Default, PartialEq, Eq)]
pub struct Fields {
    /// 1 begin, 2 lock, 3 write, 4 read, 5 commit, 6 abort, 7 crash, 8 recover, 9 prepare, 10 decide,
    /// 11 query; 4 bits.
    pub kind: u8,
    /// The transaction named; 5 bits.
    pub transaction: u8,
    /// The record named; 4 bits.
    pub record: u8,
    /// The place of a byte in its record; or 1 in a decide to commit, 0 in one to abort; 5 bits.
    pub offset: u8,
    /// The page writes that happen before the power goes; 6 bits.
    pub count: u8,
    /// The byte to write; or the mode of a lock: 0 write, 1 read; or 1 in an abort with a report; or an
    /// identity; or, where pages can tear, how a commit or recover is torn; 8 bits.
    pub value: u8,
}

impl Fields {
    /// The fields of a word.
    pub const fn of(word: [u8; EVENT_BYTES]) -> Fields {
        Edition::FIRST.split((u32::from_be_bytes(word) as u64) << 32).0
    }

    /// The word of the fields.
    pub const fn word(&self) -> [u8; EVENT_BYTES] {
        ((Edition::FIRST.join(self) >> 32) as u32).to_be_bytes()
    }
}

/// An event that is not bad, over so many records. Where there is no identity, nothing can be prepared, decided or
/// queried. A commit or recovery is cut at a count of page writes; where pages can tear, at a [`Cut`](crate::Cut).
#[derive(Clone, Copy, Debug, PartialEq, Eq)]
pub enum EventOf<const RECORDS: usize, I, C = u8> {
    /// Begin a transaction under a parent, or at the top with [`Transaction::NONE`].
    Begin {
        /// The parent.
        parent: Transaction,
    },
    /// Ask for a record's lock in write mode: to read and to write.
    Lock {
        /// Who asks.
        transaction: Transaction,
        /// For which record.
        record: RecordOf<RECORDS>,
    },
    /// Ask for a record's lock in read mode: to read, beside other readers.
    ReadLock {
        /// Who asks.
        transaction: Transaction,
        /// For which record.
        record: RecordOf<RECORDS>,
    },
    /// Write one byte.
    Write {
        /// Who writes.
        transaction: Transaction,
        /// To which record.
        record: RecordOf<RECORDS>,
        /// Where, 0 to 31.
        offset: u8,
        /// What.
        value: u8,
    },
    /// Read one byte.
    Read {
        /// Who reads.
        transaction: Transaction,
        /// Which record.
        record: RecordOf<RECORDS>,
        /// Where, 0 to 31.
        offset: u8,
    },
    /// Commit.
    Commit {
        /// Who commits.
        transaction: Transaction,
        /// After how many page writes the power goes.
        count: C,
    },
    /// Abort, with all live descendants.
    Abort {
        /// Who aborts.
        transaction: Transaction,
        /// Whether it tells its parent why: the parent then retains its locks.
        report: bool,
    },
    /// The power goes.
    Crash,
    /// Recover.
    Recover {
        /// After how many page writes the power goes.
        count: C,
    },
    /// Prepare: the top transaction ends, and its changes wait for the decision on an identity.
    Prepare {
        /// Who prepares.
        transaction: Transaction,
        /// After how many page writes the power goes.
        count: u8,
        /// Under which identity.
        identity: I,
    },
    /// Carry out the decision on an identity.
    Decide {
        /// To commit, or else to abort.
        commit: bool,
        /// After how many page writes the power goes.
        count: u8,
        /// On which identity.
        identity: I,
    },
    /// Ask whether a transaction is prepared with an identity.
    Query {
        /// With which identity.
        identity: I,
    },
}

/// An event that is not bad.
///
/// ```
/// use nekahuiro::Event;
/// let event: Event = "write 1 3 2 A5".parse()?;
/// assert_eq!(event.word(), [0x30, 0x98, 0x80, 0xA5]);
/// assert_eq!(Event::of([0x30, 0x98, 0x80, 0xA5]), Some(event));
/// assert_eq!(Event::of([0x70, 0, 0, 1]), None); // a crash with a stray bit
/// assert_eq!("read-lock 1 3".parse::<Event>()?.word(), [0x20, 0x98, 0, 1]); // a lock to read only
/// # Ok::<(), nekahuiro::BadWords>(())
/// ```
pub type Event = EventOf<RECORDS, Identity>;

impl<const RECORDS: usize, I: Identifies, C: Cuts> EventOf<RECORDS, I, C> {
    /// The event's fields.
    pub fn fields(&self) -> Fields {
        let of =
            |kind, transaction: Transaction| Fields { kind, transaction: transaction.number(), ..Fields::default() };
        match *self {
            EventOf::Begin { parent } => of(1, parent),
            EventOf::Lock { transaction, record } => Fields { record: record.number(), ..of(2, transaction) },
            EventOf::ReadLock { transaction, record } => {
                Fields { record: record.number(), value: 1, ..of(2, transaction) }
            }
            EventOf::Write { transaction, record, offset, value } => {
                Fields { record: record.number(), offset, value, ..of(3, transaction) }
            }
            EventOf::Read { transaction, record, offset } => {
                Fields { record: record.number(), offset, ..of(4, transaction) }
            }
            EventOf::Commit { transaction, count } => {
                Fields { count: count.count(), value: count.value(), ..of(5, transaction) }
            }
            EventOf::Abort { transaction, report } => Fields { value: u8::from(report), ..of(6, transaction) },
            EventOf::Crash => Fields { kind: 7, ..Fields::default() },
            EventOf::Recover { count } => {
                Fields { kind: 8, count: count.count(), value: count.value(), ..Fields::default() }
            }
            EventOf::Prepare { transaction, count, identity } => {
                Fields { count, value: identity.number(), ..of(9, transaction) }
            }
            EventOf::Decide { commit, count, identity } => {
                Fields { kind: 10, offset: u8::from(commit), count, value: identity.number(), ..Fields::default() }
            }
            EventOf::Query { identity } => Fields { kind: 11, value: identity.number(), ..Fields::default() },
        }
    }

    /// The event of a word's fields, or none if there is none.
    fn of_fields(fields: Fields) -> Option<Self> {
        let Fields { kind, transaction, record, offset, count, value } = fields;
        let (transaction, record) = (Transaction::new(transaction)?, RecordOf::new(record)?);
        let event = match kind {
            1 => EventOf::Begin { parent: transaction },
            2 if value == 1 => EventOf::ReadLock { transaction, record },
            2 => EventOf::Lock { transaction, record },
            3 => EventOf::Write { transaction, record, offset, value },
            4 => EventOf::Read { transaction, record, offset },
            5 => EventOf::Commit { transaction, count: C::of(count, value)? },
            6 => EventOf::Abort { transaction, report: value == 1 },
            7 => EventOf::Crash,
            8 => EventOf::Recover { count: C::of(count, value)? },
            9 => EventOf::Prepare { transaction, count, identity: I::of(value)? },
            10 => EventOf::Decide { commit: offset == 1, count, identity: I::of(value)? },
            11 => EventOf::Query { identity: I::of(value)? },
            _ => return None,
        };
        // A word with a stray bit or another value isn't the word of the event that its fields tell.
        (event.fields() == fields).then_some(event)
    }
}

impl Edition {
    /// The event of a word of this edition, or none if the word is bad.
    pub fn event<const RECORDS: usize, I: Identifies, C: Cuts>(self, word: &[u8]) -> Option<EventOf<RECORDS, I, C>> {
        let event: EventOf<RECORDS, I, C> = EventOf::of_fields(self.fields(word)?)?;
        let is_known = match event {
            EventOf::Prepare { .. } | EventOf::Decide { .. } | EventOf::Query { .. } => self.two_phases,
            EventOf::Commit { count, .. } | EventOf::Recover { count } => self.tears || count.value() == 0,
            _ => true,
        };
        is_known.then_some(event)
    }
}

impl<I: Identifies, C: Cuts> EventOf<RECORDS, I, C> {
    /// The event's word. An offset or count too large for its field keeps its low bits only.
    pub fn word(&self) -> [u8; EVENT_BYTES] {
        self.fields().word()
    }

    /// The same event with the count 63, where it has one: the power goes when it goes.
    ///
    /// ```
    /// use nekahuiro::Event;
    /// let event: Event = "commit 3 0".parse()?;
    /// assert_eq!(event.uncut(), "commit 3 63".parse()?);
    /// # Ok::<(), nekahuiro::BadWords>(())
    /// ```
    pub fn uncut(mut self) -> Self {
        match &mut self {
            EventOf::Commit { count, .. } | EventOf::Recover { count } => {
                *count = C::of(COUNT_LIMIT, 0).unwrap_or(*count)
            }
            EventOf::Prepare { count, .. } | EventOf::Decide { count, .. } => *count = COUNT_LIMIT,
            _ => {}
        }
        self
    }
}

impl Event {
    /// The event of a word, or none if the word is bad.
    pub fn of(word: [u8; EVENT_BYTES]) -> Option<Event> {
        Edition::FIRST.event(&word)
    }
}

/// The words of a list of events, one after the other, as a run takes them.
pub fn encode<I: Identifies, C: Cuts>(events: &[EventOf<RECORDS, I, C>]) -> Vec<u8> {
    events.iter().flat_map(|event| event.word()).collect()
}
