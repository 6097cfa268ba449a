//! Events of edition 2 and their words: the same six fields in 64 bits, most significant first.

use super::limits::{EVENT_BYTES, RECORDS};
use crate::{BadWords, Edition, EventOf, Fields, NoIdentity};
use std::str::FromStr;

/// The word of the fields. A number too large for its field keeps its low bits only.
pub fn word_of(fields: Fields) -> [u8; EVENT_BYTES] {
    Edition::SECOND.join(&fields).to_be_bytes()
}

/// The fields of a word, whatever its last 28 bits are.
pub fn fields_of(word: [u8; EVENT_BYTES]) -> Fields {
    Edition::SECOND.split(u64::from_be_bytes(word)).0
}

/// An event that is not bad. Nothing can be prepared, decided or queried.
///
/// ```
/// use nekahuiro::edition2::{Event, Record};
/// use nekahuiro::Transaction;
/// let (transaction, record) = (Transaction::new(1).unwrap(), Record::new(3).unwrap());
/// let event = Event::Write { transaction, record, offset: 2, value: 0xA5 };
/// assert_eq!(event.word(), [0x30, 0x86, 0x20, 0x0A, 0x50, 0, 0, 0]);
/// assert_eq!(Event::of(event.word()), Some(event));
/// assert_eq!(Event::of([0x30, 0x86, 0x20, 0x0A, 0x50, 0, 0, 1]), None); // a stray bit
/// ```
///
/// In words they are written as those of edition 1. A count that is left out is 255.
///
/// ```
/// use nekahuiro::edition2::Event;
/// let event: Event = "write 1 63 2 A5".parse()?;
/// assert_eq!(event.to_string(), "write 1 63 2 A5");
/// assert_eq!("recover".parse::<Event>()?, Event::Recover { count: 255 });
/// assert!("lock 0 64".parse::<Event>().is_err() && "query 7".parse::<Event>().is_err());
/// # Ok::<(), nekahuiro::BadWords>(())
/// ```
pub type Event = EventOf<RECORDS, NoIdentity>;

impl Event {
    /// The event's word. An offset too large for its field keeps its low bits only.
    pub fn word(&self) -> [u8; EVENT_BYTES] {
        word_of(self.fields())
    }

    /// The event of a word, or none if the word is bad.
    pub fn of(word: [u8; EVENT_BYTES]) -> Option<Event> {
        Edition::SECOND.event(&word)
    }
}

impl FromStr for Event {
    type Err = BadWords;

    fn from_str(line: &str) -> Result<Event, BadWords> {
        Edition::SECOND.parse(line)
    }
}

/// The words of a list of events, one after the other, as a run takes them.
pub fn encode(events: &[Event]) -> Vec<u8> {
    events.iter().flat_map(Event::word).collect()
}

/// A word in words: the event, or the word itself in hex if it is bad.
pub fn describe(word: [u8; EVENT_BYTES]) -> String {
    Edition::SECOND.describe(&word)
}
