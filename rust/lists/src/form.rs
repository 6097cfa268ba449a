//! The forms of the store that lists are made for.

use nekahuiro::limits::{COUNT_LIMIT, EVENT_BYTES, RECORDS};
use nekahuiro::{Event, Fields};

/// A form of the store, as far as its lists differ from others.
#[derive(Clone, Copy, Debug, PartialEq, Eq)]
pub struct Form {
    /// Records.
    pub records: usize,
    /// The largest count of an event.
    pub count_limit: u8,
    /// Bytes of an event word, at most 8.
    pub event_bytes: usize,
    /// Whether there are prepare, decide and query.
    pub two_phases: bool,
    /// Whether the value of a commit or recover says how the next page write is torn.
    pub tears: bool,
}

/// A word at the front of eight bytes, of which the rest is zero.
pub type Word = [u8; 8];

impl Form {
    /// Edition 1 on atomic pages.
    pub const PLAIN: Form =
        Form { records: RECORDS, count_limit: COUNT_LIMIT, event_bytes: EVENT_BYTES, two_phases: true, tears: false };

    /// Edition 2: sixty-four records and words of eight bytes.
    pub const EDITION_2: Form = Form { records: 64, count_limit: 255, event_bytes: 8, two_phases: false, tears: false };

    /// Edition 1 where each page is a pair of copies.
    pub const PAIRS: Form = Form { two_phases: false, tears: true, ..Form::PLAIN };

    /// The word of the fields.
    pub fn word(self, fields: Fields) -> Word {
        let mut word = [0; 8];
        match self.event_bytes {
            8 => word = edition2(fields),
            bytes => word[..bytes].copy_from_slice(&fields.word()),
        }
        word
    }

    /// The words of a list of fields.
    pub fn words(self, list: &[Fields]) -> Vec<u8> {
        list.iter().flat_map(|fields| self.word(*fields).into_iter().take(self.event_bytes)).collect()
    }

    /// The fields of a word that is known to be good; none of others, as far as they are asked.
    pub(crate) fn good(self, word: Word) -> Option<Fields> {
        let plain = [word[0], word[1], word[2], word[3]];
        (self == Form::PLAIN && Event::of(plain).is_some()).then(|| Fields::of(plain))
    }
}

/// A word of edition 2: the fields in the same order, at 4, 5, 6, 5, 8 and 8 bits.
fn edition2(fields: Fields) -> Word {
    let Fields { kind, transaction, record, offset, count, value } = fields;
    let widths = [(kind, 4), (transaction, 5), (record, 6), (offset, 5), (count, 8), (value, 8)];
    let bits = widths.iter().fold(0u64, |bits, (number, width)| bits << width | u64::from(*number));
    (bits << 28).to_be_bytes()
}
