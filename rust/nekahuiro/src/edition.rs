//! The editions of the store: the numbers in which they differ, and how their words and commit pages are laid out.

use crate::limits::{DEPTH_LIMIT, PAGE_BYTES, PAIR_BYTES};
use crate::Fields;

/// An edition, where it is known only when the program runs: its numbers, and whether its pages can tear. With [`any`](crate::any) events, records and commit pages
/// of each edition are of one type.
///
/// ```
/// use nekahuiro::{any, Edition};
/// let lock: any::Event = Edition::SECOND.parse("lock 0 63")?;
/// let word = Edition::SECOND.word(lock.fields());
/// assert_eq!(word, [0x20, 0x7E, 0, 0, 0, 0, 0, 0]);
/// assert_eq!(Edition::SECOND.event(&word), Some(lock));
/// assert!(Edition::FIRST.parse::<64, nekahuiro::Identity, u8>("lock 0 63").is_err());
/// # Ok::<(), nekahuiro::BadWords>(())
/// ```
#[derive(Clone, Copy, Debug, PartialEq, Eq)]
pub struct Edition {
    /// Its number, as page 0 has it.
    pub number: u8,
    /// Records in a store.
    pub records: usize,
    /// Bytes of an event word.
    pub event_bytes: usize,
    /// Whether there are prepare, decide and query.
    pub two_phases: bool,
    /// Whether pages can tear: each is kept as two copies, and a commit or recovery can be cut within a page write.
    pub tears: bool,
    /// Bits of a word's record field; the count in page 0 has one more.
    pub(crate) record_bits: u32,
    /// Bits of a word's count field.
    count_bits: u32,
}

impl Edition {
    /// Sixteen records, words of four bytes, and transactions that can be prepared.
    pub const FIRST: Edition = Edition {
        number: 1,
        records: 16,
        event_bytes: 4,
        two_phases: true,
        tears: false,
        record_bits: 4,
        count_bits: 6,
    };

    /// Sixty-four records and words of eight bytes.
    pub const SECOND: Edition = Edition {
        number: 2,
        records: 64,
        event_bytes: 8,
        two_phases: false,
        tears: false,
        record_bits: 6,
        count_bits: 8,
    };

    /// Edition 1 on pages that can tear; nothing can be prepared.
    pub const PAIRS: Edition = Edition { two_phases: false, tears: true, ..Edition::FIRST };

    /// All of them.
    pub const ALL: [Edition; 3] = [Edition::FIRST, Edition::SECOND, Edition::PAIRS];

    /// Pages of a store: the commit page, then an intention and a home page for each record.
    pub const fn pages(self) -> usize {
        1 + 2 * self.records
    }

    /// Bytes of a page's space in a store: those of the page, or of two copies with their status.
    pub const fn space(self) -> usize {
        if self.tears {
            PAIR_BYTES
        } else {
            PAGE_BYTES
        }
    }

    /// Bytes of a store.
    pub const fn store_bytes(self) -> usize {
        self.pages() * self.space()
    }

    /// Bytes of the working buffer.
    pub const fn work_bytes(self) -> usize {
        self.records * DEPTH_LIMIT * PAGE_BYTES
    }

    /// The largest count of page writes that an event can carry; no power cut comes then.
    pub const fn count_limit(self) -> u8 {
        (1u16 << self.count_bits).wrapping_sub(1) as u8
    }

    /// The widths of the six fields of a word, in their order.
    const fn widths(self) -> [u32; 6] {
        [4, 5, self.record_bits, 5, self.count_bits, 8]
    }

    /// The fields at the top of these bits, and whether there is no bit behind them.
    pub(crate) const fn split(self, bits: u64) -> (Fields, bool) {
        let (widths, mut numbers, mut rest, mut at) = (self.widths(), [0; 6], bits, 0);
        while at < numbers.len() {
            numbers[at] = (rest >> (64 - widths[at])) as u8;
            rest <<= widths[at];
            at += 1;
        }
        let [kind, transaction, record, offset, count, value] = numbers;
        (Fields { kind, transaction, record, offset, count, value }, rest == 0)
    }

    /// The bits of a word with these fields at the top. A number too large for its field keeps its low bits only.
    pub(crate) const fn join(self, fields: &Fields) -> u64 {
        let Fields { kind, transaction, record, offset, count, value } = *fields;
        let (widths, numbers) = (self.widths(), [kind, transaction, record, offset, count, value]);
        let (mut bits, mut behind, mut at) = (0, 64, 0);
        while at < numbers.len() {
            behind -= widths[at];
            bits |= (numbers[at] as u64 & ((1 << widths[at]) - 1)) << behind;
            at += 1;
        }
        bits
    }

    /// The fields of a word; none if it has another length, or a bit behind its fields.
    pub fn fields(self, word: &[u8]) -> Option<Fields> {
        let mut bits = [0; 8];
        bits.get_mut(..self.event_bytes).filter(|bits| bits.len() == word.len())?.copy_from_slice(word);
        let (fields, is_whole) = self.split(u64::from_be_bytes(bits));
        is_whole.then_some(fields)
    }

    /// The word of the fields. A number too large for its field keeps its low bits only.
    pub fn word(self, fields: Fields) -> Vec<u8> {
        self.join(&fields).to_be_bytes()[..self.event_bytes].to_vec()
    }
}
