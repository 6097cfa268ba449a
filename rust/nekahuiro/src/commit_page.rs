//! What page 0 says, in words. Ordinary code, for showing a store; the engine reads the page itself.

use crate::limits::{PAGE_BYTES, RECORDS};
use crate::{Edition, Identifies, Identity, RecordOf};

/// The bytes of one page.
pub type Page = [u8; PAGE_BYTES];

/// What page 0 says, of so many records. Where there is no identity, nothing is prepared.
#[derive(Clone, Copy, Debug, PartialEq, Eq)]
pub enum CommitPageOf<const RECORDS: usize, I> {
    /// Nothing is under way: every record is settled in its home page.
    Empty,
    /// A commit is under way: the named records are settled in their intention pages.
    Committed(MapOf<RECORDS>),
    /// A transaction that changed the named records is prepared and waits for the decision on its identity.
    /// They are settled in their home pages, and locked for everybody.
    Prepared(MapOf<RECORDS>, I),
    /// The page is none of these; the text says why.
    Damaged(&'static str),
}

/// What page 0 says.
pub type CommitPage = CommitPageOf<RECORDS, Identity>;

/// The records that a committed or prepared page names: the first is the top bit.
#[derive(Clone, Copy, Debug, PartialEq, Eq)]
pub struct MapOf<const RECORDS: usize>(u64);

/// The records that a committed or prepared page names.
pub type Map = MapOf<RECORDS>;

impl<const RECORDS: usize> MapOf<RECORDS> {
    /// Whether it names the record.
    pub fn names(self, record: RecordOf<RECORDS>) -> bool {
        self.0 & 1 << 63 >> record.number() != 0
    }

    /// The records named, rising.
    pub fn records(self) -> impl Iterator<Item = RecordOf<RECORDS>> {
        RecordOf::all().filter(move |record| self.names(*record))
    }
}

const STATE_EMPTY: u8 = 0;
const STATE_PREPARED: u8 = 3;
const STATE_COMMITTED: u8 = 5;

impl CommitPage {
    /// Reads a commit page.
    ///
    /// ```
    /// use nekahuiro::{CommitPage, Record};
    /// let mut page = [0; 32];
    /// page[..4].copy_from_slice(&[0x15, 0x90, 0x00, 0x10]);
    /// let CommitPage::Committed(map) = CommitPage::of(&page) else { panic!() };
    /// assert_eq!(map.records().map(Record::number).collect::<Vec<_>>(), [0, 3]);
    /// page[..5].copy_from_slice(&[0x13, 0x90, 0x00, 0x10, 0x2A]);
    /// assert_eq!(CommitPage::of(&page), CommitPage::Prepared(map, nekahuiro::Identity(0x2A)));
    /// ```
    pub fn of(page: &Page) -> CommitPage {
        Edition::FIRST.commit_page(page)
    }
}

impl Edition {
    /// Reads a commit page of this edition: edition 4 bits, state 4, a bit for each record, their number; where one can
    /// be prepared, its identity in a byte; then zeros.
    pub fn commit_page<const RECORDS: usize, I: Identifies>(self, page: &Page) -> CommitPageOf<RECORDS, I> {
        use CommitPageOf::{Committed, Damaged, Empty, Prepared};
        let (edition, state) = (page[0] >> 4, page[0] & 15);
        let (map, rest) = page[1..].split_at(self.records / 8);
        let map = map.iter().fold(0, |map, byte| map << 8 | u64::from(*byte)) << (64 - self.records);
        let (count, stray) = (u32::from(rest[0] >> (7 - self.record_bits)), rest[0] << (self.record_bits + 1));
        let prepared = I::of(rest[1]).filter(|_| self.two_phases && state == STATE_PREPARED);
        let zeros = if prepared.is_some() { &rest[2..] } else { &rest[1..] };
        if edition != self.number {
            Damaged(if self.number == 1 { "its edition isn't 1" } else { "its edition isn't 2" })
        } else if stray != 0 || zeros.iter().any(|byte| *byte != 0) {
            Damaged("a bit that must be 0 is 1")
        } else if count != map.count_ones() {
            Damaged("its count isn't the number of records in its map")
        } else if state == STATE_EMPTY && map == 0 {
            Empty
        } else if state == STATE_EMPTY {
            Damaged("it says empty but names records")
        } else if state == STATE_COMMITTED && map != 0 {
            Committed(MapOf(map))
        } else if state == STATE_COMMITTED {
            Damaged("it says committed but names no record")
        } else if let Some(identity) = prepared {
            if map == 0 {
                Damaged("it says prepared but names no record")
            } else {
                Prepared(MapOf(map), identity)
            }
        } else if self.two_phases {
            Damaged("its state is neither empty, prepared nor committed")
        } else {
            Damaged("its state is neither empty nor committed")
        }
    }
}
