//! What page 0 of edition 2 says, in words. Ordinary code, for showing a store; the engine reads the page itself.

use super::limits::RECORDS;
use crate::{CommitPageOf, Edition, MapOf, NoIdentity, Page};

/// What page 0 says. Nothing is prepared.
pub type CommitPage = CommitPageOf<RECORDS, NoIdentity>;

/// The records that a committed page names.
pub type Map = MapOf<RECORDS>;

impl CommitPage {
    /// Reads a commit page: edition 4 bits, state 4, map 64, count 7, then zeros.
    ///
    /// ```
    /// use nekahuiro::edition2::{CommitPage, Record};
    /// let mut page = [0; 32];
    /// page[..10].copy_from_slice(&[0x25, 0x90, 0, 0, 0, 0, 0, 0, 1, 6]);
    /// let CommitPage::Committed(map) = CommitPage::of(&page) else { panic!() };
    /// assert_eq!(map.records().map(Record::number).collect::<Vec<_>>(), [0, 3, 63]);
    /// page[0] = 0x15;
    /// assert_eq!(CommitPage::of(&page), CommitPage::Damaged("its edition isn't 2"));
    /// ```
    pub fn of(page: &Page) -> CommitPage {
        Edition::SECOND.commit_page(page)
    }
}
