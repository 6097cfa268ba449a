//! The stable store: the commit page, then intention pages, then home pages, on the medium of its form.

use crate::event::{CutOf, Identity, Record};
use crate::form::{Bytes, Form, Plain};
use crate::limits::{PAGE_BYTES, RECORDS, STORE_BYTES};
use crate::medium::Medium;
use crate::planted::{Bug, Planted};

/// The bytes of one page.
pub type Page = [u8; PAGE_BYTES];

const STATE_EMPTY: u8 = 0;
const STATE_PREPARED: u8 = 3;
const STATE_COMMITTED: u8 = 5;

/// What page 0 says.
#[derive(Clone, Debug, PartialEq, Eq)]
pub enum CommitPage {
    /// Nothing is under way.
    Empty,
    /// These records, rising, are settled in their intention pages.
    Committed(Vec<Record>),
    /// A transaction that changed these records, rising, waits for the decision on its identity.
    Prepared(Vec<Record>, Identity),
    /// None of these.
    Damaged,
}

/// Which page is to be written.
#[derive(Clone, Copy, Debug, PartialEq, Eq)]
pub enum Place {
    /// Page 0.
    Commit,
    /// Page 1 + r.
    Intention(Record),
    /// Behind all intention pages: page 17 + r where there are sixteen records.
    Home(Record),
}

impl Place {
    /// The number of the page where there are sixteen records.
    pub fn number(self) -> u8 {
        self.number_among(RECORDS)
    }

    /// The number of the page where there are so many records.
    pub fn number_among(self, records: usize) -> u8 {
        match self {
            Place::Commit => 0,
            Place::Intention(record) => 1 + record.0,
            Place::Home(record) => 1 + records as u8 + record.0,
        }
    }
}

/// A lent store of the right length.
pub struct Stable<'s, F: Form> {
    bytes: &'s mut F::Bytes,
    /// The bug that is planted.
    pub(crate) planted: Planted,
}

/// The same in the plain form.
pub type Store<'s> = Stable<'s, Plain>;

impl<'s, F: Form> Stable<'s, F> {
    /// The store in these bytes, or none if their number is wrong.
    pub fn over(bytes: &'s mut [u8]) -> Option<Self> {
        Some(Stable { bytes: F::Bytes::over_mut(bytes)?, planted: Planted::default() })
    }

    /// A copy of a page; zeros where nothing of it is good.
    pub fn page(&self, place: Place) -> Page {
        page_of::<F>(self.bytes, place, self.planted).unwrap_or([0; PAGE_BYTES])
    }

    /// Writes a whole page.
    pub fn write(&mut self, place: Place, page: &Page) {
        F::Medium::write(self.space(place), page);
    }

    /// Leaves what a write of a page leaves where the power goes; whether it counts as made.
    pub fn tear(&mut self, place: Place, page: &Page, cut: CutOf<F>) -> bool {
        let planted = self.planted;
        F::Medium::tear(self.space(place), page, cut, planted)
    }

    fn space(&mut self, place: Place) -> &mut [u8] {
        let at = start::<F>(place, self.planted);
        &mut self.bytes.as_mut()[at..at + F::Medium::SPACE]
    }

    /// One byte of a record's home page.
    pub fn home_byte(&self, record: Record, offset: u8) -> u8 {
        let page = read::<F>(self.bytes, Place::Home(record), self.planted);
        page.map_or(0, |page| page[usize::from(offset)])
    }

    /// What page 0 says.
    pub fn commit_page(&self) -> CommitPage {
        commit_page_as::<F>(self.bytes, self.planted)
    }

    /// Whether something of each page is good, so that all can be mended.
    pub fn is_mendable(&self) -> bool {
        is_mendable::<F>(self.bytes, self.planted)
    }

    /// Puts right what torn writes left; how many pages that were.
    pub fn mend(&mut self) -> usize {
        let spaces = self.bytes.as_mut().chunks_exact_mut(F::Medium::SPACE);
        let uneven = spaces.filter(|space| !F::Medium::is_even(space));
        uneven.map(|space| F::Medium::mend(space, self.planted)).count()
    }

    /// Whether there is nothing to mend.
    pub fn is_even(&self) -> bool {
        self.bytes.as_ref().chunks_exact(F::Medium::SPACE).all(F::Medium::is_even)
    }
}

fn start<F: Form>(place: Place, planted: Planted) -> usize {
    let slip = usize::from(matches!(place, Place::Home(_)) && planted.is(Bug::HomeOnePageEarly));
    F::Medium::SPACE * (usize::from(place.number_among(F::RECORDS)) - slip)
}

fn read<F: Form>(store: &F::Bytes, place: Place, planted: Planted) -> Option<&[u8]> {
    let at = start::<F>(place, planted);
    F::Medium::read(&store.as_ref()[at..at + F::Medium::SPACE], planted)
}

fn page_of<F: Form>(store: &F::Bytes, place: Place, planted: Planted) -> Option<Page> {
    let mut page = [0; PAGE_BYTES];
    page.copy_from_slice(read::<F>(store, place, planted)?);
    Some(page)
}

fn is_mendable<F: Form>(store: &F::Bytes, planted: Planted) -> bool {
    let asked = if planted.is(Bug::OtherPagesUnasked) { 1 } else { F::PAGES };
    let mut spaces = store.as_ref().chunks_exact(F::Medium::SPACE).take(asked);
    !F::Medium::TEARS || spaces.all(|space| F::Medium::read(space, planted).is_some())
}

/// What page 0 of a plain store says.
pub fn commit_page(store: &[u8; STORE_BYTES]) -> CommitPage {
    commit_page_as::<Plain>(store, Planted::default())
}

/// What page 0 of a form's store says; where nothing of it is good it is damaged.
pub(crate) fn commit_page_as<F: Form>(store: &F::Bytes, planted: Planted) -> CommitPage {
    match read::<F>(store, Place::Commit, planted).map(<&Page>::try_from) {
        Some(Ok(page)) => read_commit_page::<F>(page, planted),
        _ => CommitPage::Damaged,
    }
}

/// A record's settled value in a plain store, or none if page 0 is damaged. What is only prepared isn't settled.
pub fn settled_if_sound(store: &[u8; STORE_BYTES], record: Record) -> Option<Page> {
    settled::<Plain>(store, record, Planted::default())
}

/// A record's settled value, or none if page 0 is damaged or nothing of some page is good.
pub(crate) fn settled<F: Form>(store: &F::Bytes, record: Record, planted: Planted) -> Option<Page> {
    let place = match commit_page_as::<F>(store, planted) {
        CommitPage::Damaged => return None,
        CommitPage::Committed(named) if named.contains(&record) => Place::Intention(record),
        _ => Place::Home(record),
    };
    is_mendable::<F>(store, planted).then(|| page_of::<F>(store, place, planted))?
}

/// The empty commit page.
pub(crate) fn empty_page<F: Form>() -> Page {
    let mut page = [0; PAGE_BYTES];
    page[0] = F::EDITION << 4 | STATE_EMPTY;
    page
}

/// The commit page that names these records as committed.
pub(crate) fn committed_page<F: Form>(named: &[Record], planted: Planted) -> Page {
    naming::<F>(STATE_COMMITTED, named, planted)
}

/// The commit page of a transaction that changed these records and is prepared under an identity.
pub(crate) fn prepared_page<F: Form>(named: &[Record], identity: Identity, planted: Planted) -> Page {
    let mut page = naming::<F>(STATE_PREPARED, named, planted);
    page[4] = identity.0;
    page
}

/// Edition and state in the first byte, then a bit for each record, then the count in the bits that hold the number
/// of all records.
fn naming<F: Form>(state: u8, named: &[Record], planted: Planted) -> Page {
    let map = named.iter().fold(0u64, |map, record| map | 1 << 63 >> record.0);
    let map = if planted.is(Bug::MapOfHalf) { map & 0xFFFF_FFFF_0000_0000 } else { map };
    let count_at = 1 + F::RECORDS / 8;
    let mut page = [0; PAGE_BYTES];
    page[0] = F::EDITION << 4 | state;
    page[1..count_at].copy_from_slice(&map.to_be_bytes()[..F::RECORDS / 8]);
    let behind = F::RECORDS.leading_zeros() - (usize::BITS - 8);
    let behind = if planted.is(Bug::CountOneBitLate) { behind - 1 } else { behind };
    page[count_at] = (named.len() as u8) << behind;
    page
}

/// A page is good exactly if it is empty, or a page that its own map, with its own fifth byte, calls for.
fn read_commit_page<F: Form>(page: &Page, planted: Planted) -> CommitPage {
    let page = if planted.is(Bug::EditionUnasked) { &of_this_edition::<F>(page) } else { page };
    if *page == empty_page::<F>() {
        return CommitPage::Empty;
    }
    let is_named = |record: &Record| page[1 + usize::from(record.0) / 8] & 0x80 >> (record.0 % 8) != 0;
    let named: Vec<Record> = (0..F::RECORDS as u8).map(Record).filter(is_named).collect();
    let identity = Identity(page[4]);
    let two_phases = F::TWO_PHASES || planted.is(Bug::PreparedPageTaken);
    if named.is_empty() {
        CommitPage::Damaged
    } else if *page == committed_page::<F>(&named, planted) {
        CommitPage::Committed(named)
    } else if two_phases && *page == prepared_page::<F>(&named, identity, planted) {
        CommitPage::Prepared(named, identity)
    } else {
        CommitPage::Damaged
    }
}

/// Only a planted bug does this.
fn of_this_edition<F: Form>(page: &Page) -> Page {
    let mut page = *page;
    page[0] = F::EDITION << 4 | page[0] & 15;
    page
}
