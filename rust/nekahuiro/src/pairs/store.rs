//! A store on pages that can tear: 33 pairs of copies, played on by the proved engine.

use super::limits::{BAD, COPY_BYTES, COPY_WRITE_BYTES, GOOD, PAIR_BYTES, STORE_BYTES};
use super::{CopyWrite, Half, PageCopy};
use crate::answer::Refusal;
use crate::form::Form;
use crate::limits::{EVENT_BYTES, PAGES, PAGE_BYTES};
use crate::raw::pairs as raw;
use crate::{Cut, Edition, NoIdentity, Page, PageWrite, State, StoreOf, Work};

/// The form of the store whose pages can tear.
#[derive(Clone, Debug, PartialEq, Eq)]
pub struct Pairs;

/// The stable store, owned: 2,178 bytes. A page is what its first good copy says.
///
/// ```
/// use nekahuiro::{pairs, Clock, Limit, Record, Refusal};
/// assert_eq!(pairs::Store::of(nekahuiro::Store::fresh().bytes()), Err(Refusal::Store)); // no store of pairs
///
/// let mut store = pairs::Store::fresh();
/// store.bytes_mut()[66 * 20] = 0; // the first copy of page 20 is bad: the second counts
/// let record = Record::new(3).unwrap();
/// assert!(store.age(record, Clock(5), Limit(4)).is_ok());
/// store.bytes_mut()[66 * 20 + 33] = 0;
/// assert_eq!(store.age(record, Clock(5), Limit(4)), Err(Refusal::Damaged));
/// ```
pub type Store = StoreOf<Pairs>;

impl Form for Pairs {
    const EDITION: Edition = Edition::PAIRS;
    type Bytes = [u8; STORE_BYTES];
    type Identity = NoIdentity;
    type Cut = Cut;
    type Write = CopyWrite;

    fn zeros() -> Self::Bytes {
        [0; STORE_BYTES]
    }

    fn page(store: &Self::Bytes, number: usize) -> Option<Page> {
        first_good(store, number).map(|half| copy_in(store, number, half).bytes)
    }

    fn writes(write: PageWrite) -> Vec<CopyWrite> {
        Half::BOTH.map(|half| CopyWrite { page: write.page, half, bytes: write.bytes }).to_vec()
    }

    /// Of each pair that isn't good and alike, the copy that isn't its first good one. Nothing where a recovery is
    /// refused: some page has no good copy, or page 0 is damaged. An age is refused by the same words.
    fn mends(store: &Self::Bytes) -> Vec<CopyWrite> {
        if Pairs::age(store, 0, 0, 0, &mut 0) == Refusal::Damaged.number() {
            return Vec::new();
        }
        (0..PAGES as u8).filter_map(|page| mend(store, page)).collect()
    }

    fn fresh(store: &mut [u8]) -> u8 {
        raw::fresh(store)
    }

    fn run(store: &mut [u8], events: &[u8], work: &mut [u8], answers: &mut [u8]) -> u8 {
        raw::run(store, events, work, answers)
    }

    fn portion(state: &mut State, store: &mut [u8], events: &[u8], work: &mut [u8], answers: &mut [u8]) -> u8 {
        raw::portion(state, store, events, work, answers)
    }

    fn write(state: &State, store: &[u8], word: &[u8; EVENT_BYTES], work: &[u8], index: u8) -> Result<CopyWrite, u8> {
        let mut write = [0; COPY_WRITE_BYTES];
        match raw::page_write(state, store, word, work, index, &mut write) {
            0 => Ok(CopyWrite::of(write)),
            number => Err(number),
        }
    }

    fn age(store: &[u8], record: u8, clock: u32, limit: u32, age: &mut i64) -> u8 {
        raw::age(store, record, clock, limit, age)
    }
}

/// Where a copy begins.
fn place(page: usize, half: Half) -> usize {
    page * PAIR_BYTES + half as usize * COPY_BYTES
}

/// A copy of a page; a bad one of zeros if there is no such page.
fn copy_in(store: &[u8; STORE_BYTES], page: usize, half: Half) -> PageCopy {
    match store.get(place(page, half)..).and_then(|rest| rest.first_chunk::<COPY_BYTES>()) {
        Some([status, bytes @ ..]) => PageCopy { status: *status, bytes: *bytes },
        None => PageCopy { status: BAD, bytes: [0; PAGE_BYTES] },
    }
}

/// The first good copy of a page, if there is one.
fn first_good(store: &[u8; STORE_BYTES], page: usize) -> Option<Half> {
    Half::BOTH.into_iter().find(|half| copy_in(store, page, *half).is_good())
}

/// The copy write that mends a page; none if it is good and alike, or all bad.
fn mend(store: &[u8; STORE_BYTES], page: u8) -> Option<CopyWrite> {
    let copy = |half| copy_in(store, page.into(), half);
    let (half, good) = match first_good(store, page.into())? {
        Half::First => (Half::Second, copy(Half::First)),
        Half::Second => (Half::First, copy(Half::Second)),
    };
    (copy(half) != good).then_some(CopyWrite { page, half, bytes: good.bytes })
}

impl Store {
    /// A copy of a page; a bad one of zeros if there is no such page.
    pub fn copy(&self, page: usize, half: Half) -> PageCopy {
        copy_in(self.bytes(), page, half)
    }

    /// Which copy of a page counts: the first that is good, if one is.
    pub fn first_good(&self, page: usize) -> Option<Half> {
        first_good(self.bytes(), page)
    }

    /// Whether every page is a pair of good copies that are alike, as they are while up.
    pub fn is_whole(&self) -> bool {
        let is_whole = |page| Half::BOTH.map(|half| self.copy(page, half)) == [self.copy(page, Half::First); 2];
        (0..PAGES).all(|page| self.copy(page, Half::First).is_good() && is_whole(page))
    }

    /// The copy writes that mend the store, as a recovery does before its first page write. None where a recovery is
    /// refused.
    ///
    /// ```
    /// use nekahuiro::pairs::{Half, Store};
    /// let mut store = Store::fresh();
    /// store.bytes_mut()[66 * 20] = 0;
    /// let mends = store.mends();
    /// assert_eq!((mends.len(), mends[0].page, mends[0].half), (1, 20, Half::First));
    /// ```
    pub fn mends(&self) -> Vec<CopyWrite> {
        Pairs::mends(self.bytes())
    }

    /// Makes a copy write: the copy is good then, with its bytes. What a medium does that loses no power.
    pub fn make(&mut self, write: &CopyWrite) {
        self.set(write.page, write.half, PageCopy { status: GOOD, bytes: write.bytes });
    }

    /// Leaves what a copy write leaves within which the power goes: the copy is bad, with the bytes that it had.
    pub fn spoil(&mut self, write: &CopyWrite) {
        let old = self.copy(write.page.into(), write.half);
        self.set(write.page, write.half, PageCopy { status: BAD, ..old });
    }

    fn set(&mut self, page: u8, half: Half, PageCopy { status, bytes }: PageCopy) {
        if let Some(copy) = self.bytes_mut().get_mut(place(page.into(), half)..).and_then(<[u8]>::first_chunk_mut) {
            let copy: &mut [u8; COPY_BYTES] = copy;
            copy[0] = status;
            copy[1..].copy_from_slice(&bytes);
        }
    }

    /// The copy writes that an event word makes on this store, state and working buffer if nothing cuts it, in their
    /// order: of each page write the first copy, then the second. None if the event is refused or writes no page. What
    /// mends the store before a recovery isn't among them. Nothing is played.
    ///
    /// ```
    /// use nekahuiro::pairs::{Event, Half, Store};
    /// use nekahuiro::{State, Work};
    /// let (mut store, mut state, mut work) = (Store::fresh(), State::new(), Work::new());
    /// for line in ["recover", "begin none", "lock 0 3", "write 0 3 2 A5"] {
    ///     store.portion(&mut state, &mut work, &[line.parse()?])?;
    /// }
    /// let commit: Event = "commit 0".parse()?;
    /// let writes = store.copy_writes(&state, &work, commit.word())?;
    /// let pages: Vec<u8> = writes.iter().map(|write| write.page).collect();
    /// assert_eq!(pages, [4, 4, 0, 0, 20, 20, 0, 0]); // each page first and second copy
    /// assert_eq!((writes[2].half, writes[3].half), (Half::First, Half::Second));
    /// # Ok::<(), Box<dyn std::error::Error>>(())
    /// ```
    pub fn copy_writes(&self, state: &State, work: &Work, word: [u8; EVENT_BYTES]) -> Result<Vec<CopyWrite>, Refusal> {
        self.writes(state, work, word)
    }
}
