//! A store of edition 2: 129 pages, played on by the proved engine.

use super::limits::{EVENT_BYTES, RECORDS, STORE_BYTES, WORK_BYTES};
use super::{encode, CommitPage, Event, Record, Refusal};
use crate::limits::{ANSWER_BYTES, PAGE_BYTES, PAGE_WRITE_BYTES};
use crate::page_write::NO_SUCH_WRITE;
use crate::raw::edition2 as raw;
use crate::{Answer, Clock, Limit, Page, PageWrite, Place, Verdict};

/// The stable store, owned.
#[derive(Clone, Debug, PartialEq, Eq)]
pub struct Store {
    bytes: [u8; STORE_BYTES],
}

impl Store {
    /// A fresh store: an empty commit page and zeros elsewhere.
    pub fn fresh() -> Store {
        let mut bytes = [0; STORE_BYTES];
        // The length is right, so this can't be refused.
        raw::fresh(&mut bytes);
        Store { bytes }
    }

    /// The store in these bytes, which may be anything as long as their number is right.
    ///
    /// ```
    /// use nekahuiro::edition2::{Refusal, Store};
    /// assert_eq!(Store::of(nekahuiro::Store::fresh().bytes()), Err(Refusal::Store)); // a store of edition 1
    /// ```
    pub fn of(bytes: &[u8]) -> Result<Store, Refusal> {
        bytes.try_into().map(|bytes| Store { bytes }).map_err(|_| Refusal::Store)
    }

    /// All bytes.
    pub fn bytes(&self) -> &[u8; STORE_BYTES] {
        &self.bytes
    }

    /// All bytes, to change.
    pub fn bytes_mut(&mut self) -> &mut [u8; STORE_BYTES] {
        &mut self.bytes
    }

    /// Plays a list of events: one answer each. A run starts down, so the first event that can do
    /// anything is a recover.
    pub fn play(&mut self, events: &[Event]) -> Result<Vec<Answer>, Refusal> {
        self.play_words(&encode(events))
    }

    /// As [`Store::play`], for event words in plain bytes, which may also be bad events.
    ///
    /// ```
    /// use nekahuiro::edition2::{Refusal, Store};
    /// let mut store = Store::fresh();
    /// assert_eq!(store.play_words(&[0x80, 0, 0x0F, 0xF0]), Err(Refusal::List)); // half a word
    /// let answers = store.play_words(&[0x80, 0, 0x0F, 0xF0, 0, 0, 0, 0])?;
    /// assert!(answers[0].is_accepted());
    /// # Ok::<(), Refusal>(())
    /// ```
    pub fn play_words(&mut self, words: &[u8]) -> Result<Vec<Answer>, Refusal> {
        let mut work = vec![0; WORK_BYTES];
        let mut answers = vec![0; words.len() / EVENT_BYTES * ANSWER_BYTES];
        self.play_lent(words, &mut work, &mut answers)?;
        Ok(answers.chunks_exact(ANSWER_BYTES).map(|pair| Answer::of([pair[0], pair[1]])).collect())
    }

    /// As [`Store::play_words`], with buffers lent by the caller: no memory is asked for.
    pub fn play_lent(&mut self, words: &[u8], work: &mut [u8], answers: &mut [u8]) -> Result<(), Refusal> {
        match raw::run(&mut self.bytes, words, work, answers) {
            0 => Ok(()),
            number => Err(Refusal::of(number)),
        }
    }

    /// The page writes that an event makes after a list, if nothing cuts it, in their order. None if the event is
    /// refused or writes no page. The list is played on a copy: this store stays, and a device programs the pages told.
    ///
    /// ```
    /// use nekahuiro::edition2::{Event, Store};
    /// let list = "recover 255, begin none, lock 0 63, write 0 63 2 A5, commit 0 255";
    /// let events: Vec<Event> = list.split(',').map(str::parse).collect::<Result<_, _>>()?;
    /// let writes = Store::fresh().page_writes(&events[..4], events[4])?;
    /// let pages: Vec<u8> = writes.iter().map(|write| write.page).collect();
    /// assert_eq!(pages, [64, 0, 128, 0]); // intention page, commit page, home page, empty page
    /// # Ok::<(), Box<dyn std::error::Error>>(())
    /// ```
    pub fn page_writes(&self, list: &[Event], event: Event) -> Result<Vec<PageWrite>, Refusal> {
        let mut work = vec![0; WORK_BYTES];
        let mut answers = vec![0; list.len() * ANSWER_BYTES];
        let (list, word) = (encode(list), event.word());
        let told = |index| self.page_write_lent(&list, word, index, &mut work, &mut answers).transpose();
        (0..=u8::MAX).map_while(told).collect()
    }

    /// The one of [`Store::page_writes`] with this number, from 0, if there is one: for event words in plain bytes, with
    /// buffers lent by the caller. The answers to the list are left in `answers`.
    pub fn page_write_lent(
        &self,
        list: &[u8],
        word: [u8; EVENT_BYTES],
        index: u8,
        work: &mut [u8],
        answers: &mut [u8],
    ) -> Result<Option<PageWrite>, Refusal> {
        let mut played = self.bytes;
        let mut write = [0; PAGE_WRITE_BYTES];
        match raw::page_write(&mut played, list, work, answers, &word, index, &mut write) {
            0 => Ok(Some(PageWrite::of(write))),
            NO_SUCH_WRITE => Ok(None),
            number => Err(Refusal::of(number)),
        }
    }

    /// How old a record is at a clock reading.
    pub fn age(&self, record: Record, clock: Clock, limit: Limit) -> Result<Verdict, Refusal> {
        let mut age = 0;
        let answer = raw::age(&self.bytes, record.number(), clock.0, limit.0, &mut age);
        Verdict::of(answer, age).map_err(|refusal| Refusal::of(refusal.number()))
    }

    /// What page 0 says.
    pub fn commit_page(&self) -> CommitPage {
        CommitPage::of(&self.page(0))
    }

    /// Where a record's settled value stands: in page 1 + r or in page 65 + r.
    pub fn place(&self, record: Record) -> Place {
        match self.commit_page() {
            CommitPage::Committed(map) if map.names(record) => Place::Intention,
            _ => Place::Home,
        }
    }

    /// A record's settled value.
    pub fn settled(&self, record: Record) -> Page {
        let number = usize::from(record.number());
        match self.place(record) {
            Place::Intention => self.page(1 + number),
            Place::Home => self.page(1 + RECORDS + number),
        }
    }

    /// A page by its number; zeros if there is no such page.
    pub fn page(&self, number: usize) -> Page {
        let mut page = [0; PAGE_BYTES];
        if let Some(bytes) = self.bytes.chunks_exact(PAGE_BYTES).nth(number) {
            page.copy_from_slice(bytes);
        }
        page
    }
}
