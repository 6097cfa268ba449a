//! A store: 33 pages, played on by the proved engine.

use crate::age::{Clock, Limit, Verdict};
use crate::answer::{Answer, Refusal};
use crate::commit_page::{CommitPageOf, Page};
use crate::event::{encode, EventOf};
use crate::form::{First, Form};
use crate::limits::{ANSWER_BYTES, EVENT_BYTES, PAGE_BYTES, RECORDS, WORK_BYTES};
use crate::page_write::NO_SUCH_WRITE;
use crate::{PageWrite, Record, State, Work};

/// The stable store of a form, owned.
#[derive(Clone, Debug, PartialEq, Eq)]
pub struct StoreOf<F: Form> {
    bytes: F::Bytes,
}

/// An event of a form.
type EventIn<F> = EventOf<RECORDS, <F as Form>::Identity, <F as Form>::Cut>;

/// What page 0 of a form says.
type CommitPageIn<F> = CommitPageOf<RECORDS, <F as Form>::Identity>;

/// The stable store, owned.
///
/// ```
/// use nekahuiro::{Event, Store};
/// let mut store = Store::fresh();
/// let list = ["recover 63", "begin none", "lock 0 3", "write 0 3 2 A5", "commit 0 2"];
/// let events = list.map(|line| line.parse::<Event>().unwrap());
/// let answers = store.play(&events)?;
/// assert!(answers[4].is_cut()); // after one intention page and the commit page: it survives
/// assert_eq!(store.settled(nekahuiro::Record::new(3).unwrap())[2], 0xA5);
/// # Ok::<(), nekahuiro::Refusal>(())
/// ```
pub type Store = StoreOf<First>;

/// Which page a record's settled value stands in.
#[derive(Clone, Copy, Debug, PartialEq, Eq)]
pub enum Place {
    /// Its intention page, page 1 + r.
    Intention,
    /// Its home page, page 17 + r.
    Home,
}

impl<F: Form> StoreOf<F> {
    /// A fresh store: an empty commit page and zeros elsewhere.
    pub fn fresh() -> Self {
        let mut bytes = F::zeros();
        // The length is right, so this can't be refused.
        F::fresh(bytes.as_mut());
        StoreOf { bytes }
    }

    /// The store in these bytes, which may be anything as long as their number is right.
    pub fn of(bytes: &[u8]) -> Result<Self, Refusal> {
        bytes.try_into().map(|bytes| StoreOf { bytes }).map_err(|_| Refusal::Store)
    }

    /// All bytes.
    pub fn bytes(&self) -> &F::Bytes {
        &self.bytes
    }

    /// All bytes, to change.
    pub fn bytes_mut(&mut self) -> &mut F::Bytes {
        &mut self.bytes
    }

    /// Plays a list of events: one answer each. A run starts down, so the first event that can do
    /// anything is a recover.
    pub fn play(&mut self, events: &[EventIn<F>]) -> Result<Vec<Answer>, Refusal> {
        self.play_words(&encode(events))
    }

    /// As [`Store::play`], for event words in plain bytes, which may also be bad events.
    pub fn play_words(&mut self, words: &[u8]) -> Result<Vec<Answer>, Refusal> {
        let mut work = vec![0; WORK_BYTES];
        let mut answers = vec![0; words.len() / EVENT_BYTES * ANSWER_BYTES];
        self.play_lent(words, &mut work, &mut answers)?;
        Ok(answers_of(&answers))
    }

    /// As [`Store::play_words`], with buffers lent by the caller: no memory is asked for.
    pub fn play_lent(&mut self, words: &[u8], work: &mut [u8], answers: &mut [u8]) -> Result<(), Refusal> {
        match F::run(self.bytes.as_mut(), words, work, answers) {
            0 => Ok(()),
            number => Err(Refusal::of(number)),
        }
    }

    /// Plays a portion of events, be it one: one answer each, as in one run over the joined portions.
    /// State and working buffer are kept for the next portion, and nobody else may write them or the
    /// store between. A refused portion changes nothing and adds no event.
    ///
    /// ```
    /// use nekahuiro::{Event, State, Store, Work};
    /// let (mut store, mut state, mut work) = (Store::fresh(), State::new(), Work::new());
    /// for line in ["recover 63", "begin none", "lock 0 3", "write 0 3 2 A5", "commit 0 63"] {
    ///     let event: Event = line.parse()?;
    ///     let answers = store.portion(&mut state, &mut work, &[event])?;
    ///     assert!(answers[0].is_accepted());
    /// }
    /// assert!(state.is_up() && state.live().next().is_none());
    /// # Ok::<(), Box<dyn std::error::Error>>(())
    /// ```
    pub fn portion(
        &mut self,
        state: &mut State,
        work: &mut Work,
        events: &[EventIn<F>],
    ) -> Result<Vec<Answer>, Refusal> {
        self.portion_words(state, work, &encode(events))
    }

    /// As [`Store::portion`], for event words in plain bytes, which may also be bad events.
    ///
    /// ```
    /// use nekahuiro::{Refusal, State, Store, Work};
    /// let (mut store, mut state, mut work) = (Store::fresh(), State::new(), Work::new());
    /// state.parent[0] = 7; // number 0 is free, so it has no parent
    /// assert_eq!(store.portion_words(&mut state, &mut work, &[0x80, 0, 0x3F, 0]), Err(Refusal::State));
    /// ```
    pub fn portion_words(&mut self, state: &mut State, work: &mut Work, words: &[u8]) -> Result<Vec<Answer>, Refusal> {
        let mut answers = vec![0; words.len() / EVENT_BYTES * ANSWER_BYTES];
        self.portion_lent(state, words, work.bytes_mut(), &mut answers)?;
        Ok(answers_of(&answers))
    }

    /// As [`Store::portion_words`], with buffers lent by the caller: no memory is asked for.
    pub fn portion_lent(
        &mut self,
        state: &mut State,
        words: &[u8],
        work: &mut [u8],
        answers: &mut [u8],
    ) -> Result<(), Refusal> {
        match F::portion(state, self.bytes.as_mut(), words, work, answers) {
            0 => Ok(()),
            number => Err(Refusal::of(number)),
        }
    }

    /// The write to the medium of this number, from 0, that an event word makes on this store, state and working buffer
    /// if nothing cuts it: a page, or a copy of one; none if there are fewer. No memory is asked for.
    pub fn write(
        &self,
        state: &State,
        work: &Work,
        word: [u8; EVENT_BYTES],
        index: u8,
    ) -> Result<Option<F::Write>, Refusal> {
        match F::write(state, self.bytes.as_ref(), &word, work.bytes(), index) {
            Ok(write) => Ok(Some(write)),
            Err(NO_SUCH_WRITE) => Ok(None),
            Err(number) => Err(Refusal::of(number)),
        }
    }

    /// All of [`StoreOf::write`], in their order.
    pub(crate) fn writes(&self, state: &State, work: &Work, word: [u8; EVENT_BYTES]) -> Result<Vec<F::Write>, Refusal> {
        (0..=u8::MAX).map_while(|index| self.write(state, work, word, index).transpose()).collect()
    }

    /// How old a record is at a clock reading.
    pub fn age(&self, record: Record, clock: Clock, limit: Limit) -> Result<Verdict, Refusal> {
        let mut age = 0;
        let answer = F::age(self.bytes.as_ref(), record.number(), clock.0, limit.0, &mut age);
        Verdict::of(answer, age)
    }

    /// What page 0 says.
    pub fn commit_page(&self) -> CommitPageIn<F> {
        F::EDITION.commit_page(&self.page(0))
    }

    /// Where a record's settled value stands.
    pub fn place(&self, record: Record) -> Place {
        match self.commit_page() {
            CommitPageOf::Committed(map) if map.names(record) => Place::Intention,
            _ => Place::Home,
        }
    }

    /// A record's settled value.
    pub fn settled(&self, record: Record) -> Page {
        let number = usize::from(record.number());
        match self.place(record) {
            Place::Intention => self.page(1 + number),
            Place::Home => self.page(1 + RECORDS + number),
        }
    }

    /// A page by its number; zeros if there is no such page, or nothing of it is good.
    pub fn page(&self, number: usize) -> Page {
        F::page(&self.bytes, number).unwrap_or([0; PAGE_BYTES])
    }
}

impl Store {
    /// The page writes that an event word makes on this store, state and working buffer if nothing cuts it,
    /// in their order. None if the event is refused or writes no page. Nothing is played.
    ///
    /// ```
    /// use nekahuiro::{Event, State, Store, Work};
    /// let (mut store, mut state, mut work) = (Store::fresh(), State::new(), Work::new());
    /// for line in ["recover 63", "begin none", "lock 0 3", "write 0 3 2 A5"] {
    ///     store.portion(&mut state, &mut work, &[line.parse()?])?;
    /// }
    /// let commit: Event = "commit 0 63".parse()?;
    /// let writes = store.page_writes(&state, &work, commit.word())?;
    /// let pages: Vec<u8> = writes.iter().map(|write| write.page).collect();
    /// assert_eq!(pages, [4, 0, 20, 0]); // intention page, commit page, home page, empty page
    /// # Ok::<(), Box<dyn std::error::Error>>(())
    /// ```
    pub fn page_writes(&self, state: &State, work: &Work, word: [u8; EVENT_BYTES]) -> Result<Vec<PageWrite>, Refusal> {
        self.writes(state, work, word)
    }

    /// The one of [`Store::page_writes`] with this number, from 0, if there is one. No memory is asked for.
    pub fn page_write(
        &self,
        state: &State,
        work: &Work,
        word: [u8; EVENT_BYTES],
        index: u8,
    ) -> Result<Option<PageWrite>, Refusal> {
        self.write(state, work, word, index)
    }
}

fn answers_of(bytes: &[u8]) -> Vec<Answer> {
    bytes.chunks_exact(ANSWER_BYTES).map(|pair| Answer::of([pair[0], pair[1]])).collect()
}
