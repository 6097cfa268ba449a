//! Transactions by name: in memory, or through to a medium.

use crate::answer::{Answer, Refusal};
use crate::form::{First, Form};
use crate::limits::{ANSWER_BYTES, COUNT_LIMIT, EVENT_BYTES, PAGE_BYTES};
use crate::{Event, Identity, Page, PageWrite, Reason, Record, State, StoreOf, Transaction, Work};

/// What can be done with a store: on a [`Session`] in memory, or on a [`Device`](crate::Device) through to its
/// medium. All but [`Transact::play`] follows from it. What writes pages is sent with the count 63. Where pages can tear
/// nothing can be prepared: [`Transact::prepare`], [`Transact::decide`] and [`Transact::query`] are refused there, as
/// [`Reason::BadEvent`].
pub trait Transact {
    /// Why something isn't done.
    type Error: From<Reason>;

    /// Plays one event: the answer to an accepted one. A refused one is an error, and changes nothing.
    fn play(&mut self, event: Event) -> Result<Answer, Self::Error>;

    /// Comes up, after what a power cut may have left; the page writes made.
    fn recover(&mut self) -> Result<u8, Self::Error> {
        Ok(self.play(Event::Recover { count: COUNT_LIMIT })?.value)
    }

    /// Begins a transaction under a parent, or at the top.
    fn begin(&mut self, parent: Option<Transaction>) -> Result<Transaction, Self::Error> {
        let number = self.play(Event::Begin { parent: parent.unwrap_or(Transaction::NONE) })?.value;
        Transaction::new(number).ok_or_else(|| Reason::TooMany.into())
    }

    /// Locks a record, to read and to write.
    fn lock(&mut self, transaction: Transaction, record: Record) -> Result<(), Self::Error> {
        self.play(Event::Lock { transaction, record }).map(drop)
    }

    /// Locks a record, to read beside other readers.
    fn read_lock(&mut self, transaction: Transaction, record: Record) -> Result<(), Self::Error> {
        self.play(Event::ReadLock { transaction, record }).map(drop)
    }

    /// Writes a whole record, which is locked to write first. Refused, no byte is written.
    fn put(&mut self, transaction: Transaction, record: Record, bytes: &Page) -> Result<(), Self::Error> {
        self.lock(transaction, record)?;
        for (offset, value) in (0..).zip(*bytes) {
            self.play(Event::Write { transaction, record, offset, value })?;
        }
        Ok(())
    }

    /// Reads a whole record, which is locked to read first.
    fn get(&mut self, transaction: Transaction, record: Record) -> Result<Page, Self::Error> {
        self.read_lock(transaction, record)?;
        let mut bytes = [0; PAGE_BYTES];
        for (offset, byte) in (0..).zip(&mut bytes) {
            *byte = self.play(Event::Read { transaction, record, offset })?.value;
        }
        Ok(bytes)
    }

    /// Commits: a child to its parent, a top transaction to the store; the page writes made.
    fn commit(&mut self, transaction: Transaction) -> Result<u8, Self::Error> {
        Ok(self.play(Event::Commit { transaction, count: COUNT_LIMIT })?.value)
    }

    /// Aborts, with all live descendants.
    fn abort(&mut self, transaction: Transaction) -> Result<(), Self::Error> {
        self.play(Event::Abort { transaction, report: false }).map(drop)
    }

    /// Aborts, and the parent retains the locks, since it is told what was read.
    fn abort_with_report(&mut self, transaction: Transaction) -> Result<(), Self::Error> {
        self.play(Event::Abort { transaction, report: true }).map(drop)
    }

    /// Ends a top transaction whose changes then wait for the decision on an identity; the page writes made.
    fn prepare(&mut self, transaction: Transaction, identity: Identity) -> Result<u8, Self::Error> {
        Ok(self.play(Event::Prepare { transaction, count: COUNT_LIMIT, identity })?.value)
    }

    /// Carries out a decision: to commit, or else to abort; the page writes made, none if it isn't prepared.
    fn decide(&mut self, commit: bool, identity: Identity) -> Result<u8, Self::Error> {
        Ok(self.play(Event::Decide { commit, count: COUNT_LIMIT, identity })?.value)
    }

    /// Whether a transaction is prepared with an identity.
    fn query(&mut self, identity: Identity) -> Result<bool, Self::Error> {
        Ok(self.play(Event::Query { identity })?.value == 1)
    }
}

/// A store in memory with what is live on it: store, state and working buffer, which go together.
///
/// ```
/// use nekahuiro::{Reason, Record, Session, Store, Transact};
///
/// let (faults, as_of) = (Record::new(0).unwrap(), Record::new(1).unwrap());
/// let mut session = Session::new(Store::fresh());
/// assert_eq!(session.begin(None), Err(Reason::Down));
/// session.recover()?;
///
/// let top = session.begin(None)?;
/// for record in [faults, as_of] {
///     let child = session.begin(Some(top))?;
///     session.put(child, record, &[7; 32])?;
///     session.commit(child)?;
/// }
/// let stranger = session.begin(None)?;
/// assert_eq!(session.get(stranger, faults), Err(Reason::NotGrantable)); // not before the commit
/// assert_eq!(session.commit(top)?, 6); // page writes
/// assert_eq!(session.get(stranger, faults)?, [7; 32]);
/// # Ok::<(), Reason>(())
/// ```
#[derive(Clone, Debug)]
pub struct Session<F: Form = First> {
    store: StoreOf<F>,
    state: State,
    work: Work,
}

impl<F: Form> Session<F> {
    /// On a store, as after a power cut: down, and nothing is live.
    pub fn new(store: StoreOf<F>) -> Session<F> {
        Session { store, state: State::new(), work: Work::new() }
    }

    /// Goes on from what an earlier one had; refused if the state can't be with this store.
    pub fn resume(mut store: StoreOf<F>, mut state: State, mut work: Work) -> Result<Session<F>, Refusal> {
        store.portion_lent(&mut state, &[], work.bytes_mut(), &mut [])?;
        Ok(Session { store, state, work })
    }

    /// The store.
    pub fn store(&self) -> &StoreOf<F> {
        &self.store
    }

    /// What is live.
    pub fn state(&self) -> &State {
        &self.state
    }

    /// All three, to put away.
    pub fn into_parts(self) -> (StoreOf<F>, State, Work) {
        (self.store, self.state, self.work)
    }

    /// Plays one event word. Its count is honoured, and where pages can tear the way in which it is torn: it may be cut,
    /// and the session is down then.
    pub fn play_word(&mut self, word: [u8; EVENT_BYTES]) -> Result<Answer, Reason> {
        let mut answer = [0; ANSWER_BYTES];
        let played = self.store.portion_lent(&mut self.state, &word, self.work.bytes_mut(), &mut answer);
        // The lengths are right and the state is sound, so only the event is ever refused.
        let answer = played.map(|()| Answer::of(answer)).map_err(|refusal| Reason::Other(refusal.number()))?;
        answer.refusal().map_or(Ok(answer), Err)
    }

    /// The write to the medium of this number, from 0, that an event makes if nothing cuts it: a page, or a copy of one;
    /// none if there are fewer.
    pub fn write(&self, event: Event, index: u8) -> Option<F::Write> {
        // The lengths are right and the state is sound, so this isn't refused.
        self.store.write(&self.state, &self.work, event.word(), index).ok().flatten()
    }

    /// The writes to the medium that come before those of an event: they mend it, before a recovery that isn't refused.
    pub(crate) fn mends(&self, event: Event) -> Vec<F::Write> {
        match event {
            Event::Recover { .. } if !self.state.is_up() => F::mends(self.store.bytes()),
            _ => Vec::new(),
        }
    }
}

impl Session {
    /// The page write of this number, from 0, that an event makes if nothing cuts it; none if there are fewer.
    pub fn page_write(&self, event: Event, index: u8) -> Option<PageWrite> {
        self.write(event, index)
    }
}

impl<F: Form> Transact for Session<F> {
    type Error = Reason;

    /// The count of the event is honoured: it may be cut, and the session is down then.
    fn play(&mut self, event: Event) -> Result<Answer, Reason> {
        self.play_word(event.word())
    }
}
