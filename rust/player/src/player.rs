//! One event at a time: the refusals in the order of the table, then the effect.

mod pages;

use crate::event::{decode_as, CutOf, Decision, Event, Identity, Mode, Record, Transaction};
use crate::form::Form;
use crate::medium::Medium;
use crate::planted::Bug;
#[cfg(feature = "planted")]
use crate::planted::Planted;
use crate::store::{committed_page, empty_page, prepared_page, CommitPage, Page, Place, Stable};
use crate::volatile::Volatile;

/// An answer: its number, then its value.
#[derive(Clone, Copy, Debug, PartialEq, Eq)]
pub struct Answer(pub u8, pub u8);

const DONE: u8 = 0;
const CUT: u8 = 11;

/// Why an event is refused.
#[derive(Clone, Copy)]
enum Refusal {
    Bad = 1,
    Down = 2,
    Up = 3,
    Damaged = 4,
    NotLive = 5,
    TooDeep = 6,
    Full = 7,
    NotGrantable = 8,
    NotHeld = 9,
    LiveChild = 10,
    OtherPrepared = 13,
    ChildAtWork = 14,
    ChildPrepares = 27,
}

type Outcome = Result<Answer, Refusal>;

/// Page writes, in their order.
type Script = Vec<(Place, Page)>;

/// A run under way: a store, and a volatile that outlasts the run.
pub struct Player<'s, F: Form> {
    store: Stable<'s, F>,
    volatile: &'s mut Volatile<F>,
    /// What page 0 says.
    page: CommitPage,
    /// The page writes made, where somebody wants to know them.
    log: Option<Script>,
}

impl<'s, F: Form> Player<'s, F> {
    /// A run on a store, from what the volatile remembers.
    pub fn new(store: Stable<'s, F>, volatile: &'s mut Volatile<F>) -> Self {
        Player { page: store.commit_page(), store, volatile, log: None }
    }

    /// Whether the run can go on from what the volatile remembers. While up there is nothing to mend.
    pub fn is_sound(&self) -> bool {
        let even = !F::Medium::TEARS || !self.volatile.up || self.store.is_even();
        even && self.volatile.goes_with(&self.page)
    }

    /// Plants a bug.
    #[cfg(feature = "planted")]
    pub fn plant(&mut self, bug: Option<Bug>) {
        self.store.planted = Planted::with(bug);
        self.page = self.store.commit_page();
    }

    fn planted(&self, bug: Bug) -> bool {
        self.store.planted.is(bug)
    }

    /// Plays one event word. It is the benchmark's yardstick: a function of its own, wherever it is called from.
    #[inline(never)]
    pub fn step(&mut self, word: F::Word) -> Answer {
        self.outcome(word).unwrap_or_else(|refusal| Answer(refusal as u8, 0))
    }

    fn outcome(&mut self, word: F::Word) -> Outcome {
        match decode_as::<F>(word, self.store.planted).ok_or(Refusal::Bad)? {
            Event::Crash => Ok(self.crash()),
            Event::Recover(cut) => self.recover(cut),
            _ if !self.volatile.up => Err(Refusal::Down),
            Event::Begin(parent) => self.begin(parent),
            Event::Lock(transaction, record, mode) => self.lock(transaction, record, mode),
            Event::Write(transaction, record, offset, value) => self.write(transaction, record, offset, value),
            Event::Read(transaction, record, offset) => self.read(transaction, record, offset),
            Event::Commit(transaction, cut) => self.commit(transaction, cut),
            Event::Abort(transaction, report) => self.abort(transaction, report),
            Event::Prepare(transaction, cut, identity) => self.prepare(transaction, cut, identity),
            Event::Decide(decision, cut, identity) => Ok(self.decide(decision, cut, identity)),
            Event::Query(identity) => Ok(Answer(DONE, u8::from(self.waits(identity)))),
        }
    }

    fn begin(&mut self, parent: Option<Transaction>) -> Outcome {
        if let Some(parent) = parent {
            self.live(parent)?;
            if self.volatile.tree.is_deepest(parent) {
                return Err(Refusal::TooDeep);
            }
        }
        let number = self.volatile.tree.begin(parent).ok_or(Refusal::Full)?;
        Ok(Answer(DONE, number.0))
    }

    fn lock(&mut self, transaction: Transaction, record: Record, mode: Mode) -> Outcome {
        self.live(transaction)?;
        let child_is_tried_late = self.planted(Bug::ChildTriedAfterGrant);
        if !child_is_tried_late {
            self.childless(transaction)?;
        }
        // Nobody gets what the prepared transaction changed.
        if matches!(&self.page, CommitPage::Prepared(changed, _) if changed.contains(&record)) {
            return Err(Refusal::NotGrantable);
        }
        // Asking for what is held, or for less, changes nothing.
        if self.volatile.locks.held(transaction, record) >= Some(mode) {
            return Ok(Answer(DONE, 0));
        }
        let grantable = match mode {
            Mode::Read => self.may_read(transaction, record),
            Mode::Write => self.may_write(transaction, record),
        };
        if !grantable {
            return Err(Refusal::NotGrantable);
        }
        if child_is_tried_late {
            self.childless(transaction)?;
        }
        self.volatile.locks.grant(transaction, record, mode);
        Ok(Answer(DONE, 0))
    }

    /// No other transaction holds the lock in write mode, and every write-mode retainer is the asker or
    /// its ancestor.
    fn may_read(&self, asker: Transaction, record: Record) -> bool {
        let mut others = self.volatile.locks.shares(record).iter().filter(|share| share.transaction != asker);
        others.all(|share| {
            let held = share.held == Some(Mode::Write) && !self.planted(Bug::ReadOverWriteHolder);
            !held && (share.retained != Some(Mode::Write) || self.lets_through(share.transaction, asker))
        })
    }

    /// No other transaction holds the lock in any mode, and every retainer is the asker or its ancestor.
    fn may_write(&self, asker: Transaction, record: Record) -> bool {
        let mut others = self.volatile.locks.shares(record).iter().filter(|share| share.transaction != asker);
        others.all(|share| {
            let blind = share.retained == Some(Mode::Read) && self.planted(Bug::WriteBlindToReadRetainers);
            let retained = share.retained.is_some() && !blind;
            share.held.is_none() && (!retained || self.lets_through(share.transaction, asker))
        })
    }

    /// A retainer lets its descendants through.
    fn lets_through(&self, retainer: Transaction, asker: Transaction) -> bool {
        self.planted(Bug::GrantBlindToRetainers) || self.volatile.tree.line(asker).any(|t| t == retainer)
    }

    fn write(&mut self, transaction: Transaction, record: Record, offset: u8, value: u8) -> Outcome {
        self.live(transaction)?;
        self.childless(transaction)?;
        let needed = if self.planted(Bug::WriteUnderReadLock) { Mode::Read } else { Mode::Write };
        self.holds(transaction, record, needed)?;
        let seen = self.volatile.tree.version(transaction, record).copied();
        let page = seen.unwrap_or_else(|| self.store.page(Place::Home(record)));
        if let Some(node) = self.volatile.tree.get_mut(transaction) {
            node.versions.entry(record).or_insert(page)[offset as usize] = value;
        }
        Ok(Answer(DONE, 0))
    }

    fn read(&mut self, transaction: Transaction, record: Record, offset: u8) -> Outcome {
        self.live(transaction)?;
        self.childless(transaction)?;
        self.holds(transaction, record, Mode::Read)?;
        let byte = match self.volatile.tree.version(transaction, record) {
            Some(version) => version[offset as usize],
            None => self.store.home_byte(record, offset),
        };
        Ok(Answer(DONE, byte))
    }

    fn commit(&mut self, transaction: Transaction, cut: CutOf<F>) -> Outcome {
        self.live(transaction)?;
        self.has_no_child(transaction)?;
        if self.is_top(transaction) {
            self.none_other_prepared(transaction)?;
        }
        let Some(ended) = self.volatile.tree.remove(transaction) else { return Err(Refusal::NotLive) };
        let Some(parent) = ended.parent else {
            self.volatile.locks.discard(&[transaction]);
            return Ok(self.write_pages(&self.commit_script(ended.versions), cut));
        };
        if self.planted(Bug::ChildCommitFreesLocks) {
            self.volatile.locks.discard(&[transaction]);
        }
        self.volatile.locks.pass_up(transaction, parent, self.planted(Bug::ParentInheritsWeakerMode));
        let keeps = self.planted(Bug::ParentKeepsItsVersion);
        if let Some(parent) = self.volatile.tree.get_mut(parent) {
            if keeps {
                let own = std::mem::take(&mut parent.versions);
                parent.versions = ended.versions;
                parent.versions.extend(own);
            } else {
                parent.versions.extend(ended.versions);
            }
        }
        Ok(Answer(DONE, 0))
    }

    /// Ends a top transaction whose changes then wait for the decision; one without changes just commits.
    fn prepare(&mut self, transaction: Transaction, cut: CutOf<F>, identity: Identity) -> Outcome {
        self.live(transaction)?;
        self.has_no_child(transaction)?;
        let child_is_tried_early = self.planted(Bug::ChildTriedBeforePrepared);
        if child_is_tried_early && !self.is_top(transaction) {
            return Err(Refusal::ChildPrepares);
        }
        self.none_other_prepared(transaction)?;
        if !self.is_top(transaction) {
            return Err(Refusal::ChildPrepares);
        }
        let Some(ended) = self.volatile.tree.remove(transaction) else { return Err(Refusal::NotLive) };
        self.volatile.locks.discard(&[transaction]);
        let mut script: Script =
            ended.versions.iter().map(|(record, page)| (Place::Intention(*record), *page)).collect();
        if !ended.versions.is_empty() {
            let changed: Vec<Record> = ended.versions.keys().copied().collect();
            script.push((Place::Commit, prepared_page::<F>(&changed, identity, self.store.planted)));
        }
        Ok(self.write_pages(&script, cut))
    }

    /// Carries out the decision on what is prepared; a decision for another does nothing.
    fn decide(&mut self, decision: Decision, cut: CutOf<F>, identity: Identity) -> Answer {
        if !self.waits(identity) && !self.planted(Bug::DecisionForAnother) {
            return Answer(DONE, 0);
        }
        let CommitPage::Prepared(changed, _) = self.store.commit_page() else { return Answer(DONE, 0) };
        let mut home = self.copies_home(&changed);
        let committed = (Place::Commit, committed_page::<F>(&changed, self.store.planted));
        let emptied = (Place::Commit, empty_page::<F>());
        let script = match decision {
            Decision::Commit => {
                home.insert(0, committed);
                home.push(if self.planted(Bug::CommitDecisionLeavesPage) { committed } else { emptied });
                home
            }
            Decision::Abort if self.planted(Bug::AbortDecisionWritesHome) => {
                home.push(emptied);
                home
            }
            Decision::Abort => vec![emptied],
        };
        self.write_pages(&script, cut)
    }

    fn waits(&self, identity: Identity) -> bool {
        matches!(self.page, CommitPage::Prepared(_, prepared) if prepared == identity)
    }

    fn abort(&mut self, transaction: Transaction, report: bool) -> Outcome {
        self.live(transaction)?;
        if self.planted(Bug::ChildStopsAbort) {
            self.childless(transaction)?;
        }
        if self.planted(Bug::AbortRestoresHome) {
            self.forget_ancestors_versions(transaction);
        }
        let ended = self.volatile.tree.with_descendants(transaction);
        let told = self.volatile.tree.get(transaction).and_then(|node| node.parent).filter(|_| report);
        if let Some(parent) = told {
            self.report(transaction, parent, &ended);
        }
        for transaction in &ended {
            self.volatile.tree.remove(*transaction);
        }
        self.volatile.locks.discard(&ended);
        Ok(Answer(DONE, 0))
    }

    /// The parent retains what the failed transaction itself held or retained, in the stronger mode.
    fn report(&mut self, failed: Transaction, parent: Transaction, ended: &[Transaction]) {
        if self.planted(Bug::ReportKeepsVersions) {
            let versions = self.volatile.tree.get(failed).map(|node| node.versions.clone()).unwrap_or_default();
            self.volatile.tree.get_mut(parent).into_iter().for_each(|node| node.versions.extend(versions.clone()));
        }
        if self.planted(Bug::ReportKeepsDescendantsLocks) {
            ended.iter().for_each(|t| self.volatile.locks.pass_up(*t, parent, false));
        }
        if self.planted(Bug::ReportLetsParentHold) {
            self.volatile.locks.hand_over(failed, parent);
        }
        self.volatile.locks.pass_up(failed, parent, false);
    }

    /// Only a planted bug does this.
    fn forget_ancestors_versions(&mut self, transaction: Transaction) {
        let Some(node) = self.volatile.tree.get(transaction) else { return };
        let written: Vec<Record> = node.versions.keys().copied().collect();
        let ancestors: Vec<Transaction> = self.volatile.tree.line(transaction).skip(1).collect();
        for ancestor in ancestors {
            if let Some(node) = self.volatile.tree.get_mut(ancestor) {
                node.versions.retain(|record, _| !written.contains(record));
            }
        }
    }

    /// What is prepared outlasts it.
    fn crash(&mut self) -> Answer {
        if self.planted(Bug::CrashFreesPrepared) {
            if let CommitPage::Prepared(changed, _) = &mut self.page {
                changed.clear();
            }
        }
        self.volatile.tree.clear();
        self.volatile.locks.clear();
        self.volatile.up = false;
        Answer(DONE, 0)
    }

    fn recover(&mut self, cut: CutOf<F>) -> Outcome {
        if self.volatile.up {
            return Err(Refusal::Up);
        }
        if self.planted(Bug::RefusedRecoverMends) {
            self.store.mend();
        }
        if matches!(self.page, CommitPage::Damaged) || !self.store.is_mendable() {
            return Err(Refusal::Damaged);
        }
        // What is mended isn't counted, and nothing cuts it.
        let mended = if F::Medium::TEARS { self.store.mend() } else { 0 };
        let script = match &self.page {
            CommitPage::Prepared(..) if self.planted(Bug::RecoverEmptiesPrepared) => {
                vec![(Place::Commit, empty_page::<F>())]
            }
            CommitPage::Committed(named) => {
                let mut script = self.copies_home(named);
                script.push((Place::Commit, empty_page::<F>()));
                script
            }
            _ => Vec::new(),
        };
        self.volatile.up = true;
        let Answer(number, value) = self.write_pages(&script, cut);
        let counted = if self.planted(Bug::MendingCounted) { mended as u8 } else { 0 };
        Ok(Answer(number, value + counted))
    }

    fn live(&self, transaction: Transaction) -> Result<(), Refusal> {
        self.volatile.tree.is_live(transaction).then_some(()).ok_or(Refusal::NotLive)
    }

    /// Who has a live child can't end but by an abort.
    fn has_no_child(&self, transaction: Transaction) -> Result<(), Refusal> {
        (!self.volatile.tree.has_child(transaction)).then_some(()).ok_or(Refusal::LiveChild)
    }

    fn is_top(&self, transaction: Transaction) -> bool {
        self.volatile.tree.get(transaction).is_some_and(|node| node.parent.is_none())
    }

    /// Page 0 has room for one: while another is prepared, who has changed a record can't commit or prepare.
    fn none_other_prepared(&self, transaction: Transaction) -> Result<(), Refusal> {
        let Some(node) = self.volatile.tree.get(transaction) else { return Ok(()) };
        let changes = !node.versions.is_empty() || self.planted(Bug::UnchangedBarredToo);
        let waits = matches!(self.page, CommitPage::Prepared(..));
        let barred = changes && waits && !self.planted(Bug::CommitBesidePrepared);
        (!barred).then_some(()).ok_or(Refusal::OtherPrepared)
    }

    /// Who has a live child leaves the records to it.
    fn childless(&self, transaction: Transaction) -> Result<(), Refusal> {
        (!self.volatile.tree.has_child(transaction)).then_some(()).ok_or(Refusal::ChildAtWork)
    }

    /// Reading and writing need the lock held by that very transaction, in this mode or a stronger one.
    fn holds(&self, transaction: Transaction, record: Record, mode: Mode) -> Result<(), Refusal> {
        let locks = &self.volatile.locks;
        let retains = || self.planted(Bug::RetainerNeedsNoLock) && locks.retained(transaction, record) >= Some(mode);
        let enough = locks.held(transaction, record) >= Some(mode) || retains();
        enough.then_some(()).ok_or(Refusal::NotHeld)
    }
}
