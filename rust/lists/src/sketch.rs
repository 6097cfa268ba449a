//! A rough idea of the state, kept while a random list is made so that most events are accepted.
//! It is a guess: where it is wrong an event is refused, which does no harm.

use nekahuiro::limits::{DEPTH_LIMIT, RECORDS, TRANSACTIONS};
use nekahuiro::CommitPage;

#[derive(Clone, Copy, Default)]
struct Live {
    parent: Option<u8>,
    depth: usize,
    wrote: u64,
}

/// Who has to do with a lock: one bit for each transaction.
#[derive(Clone, Copy, Default)]
struct Lock {
    readers: u32,
    writer: Option<u8>,
    read_retainers: u32,
    write_retainers: u32,
}

/// The guessed state.
pub struct Sketch {
    /// Whether the store is up.
    pub up: bool,
    /// Records named by a committed page 0.
    pub committed: u32,
    /// What a transaction that is prepared changed, and its identity.
    pub prepared: Option<(u64, u8)>,
    live: [Option<Live>; TRANSACTIONS],
    locks: Vec<Lock>,
    denied: Option<Pair>,
}

/// A transaction and a record.
pub type Pair = (u8, u8);

const fn bit(transaction: u8) -> u32 {
    1 << transaction
}

impl Sketch {
    /// Live numbers.
    pub fn live(&self) -> Vec<u8> {
        (0..TRANSACTIONS as u8).filter(|t| self.live[usize::from(*t)].is_some()).collect()
    }

    /// Live numbers without a live child.
    pub fn leaves(&self) -> Vec<u8> {
        self.live().into_iter().filter(|t| self.is_leaf(*t)).collect()
    }

    /// Those of these pairs whose transaction has no live child.
    pub fn of_leaves(&self, mut pairs: Vec<Pair>) -> Vec<Pair> {
        let parents = self.live.iter().flatten().fold(0, |set, live| set | live.parent.map_or(0, bit));
        pairs.retain(|(t, _)| parents & bit(*t) == 0);
        pairs
    }

    fn is_leaf(&self, transaction: u8) -> bool {
        !self.live.iter().flatten().any(|live| live.parent == Some(transaction))
    }

    /// Live numbers above the depth limit.
    pub fn parents(&self) -> Vec<u8> {
        let shallow = |t: &u8| self.at(*t).is_some_and(|live| live.depth < DEPTH_LIMIT);
        self.live().into_iter().filter(shallow).collect()
    }

    /// The depth of a transaction; 0 if it isn't live.
    pub fn depth(&self, transaction: u8) -> usize {
        self.at(transaction).map_or(0, |live| live.depth)
    }

    /// Who holds which lock in write mode.
    pub fn writers(&self) -> Vec<Pair> {
        self.pairs(|lock| lock.writer.map_or(0, bit))
    }

    /// Who holds which lock in read mode.
    pub fn readers(&self) -> Vec<Pair> {
        self.pairs(|lock| lock.readers)
    }

    /// Who holds which lock.
    pub fn held(&self) -> Vec<Pair> {
        self.pairs(|lock| lock.readers | lock.writer.map_or(0, bit))
    }

    fn pairs(&self, who: impl Fn(&Lock) -> u32) -> Vec<Pair> {
        let mut pairs = Vec::new();
        for (record, lock) in (0..).zip(&self.locks) {
            let mut rest = who(lock);
            while rest != 0 {
                pairs.push((rest.trailing_zeros() as u8, record));
                rest &= rest - 1;
            }
        }
        pairs
    }

    /// A retained lock that nobody holds, with each transaction that could hold it again.
    pub fn retained(&self) -> Vec<Pair> {
        self.beside_retainers(|retainers, line| retainers & !line == 0)
    }

    /// A retained lock that nobody holds, with each transaction that some retainer isn't an ancestor of.
    pub fn strangers(&self) -> Vec<Pair> {
        self.beside_retainers(|retainers, line| retainers & !line != 0)
    }

    fn beside_retainers(&self, wanted: impl Fn(u32, u32) -> bool) -> Vec<Pair> {
        let mut pairs = Vec::new();
        for (record, lock) in (0..).zip(&self.locks) {
            let retainers = lock.read_retainers | lock.write_retainers;
            if retainers != 0 && lock.writer.is_none() && lock.readers == 0 {
                pairs.extend(self.live().into_iter().filter(|t| wanted(retainers, self.line(*t))).map(|t| (t, record)));
            }
        }
        pairs
    }

    /// Who asked last for a lock in vain, if it is still live.
    pub fn denied(&self) -> Vec<Pair> {
        self.denied.into_iter().filter(|(t, _)| self.at(*t).is_some()).collect()
    }

    /// Page writes that the commit of a transaction makes.
    pub fn due(&self, transaction: u8) -> u32 {
        match self.at(transaction) {
            Some(live) if live.parent.is_none() && live.wrote != 0 => 2 * live.wrote.count_ones() + 2,
            _ => 0,
        }
    }

    /// Page writes that the prepare of a transaction makes.
    pub fn due_to_prepare(&self, transaction: u8) -> u32 {
        match self.at(transaction) {
            Some(live) if live.parent.is_none() && live.wrote != 0 => live.wrote.count_ones() + 1,
            _ => 0,
        }
    }

    /// Page writes that a decision makes.
    pub fn due_to_decide(&self, commit: bool, identity: u8) -> u32 {
        match self.prepared {
            Some((map, prepared)) if prepared == identity => {
                if commit {
                    map.count_ones() + 2
                } else {
                    1
                }
            }
            _ => 0,
        }
    }

    /// Top transactions without a live child; with `changed`, those that changed a record.
    pub fn tops(&self, changed: bool) -> Vec<u8> {
        let top = |t: &u8| self.at(*t).is_some_and(|live| live.parent.is_none() && (!changed || live.wrote != 0));
        self.leaves().into_iter().filter(top).collect()
    }

    fn at(&self, transaction: u8) -> Option<Live> {
        self.live.get(usize::from(transaction)).copied().flatten()
    }

    /// A transaction and its ancestors.
    fn line(&self, transaction: u8) -> u32 {
        std::iter::successors(Some(transaction), |t| self.at(*t)?.parent).fold(0, |line, t| line | bit(t))
    }

    /// A run starts down, over this page 0 of a plain store.
    pub fn new(page: CommitPage) -> Sketch {
        match page {
            CommitPage::Committed(map) => Sketch::down(RECORDS, map.records().count() as u32, None),
            CommitPage::Prepared(map, identity) => {
                let map = map.records().fold(0, |map, record| map | 1 << record.number());
                Sketch::down(RECORDS, 0, Some((map, identity.0)))
            }
            CommitPage::Empty | CommitPage::Damaged(_) => Sketch::down(RECORDS, 0, None),
        }
    }

    /// Down, with so many records, of which so many are named by a committed page 0.
    pub fn down(records: usize, committed: u32, prepared: Option<(u64, u8)>) -> Sketch {
        let (live, locks) = ([None; TRANSACTIONS], vec![Lock::default(); records]);
        Sketch { up: false, committed, prepared, live, locks, denied: None }
    }

    /// A begin.
    pub fn begin(&mut self, parent: Option<u8>) {
        if parent.is_some_and(|p| !self.parents().contains(&p)) {
            return;
        }
        let depth = 1 + parent.and_then(|p| self.at(p)).map_or(0, |live| live.depth);
        if let Some(free) = self.live.iter_mut().find(|live| live.is_none()) {
            *free = Some(Live { parent, depth, wrote: 0 });
        }
    }

    /// A lock, to write or only to read.
    pub fn lock(&mut self, transaction: u8, record: u8, to_write: bool) {
        if self.at(transaction).is_none() || !self.is_leaf(transaction) {
            return;
        }
        if self.prepared.is_some_and(|(map, _)| map >> record & 1 == 1) {
            self.denied = Some((transaction, record));
            return;
        }
        let line = self.line(transaction);
        let lock = &mut self.locks[usize::from(record)];
        let free = lock.writer.is_none_or(|writer| writer == transaction) && lock.write_retainers & !line == 0;
        if to_write && free && lock.readers & !bit(transaction) == 0 && lock.read_retainers & !line == 0 {
            lock.readers = 0;
            lock.writer = Some(transaction);
        } else if !to_write && free {
            lock.readers |= if lock.writer.is_none() { bit(transaction) } else { 0 };
        } else {
            self.denied = Some((transaction, record));
        }
    }

    /// A write.
    pub fn write(&mut self, transaction: u8, record: u8) {
        let holds = self.locks[usize::from(record)].writer == Some(transaction) && self.is_leaf(transaction);
        if let Some(live) = self.live.get_mut(usize::from(transaction)).and_then(Option::as_mut).filter(|_| holds) {
            live.wrote |= 1 << record;
        }
    }

    /// A commit with a count; so many page writes count as made.
    pub fn commit(&mut self, transaction: u8, count: u32, made: u32) {
        let Some(live) = self.at(transaction) else { return };
        if !self.leaves().contains(&transaction) {
            return;
        }
        let due = self.due(transaction);
        if due > 0 && self.prepared.is_some() {
            return;
        }
        if count < due {
            self.crash();
            let stored = made > live.wrote.count_ones() && made < due;
            self.committed = if stored { live.wrote.count_ones() } else { 0 };
            return;
        }
        let heir = live.parent.map_or(0, bit);
        for lock in &mut self.locks {
            lock.pass(bit(transaction), heir);
        }
        if let Some(parent) = live.parent.and_then(|p| self.live[usize::from(p)].as_mut()) {
            parent.wrote |= live.wrote;
        }
        self.live[usize::from(transaction)] = None;
    }

    /// An abort, with a report or without.
    pub fn abort(&mut self, transaction: u8, report: bool) {
        let under = |t: &u8| self.line(*t) & bit(transaction) != 0;
        let ended: Vec<u8> = self.live().into_iter().filter(under).collect();
        let set = ended.iter().fold(0, |set, t| set | bit(*t));
        let heir = self.at(transaction).and_then(|live| live.parent).filter(|_| report).map_or(0, bit);
        for lock in &mut self.locks {
            lock.pass(bit(transaction), heir);
            lock.without(set);
        }
        for t in ended {
            self.live[usize::from(t)] = None;
        }
    }

    /// A prepare with a count, under an identity.
    pub fn prepare(&mut self, transaction: u8, count: u32, identity: u8) {
        let Some(live) = self.at(transaction).filter(|_| self.tops(false).contains(&transaction)) else { return };
        let due = self.due_to_prepare(transaction);
        if due > 0 && self.prepared.is_some() {
            return;
        }
        if count < due {
            self.crash();
            return;
        }
        self.abort(transaction, false);
        self.prepared = (due > 0).then_some((live.wrote, identity)).or(self.prepared);
    }

    /// A decision with a count, on an identity.
    pub fn decide(&mut self, commit: bool, count: u32, identity: u8) {
        let due = self.due_to_decide(commit, identity);
        let Some((map, _)) = self.prepared.filter(|_| due > 0) else { return };
        if count > 0 {
            self.prepared = None;
        }
        if count < due {
            self.crash();
            self.committed = if count > 0 { map.count_ones() } else { 0 };
        }
    }

    /// A crash.
    pub fn crash(&mut self) {
        *self = Sketch::down(self.locks.len(), self.committed, self.prepared);
    }

    /// A recover with a count; so many page writes count as made, if so many are due.
    pub fn recover(&mut self, count: u32, made: u32) {
        if !self.up {
            self.up = self.committed == 0 || count > self.committed;
            self.committed = if made > self.committed { 0 } else { self.committed };
        }
    }
}

impl Lock {
    /// A transaction's heir retains what it held or retained; without one nobody does.
    fn pass(&mut self, transaction: u32, heir: u32) {
        let gone = self.without(transaction);
        if gone.writer.is_some() || gone.write_retainers != 0 {
            self.write_retainers |= heir;
        } else if gone.readers | gone.read_retainers != 0 {
            self.read_retainers |= heir;
        }
    }

    /// Takes transactions out, and hands out what they had.
    fn without(&mut self, set: u32) -> Lock {
        let gone = Lock {
            readers: self.readers & set,
            writer: self.writer.filter(|t| bit(*t) & set != 0),
            read_retainers: self.read_retainers & set,
            write_retainers: self.write_retainers & set,
        };
        self.readers &= !set;
        self.writer = self.writer.filter(|t| bit(*t) & set == 0);
        self.read_retainers &= !set;
        self.write_retainers &= !set;
        gone
    }
}
