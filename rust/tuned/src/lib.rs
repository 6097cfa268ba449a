//! A second player of the rules, written to be as quick as its author could make it in plain safe Rust.
//!
//! It is a yardstick of the benchmark: the engine's time says more beside a program whose author tried. It is
//! written from the rules alone. What makes it quick:
//!
//! - a record's versions are a stack, the deepest transaction's on top: who may read or write a record sees
//!   the top, and a child that commits leaves its version by a change of name, most often without a copy;
//! - every transaction knows the records that it has a lock of, so an end looks at no others;
//! - sets of transactions and of records are words.
//!
//! It checks no lent state: [`Tuned`] can only be what its own events made of it. Both editions are one program, over
//! the number of records, and so are pages that can tear.

mod locks;
mod stack;
mod store;
mod word;

use locks::Lock;
use stack::Versions;
use store::{First, Store, MAP_TOP};
use word::{Fields, Kind, Layout};

/// Bytes of a page.
pub const PAGE_BYTES: usize = 32;
/// The deepest nesting.
pub const DEPTH_LIMIT: u8 = 16;

const TRANSACTIONS: usize = 24;
const ALL: u32 = (1 << TRANSACTIONS) - 1;
const NO_PARENT: u8 = 31;
const EVENTS: usize = 4096;

/// A record's place in a map: record 0 is the most significant bit.
type Map = u64;

/// The records of a map, by rising number.
fn records(mut map: Map) -> impl Iterator<Item = usize> {
    std::iter::from_fn(move || {
        let r = map.leading_zeros() as usize;
        map &= !MAP_TOP.checked_shr(r as u32)?;
        Some(r)
    })
}

/// The transactions of a set.
fn transactions(mut set: u32) -> impl Iterator<Item = usize> {
    std::iter::from_fn(move || {
        let t = set.trailing_zeros() as usize;
        set &= set.checked_sub(1)?;
        Some(t)
    })
}

#[derive(Clone, Copy, Default)]
struct Node {
    parent: u8,
    depth: u8,
    children: u8,
    /// The records that it has a lock of, held or retained; those of which it has a version.
    locked: Map,
    changed: Map,
    /// Itself and its ancestors.
    line: u32,
}

/// What is kept between two events beside the store, which has so many records and bytes.
#[derive(Clone)]
pub struct TunedOf<const RECORDS: usize, const STORE: usize, const TEARS: bool> {
    up: bool,
    live: u32,
    nodes: [Node; TRANSACTIONS],
    locks: [Lock; RECORDS],
    versions: Versions<RECORDS>,
}

/// Edition 1.
pub type Tuned = TunedOf<16, 1_056, false>;
/// Edition 2.
pub type TunedEdition2 = TunedOf<64, 4_128, false>;
/// Edition 1 on pages that can tear.
pub type TunedPairs = TunedOf<16, 2_178, true>;

impl<const RECORDS: usize, const STORE: usize, const TEARS: bool> Default for TunedOf<RECORDS, STORE, TEARS> {
    fn default() -> Self {
        let (nodes, locks) = ([Node::default(); TRANSACTIONS], [Lock::default(); RECORDS]);
        TunedOf { up: false, live: 0, nodes, locks, versions: Versions::new() }
    }
}

type Answer = (u8, u8);

/// Plays a list of event words of edition 2 on a store. The working buffer is only measured.
pub fn run_edition2(store: &mut [u8], events: &[u8], work: &mut [u8], answers: &mut [u8]) -> u8 {
    TunedEdition2::default().portion(store, events, work, answers)
}

/// Plays a list of event words on a store whose pages can tear. The working buffer is only measured.
pub fn run_pairs(store: &mut [u8], events: &[u8], work: &mut [u8], answers: &mut [u8]) -> u8 {
    TunedPairs::default().portion(store, events, work, answers)
}

/// Plays a list of event words on a store. The working buffer is only measured.
pub fn run(store: &mut [u8], events: &[u8], work: &mut [u8], answers: &mut [u8]) -> u8 {
    Tuned::default().portion(store, events, work, answers)
}

impl<const RECORDS: usize, const STORE: usize, const TEARS: bool> TunedOf<RECORDS, STORE, TEARS> {
    const WORK_BYTES: usize = RECORDS * DEPTH_LIMIT as usize * PAGE_BYTES;

    /// Plays a portion of a list, from what the last one left.
    pub fn portion(&mut self, store: &mut [u8], events: &[u8], work: &mut [u8], answers: &mut [u8]) -> u8 {
        let Ok(store) = <&mut [u8; STORE]>::try_from(store) else { return 22 };
        if work.len() != Self::WORK_BYTES {
            return 24;
        }
        let bytes = Layout::<RECORDS, TEARS>::WORD_BYTES;
        if events.len() % bytes != 0 || events.len() > EVENTS * bytes {
            return 20;
        }
        if answers.len() < events.len() / bytes * 2 {
            return 21;
        }
        let mut store = Store::over(store);
        for (word, answer) in events.chunks_exact(bytes).zip(answers.chunks_exact_mut(2)) {
            let (number, value) = self.step(&mut store, Layout::<RECORDS, TEARS>::fields(word));
            answer[0] = number;
            answer[1] = value;
        }
        0
    }

    fn step(&mut self, store: &mut Store<RECORDS, STORE, TEARS>, fields: Option<Fields>) -> Answer {
        let Some(f) = fields else { return (1, 0) };
        match f.kind {
            Kind::Crash => {
                self.fall();
                return (0, 0);
            }
            Kind::Recover => return self.recover(store, f),
            _ if !self.up => return (2, 0),
            Kind::Begin => return self.begin(f.transaction),
            Kind::Decide => return self.decide(store, f),
            Kind::Query => return (0, u8::from(store.first.is_for(f.value))),
            _ => {}
        }
        let t = f.transaction as usize;
        if self.live >> t & 1 == 0 {
            return (5, 0);
        }
        match f.kind {
            Kind::Commit => self.commit(store, t, f),
            Kind::Prepare => self.prepare(store, t, f),
            Kind::Abort => self.abort(t, f.value == 1),
            _ if self.nodes[t].children != 0 => (14, 0),
            Kind::Lock => self.lock(store, t, f.record, f.value == 1),
            Kind::Write if self.locks[f.record].held_writing >> t & 1 == 0 => (9, 0),
            Kind::Write => self.write(store, t, f),
            _ if self.locks[f.record].held >> t & 1 == 0 => (9, 0),
            _ => (0, self.versions.seen(f.record).unwrap_or_else(|| store.home(f.record))[f.offset]),
        }
    }

    fn begin(&mut self, parent: u8) -> Answer {
        let (mut line, mut depth) = (0, 0);
        if parent != NO_PARENT {
            if self.live >> parent & 1 == 0 {
                return (5, 0);
            }
            let above = &self.nodes[parent as usize];
            if above.depth == DEPTH_LIMIT {
                return (6, 0);
            }
            (line, depth) = (above.line, above.depth);
        }
        if self.live == ALL {
            return (7, 0);
        }
        let t = (!self.live).trailing_zeros() as usize;
        if parent != NO_PARENT {
            self.nodes[parent as usize].children += 1;
        }
        self.live |= 1 << t;
        self.nodes[t] = Node { parent, depth: depth + 1, line: line | 1 << t, ..Node::default() };
        (0, t as u8)
    }

    fn lock(&mut self, store: &Store<RECORDS, STORE, TEARS>, t: usize, record: usize, read: bool) -> Answer {
        let (lock, place) = (&mut self.locks[record], MAP_TOP >> record);
        if store.first.reserved() & place != 0 || !lock.allows(t, self.nodes[t].line, read) {
            return (8, 0);
        }
        lock.held |= 1 << t;
        lock.held_writing |= u32::from(!read) << t;
        self.nodes[t].locked |= place;
        (0, 0)
    }

    fn write(&mut self, store: &Store<RECORDS, STORE, TEARS>, t: usize, f: Fields) -> Answer {
        let page = self.versions.own(f.record, t as u8, || *store.home(f.record));
        page[f.offset] = f.value;
        self.nodes[t].changed |= MAP_TOP >> f.record;
        (0, 0)
    }

    fn commit(&mut self, store: &mut Store<RECORDS, STORE, TEARS>, t: usize, f: Fields) -> Answer {
        let node = self.nodes[t];
        if node.children != 0 {
            return (10, 0);
        }
        if node.parent != NO_PARENT {
            self.hand_up(t, node.parent as usize);
            for r in records(node.changed) {
                self.versions.rename(r, node.parent);
            }
            self.nodes[node.parent as usize].changed |= node.changed;
            self.end(1 << t);
            return (0, 0);
        }
        if node.changed != 0 && store.first.reserved() != 0 {
            return (13, 0);
        }
        let made = store.commit(node.changed, &self.versions, f);
        self.close_top(t, node.changed, made)
    }

    fn prepare(&mut self, store: &mut Store<RECORDS, STORE, TEARS>, t: usize, f: Fields) -> Answer {
        let node = self.nodes[t];
        if node.children != 0 {
            return (10, 0);
        }
        if node.changed != 0 && store.first.reserved() != 0 {
            return (13, 0);
        }
        if node.parent != NO_PARENT {
            return (27, 0);
        }
        let made = store.prepare(node.changed, &self.versions, f.value, f.count);
        self.close_top(t, node.changed, made)
    }

    /// After the page writes of a top transaction, which may have been cut.
    fn close_top(&mut self, t: usize, changed: Map, made: (u8, bool)) -> Answer {
        if made.1 {
            self.fall();
            return (11, made.0);
        }
        for r in records(changed) {
            self.versions.drop_top(r);
        }
        self.end(1 << t);
        (0, made.0)
    }

    fn decide(&mut self, store: &mut Store<RECORDS, STORE, TEARS>, f: Fields) -> Answer {
        if !store.first.is_for(f.value) {
            return (0, 0);
        }
        let (made, cut) = store.decide(f.offset == 1, f.count);
        if cut {
            self.fall();
        }
        (if cut { 11 } else { 0 }, made)
    }

    fn recover(&mut self, store: &mut Store<RECORDS, STORE, TEARS>, f: Fields) -> Answer {
        if self.up {
            return (3, 0);
        }
        if store.first == First::Damaged || !store.mend() {
            return (4, 0);
        }
        let (made, cut) = store.recover(f);
        self.up = !cut;
        (if cut { 11 } else { 0 }, made)
    }

    fn abort(&mut self, t: usize, report: bool) -> Answer {
        let gone = match self.nodes[t].children {
            0 => 1 << t,
            _ => transactions(self.live).filter(|u| self.nodes[*u].line >> t & 1 == 1).fold(0, |set, u| set | 1 << u),
        };
        let parent = self.nodes[t].parent;
        if report && parent != NO_PARENT {
            self.hand_up(t, parent as usize);
        }
        let changed = transactions(gone).fold(0, |map, u| map | self.nodes[u].changed);
        for r in records(changed) {
            self.versions.drop_all(r, gone);
        }
        self.end(gone);
        (0, 0)
    }

    /// The parent retains what the child held or retained.
    fn hand_up(&mut self, child: usize, parent: usize) {
        for r in records(self.nodes[child].locked) {
            self.locks[r].hand_up(child, parent);
        }
        self.nodes[parent].locked |= self.nodes[child].locked;
    }

    /// These end, all beneath each of them among them; their versions are gone already.
    fn end(&mut self, gone: u32) {
        for t in transactions(gone) {
            for r in records(self.nodes[t].locked) {
                self.locks[r].discard(gone);
            }
            let parent = self.nodes[t].parent;
            if parent != NO_PARENT {
                self.nodes[parent as usize].children -= 1;
            }
        }
        self.live &= !gone;
    }

    fn fall(&mut self) {
        self.up = false;
        self.live = 0;
        self.locks = [Lock::default(); RECORDS];
        self.versions.clear();
    }
}
