//! Random lists that are mostly accepted: deep nesting, contention, locks to read and to write, reuse of
//! numbers, cuts at every count, crashes in recovery, prepares and decisions, bad events.

use crate::sketch::{Pair, Sketch};
use crate::{stores, Form, Rng, Word};
use nekahuiro::limits::{PAGE_BYTES, TRANSACTIONS, TRANSACTION_NAMES};
use nekahuiro::{CommitPage, Fields, Transaction};

/// What a list is like, in percent where nothing else is said.
#[derive(Clone, Debug)]
pub struct Taste {
    /// Events.
    pub length: usize,
    /// Records in use; few make contention.
    pub records: usize,
    /// The first of them.
    pub first: usize,
    /// Offsets in use.
    pub offsets: usize,
    /// Begins that have a parent.
    pub nested: usize,
    /// Locks asked for only to read.
    pub reading: usize,
    /// Aborts with a report.
    pub reports: usize,
    /// Live transactions before it is time to commit.
    pub crowd: usize,
    /// Nested begins under the deepest transaction: deep rather than wide.
    pub deep: usize,
    /// Commits and recoveries with a small count.
    pub cuts: usize,
    /// Prepares, decisions and queries.
    pub joint: usize,
    /// Plain crashes.
    pub crashes: usize,
    /// Events with a number at random.
    pub strays: usize,
    /// Bad events.
    pub bad: usize,
    /// Events until the mood may change.
    pub patience: usize,
}

/// How often each of begin, lock, write, read, commit, abort comes: nesting, working, finishing,
/// failing, and a bit of all.
const MOODS: [[usize; 6]; 5] =
    [[8, 4, 3, 1, 1, 0], [2, 5, 7, 4, 1, 0], [0, 1, 2, 1, 9, 0], [1, 2, 3, 2, 2, 4], [3, 5, 6, 3, 4, 1]];

impl Taste {
    /// A random taste for lists of the plain form.
    pub fn any(rng: &mut Rng) -> Taste {
        Taste::any_of(Form::PLAIN, rng)
    }

    /// A random taste for lists of a form.
    pub fn any_of(form: Form, rng: &mut Rng) -> Taste {
        let length = match rng.below(10) {
            0..=5 => 8 + rng.below(40),
            6..=8 => 30 + rng.below(90),
            _ => 100 + rng.below(200),
        };
        let records = rng.one_of([1, 2, 3, 5, form.records]);
        // Where there are more than the plain form's, any of them, and often the last.
        let first = match form.records - Form::PLAIN.records {
            0 => 0,
            _ if rng.percent(30) => form.records - records,
            _ => rng.below(form.records - records + 1),
        };
        Taste {
            length,
            records,
            first,
            offsets: rng.one_of([1, 2, PAGE_BYTES]),
            nested: rng.one_of([20, 60, 90, 98]),
            reading: rng.one_of([0, 20, 50, 80]),
            reports: rng.one_of([0, 40, 90]),
            crowd: rng.one_of([1, 2, 3, 5, 9, TRANSACTIONS]),
            deep: rng.one_of([10, 60, 95]),
            cuts: rng.one_of([0, 10, 40, 80]),
            joint: rng.one_of([0, 0, 8, 25, 50]),
            crashes: rng.one_of([0, 1, 4]),
            strays: rng.one_of([0, 3, 15]),
            bad: rng.one_of([0, 1, 5]),
            patience: 2 + rng.below(20),
        }
    }
}

/// A random list for a plain store with this page 0.
pub fn list(rng: &mut Rng, taste: &Taste, page: CommitPage) -> Vec<u8> {
    make(Form::PLAIN, rng, taste, Sketch::new(page))
}

/// A random list for a store of a form, whose page 0 names so many records as committed.
pub fn list_of(form: Form, rng: &mut Rng, taste: &Taste, committed: u32) -> Vec<u8> {
    make(form, rng, taste, Sketch::down(form.records, committed, None))
}

fn make(form: Form, rng: &mut Rng, taste: &Taste, sketch: Sketch) -> Vec<u8> {
    let mut maker = Maker { form, sketch, rng, taste, mood: MOODS[0] };
    let mut words = Vec::with_capacity(taste.length * form.event_bytes);
    for _ in 0..taste.length {
        words.extend(&maker.word()[..form.event_bytes]);
    }
    words
}

struct Maker<'m> {
    form: Form,
    sketch: Sketch,
    rng: &'m mut Rng,
    taste: &'m Taste,
    mood: [usize; 6],
}

impl Maker<'_> {
    fn word(&mut self) -> Word {
        if self.rng.percent(self.taste.bad) {
            return self.bad();
        }
        let mut fields = self.sensible();
        if self.rng.percent(self.taste.strays) {
            fields = self.astray(fields);
        }
        self.follow(fields);
        self.form.word(fields)
    }

    /// The same with a number that is likely to be refused.
    fn astray(&mut self, fields: Fields) -> Fields {
        let live = self.sketch.live();
        match self.rng.below(8) {
            0..=1 if names_transaction(fields) => {
                Fields { transaction: self.rng.below(TRANSACTION_NAMES) as u8, ..fields }
            }
            2..=4 if names_transaction(fields) => {
                Fields { transaction: self.rng.pick(&live).copied().unwrap_or(0), ..fields }
            }
            5..=6 if (2..=4).contains(&fields.kind) => {
                Fields { record: self.rng.below(self.form.records) as u8, ..fields }
            }
            7 => Fields { kind: 8, count: self.count(4), ..Fields::default() },
            _ => fields,
        }
    }

    /// A word with a kind that there isn't or a bit too many; rarely it is good by chance.
    fn bad(&mut self) -> Word {
        let Form { event_bytes, .. } = self.form;
        let mut word = match self.rng.below(3) {
            0 => (self.rng.bits() << (64 - 8 * event_bytes)).to_be_bytes(),
            _ => {
                let fields = self.sensible();
                self.form.word(fields)
            }
        };
        word[self.rng.below(event_bytes)] ^= 1 << self.rng.below(8);
        if let Some(fields) = self.form.good(word) {
            self.follow(fields);
        }
        word
    }

    fn sensible(&mut self) -> Fields {
        if !self.sketch.up && !self.rng.percent(8) {
            let count = self.count(self.sketch.committed + 1);
            return Fields { kind: 8, count, value: self.tear(), ..Fields::default() };
        }
        if self.rng.percent(self.taste.crashes) {
            return Fields { kind: 7, ..Fields::default() };
        }
        if self.rng.percent(self.taste.joint) && self.form.two_phases {
            if let Some(fields) = self.joint() {
                return fields;
            }
        }
        if self.rng.below(self.taste.patience) == 0 {
            self.mood = MOODS[self.rng.below(MOODS.len())];
        }
        let mut draw = self.rng.below(self.mood.iter().sum());
        let mut kind = 1;
        for (next, weight) in (1..).zip(self.mood) {
            kind = next;
            if draw < weight {
                break;
            }
            draw -= weight;
        }
        self.of_kind(kind)
    }

    fn of_kind(&mut self, kind: u8) -> Fields {
        let fields = Fields { kind, ..Fields::default() };
        let live = self.sketch.live();
        if kind == 1 && live.len() >= self.taste.crowd && self.taste.crowd < TRANSACTIONS {
            let other = if self.rng.percent(30) { 5 } else { 3 };
            return self.of_kind(other);
        }
        if live.is_empty() {
            self.mood = MOODS[self.rng.below(2)];
        }
        if kind == 1 || live.is_empty() {
            return Fields { kind: 1, transaction: self.parent(), ..fields };
        }
        let anyone = self.rng.pick(&live).copied().unwrap_or(0);
        let leaf = self.rng.pick(&self.sketch.leaves()).copied().unwrap_or(anyone);
        match kind {
            2 => {
                let asker = if self.rng.percent(5) { anyone } else { leaf };
                let ((transaction, record), to_write) = self.wanted(asker);
                Fields { transaction, record, value: u8::from(!to_write), ..fields }
            }
            3 | 4 => {
                // Now and then by one that could hold the lock, that may only read, or that asked in vain.
                let able = match self.rng.below(100) {
                    0..=3 => self.sketch.retained(),
                    4..=5 => self.sketch.readers(),
                    6..=13 => self.sketch.denied(),
                    _ if kind == 3 => self.sketch.writers(),
                    _ => self.sketch.held(),
                };
                let able = self.mostly_leaves(able);
                let Some((transaction, record)) = self.rng.pick(&able).copied() else {
                    return self.of_kind(2);
                };
                let value = if kind == 3 { self.rng.byte() } else { 0 };
                Fields { transaction, record, offset: self.rng.below(self.taste.offsets) as u8, value, ..fields }
            }
            5 => {
                let count = self.count(self.sketch.due(leaf));
                Fields { transaction: leaf, count, value: self.tear(), ..fields }
            }
            _ => {
                let transaction = if self.rng.percent(70) { leaf } else { anyone };
                Fields { kind: 6, transaction, value: u8::from(self.rng.percent(self.taste.reports)), ..fields }
            }
        }
    }

    /// A prepare, a decision or a query: mostly in turn, now and then beside another or for another.
    fn joint(&mut self) -> Option<Fields> {
        let prepared = self.sketch.prepared.map(|(_, identity)| identity);
        let other = stores::any_identity(self.rng);
        let identity = prepared.filter(|_| self.rng.percent(80)).unwrap_or(other);
        let fields = Fields { value: identity, ..Fields::default() };
        let decides = if prepared.is_some() { 55 } else { 10 };
        match self.rng.below(100) {
            draw if draw < decides => {
                let commit = self.rng.percent(60);
                let count = self.count(self.sketch.due_to_decide(commit, identity));
                Some(Fields { kind: 10, offset: u8::from(commit), count, ..fields })
            }
            draw if draw < decides + 10 => Some(Fields { kind: 11, ..fields }),
            _ => {
                // Seldom by a child or one with a live child.
                let able = match self.rng.below(20) {
                    0 => self.sketch.live(),
                    1..=3 => self.sketch.leaves(),
                    4..=6 => self.sketch.tops(false),
                    _ => self.sketch.tops(true),
                };
                let transaction = self.rng.pick(&able).copied()?;
                let count = self.count(self.sketch.due_to_prepare(transaction));
                Some(Fields { kind: 9, transaction, count, value: other, ..fields })
            }
        }
    }

    /// Who asks for which lock, and whether to write: mostly for one that its own line retains or for any;
    /// now and then a reader would write, a writer asks for less, a stranger for what is retained.
    fn wanted(&mut self, asker: u8) -> (Pair, bool) {
        let to_write = !self.rng.percent(self.taste.reading);
        let (wanted, to_write) = match self.rng.below(100) {
            0..=44 => (self.sketch.retained(), to_write),
            45..=54 => (self.sketch.readers(), true),
            55..=58 => (self.sketch.writers(), false),
            59..=64 => (self.sketch.strangers(), to_write),
            _ => (Vec::new(), to_write),
        };
        let wanted = self.mostly_leaves(wanted);
        let any = (asker, (self.taste.first + self.rng.below(self.taste.records)) as u8);
        (self.rng.pick(&wanted).copied().unwrap_or(any), to_write)
    }

    /// Who has a live child is refused: it comes now and then only.
    fn mostly_leaves(&mut self, pairs: Vec<Pair>) -> Vec<Pair> {
        if self.rng.percent(5) {
            pairs
        } else {
            self.sketch.of_leaves(pairs)
        }
    }

    fn parent(&mut self) -> u8 {
        if !self.rng.percent(self.taste.nested) {
            return Transaction::NONE.number();
        }
        // The deepest of all may be too deep.
        let shallow = self.sketch.parents();
        let parents = if self.rng.percent(10) { self.sketch.live() } else { shallow };
        let deepest = parents.iter().max_by_key(|t| self.sketch.depth(**t)).copied();
        let parent = if self.rng.percent(self.taste.deep) { deepest } else { self.rng.pick(&parents).copied() };
        parent.unwrap_or(Transaction::NONE.number())
    }

    /// Mostly large; else every count from 0 to one above the writes due.
    fn count(&mut self, due: u32) -> u8 {
        if self.rng.percent(self.taste.cuts) {
            self.rng.below(due as usize + 2) as u8
        } else {
            self.form.count_limit
        }
    }

    /// How the next page write is torn, where that can be: in each way, and rarely in one that there isn't.
    fn tear(&mut self) -> u8 {
        match self.form.tears {
            true if self.rng.percent(1) => self.rng.byte(),
            true => self.rng.one_of([0, 1, 2, 3]),
            false => 0,
        }
    }

    fn follow(&mut self, fields: Fields) {
        let Fields { kind, transaction, record, offset, count, value } = fields;
        if self.form.tears && matches!(kind, 5 | 8) && value > 3 {
            return;
        }
        let count = u32::from(count);
        // A write whose first copy is made counts as made.
        let made = count + u32::from(self.form.tears && value >= 2);
        match kind {
            8 => self.sketch.recover(count, made),
            7 => self.sketch.crash(),
            _ if !self.sketch.up => {}
            1 => self.sketch.begin((transaction != Transaction::NONE.number()).then_some(transaction)),
            2 => self.sketch.lock(transaction, record, value == 0),
            3 => self.sketch.write(transaction, record),
            5 => self.sketch.commit(transaction, count, made),
            6 => self.sketch.abort(transaction, value == 1),
            9 => self.sketch.prepare(transaction, count, value),
            10 => self.sketch.decide(offset == 1, count, value),
            _ => {}
        }
    }
}

fn names_transaction(fields: Fields) -> bool {
    (1..=6).contains(&fields.kind) || fields.kind == 9
}
