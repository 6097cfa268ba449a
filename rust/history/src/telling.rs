//! Transactions and writes, told from the events and their answers alone, in list order.

use crate::word::{Kind, Word};
use crate::Form;

/// How a transaction ended.
#[derive(Clone, Copy, Debug, PartialEq, Eq)]
pub enum End {
    /// It is still live after the last event.
    Never,
    /// Its own commit was accepted, at this event, with this answer.
    Committed {
        /// The event's place in the list.
        at: usize,
        /// Whether the answer was 11.
        cut: bool,
        /// The answer's value.
        value: u8,
    },
    /// Its own prepare was accepted, at this event, with this answer.
    Prepared {
        /// The event's place in the list.
        at: usize,
        /// Whether the answer was 11: then it is lost.
        cut: bool,
        /// Its identity.
        identity: u8,
        /// How many records it had changed: with none it just commits.
        changed: u8,
        /// The decision on it, once that is stored.
        decision: Option<Decision>,
    },
    /// Its own abort or an ancestor's was accepted at this event.
    Aborted(usize),
    /// A crash or an answer 11 to another's event ended it at this event.
    Crashed(usize),
}

/// A decision that was stored.
#[derive(Clone, Copy, Debug, PartialEq, Eq)]
pub struct Decision {
    /// The place of its event in the list.
    pub at: usize,
    /// The identity that the event names.
    pub identity: u8,
    /// To commit, or else to abort.
    pub commit: bool,
}

/// A transaction is one accepted begin, not a number.
#[derive(Clone, Debug)]
pub struct Transaction {
    /// The number it bears until it ends.
    pub number: u8,
    /// Its parent's place among the transactions; none for a top transaction.
    pub parent: Option<usize>,
    /// The place of its begin in the list; none if it was live before.
    pub begun: Option<usize>,
    /// How it ended.
    pub end: End,
    /// Whether it survives; every other transaction is lost.
    pub survives: bool,
}

/// A transaction that is live before the first event.
#[derive(Clone, Debug)]
pub struct Earlier {
    /// The number it bears.
    pub number: u8,
    /// The number of its parent; none for a top transaction.
    pub parent: Option<u8>,
    /// The records that it has a version of.
    pub changed: Vec<u8>,
}

/// An accepted write.
#[derive(Clone, Copy, Debug)]
pub struct Write {
    /// Its place in the list.
    pub at: usize,
    /// The writer's place among the transactions.
    pub transaction: usize,
    /// The record written.
    pub record: u8,
    /// The byte's place in the record.
    pub offset: u8,
    /// The byte.
    pub value: u8,
}

/// What the events and answers of a run tell.
#[derive(Clone, Debug, Default)]
pub struct History {
    /// In the order of their begins.
    pub transactions: Vec<Transaction>,
    /// In list order.
    pub writes: Vec<Write>,
    /// For each event the transaction that it belongs to.
    pub owner: Vec<Option<usize>>,
    /// The decision on a transaction that was prepared before the first event, once it is stored.
    pub decided_before: Option<Decision>,
    /// Transactions and the records that they had changed before the first event.
    carried: Vec<(usize, u8)>,
    /// The form of the store.
    pub(crate) form: Form,
}

/// An answer that no right run gives, at this event.
#[derive(Clone, Debug, PartialEq, Eq)]
pub struct Absurd {
    /// The event's place in the list.
    pub at: usize,
    /// What is wrong with its answer.
    pub what: &'static str,
}

/// Tells the history of a run of the plain form; the list has four bytes an event, the answers two.
pub fn tell(events: &[u8], answers: &[u8]) -> Result<History, Absurd> {
    Form::PLAIN.tell(events, answers)
}

/// Tells the history of a portion of the plain form, before which these transactions are live, parents before children.
pub fn tell_from(earlier: &[Earlier], events: &[u8], answers: &[u8]) -> Result<History, Absurd> {
    Form::PLAIN.tell_from(earlier, events, answers)
}

impl Form {
    /// Tells the history of a run.
    pub fn tell(self, events: &[u8], answers: &[u8]) -> Result<History, Absurd> {
        self.tell_from(&[], events, answers)
    }

    /// Tells the history of a portion, before which these transactions are live, parents before children.
    pub fn tell_from(self, earlier: &[Earlier], events: &[u8], answers: &[u8]) -> Result<History, Absurd> {
        let history = History { form: self, ..History::default() };
        let mut teller = Teller { history, bearers: [None; 32], waiting: None };
        earlier.iter().for_each(|transaction| teller.earlier(transaction));
        for (at, (word, answer)) in events.chunks_exact(self.word_bytes).zip(answers.chunks_exact(2)).enumerate() {
            teller.event(at, self.word(word), answer[0], answer[1])?;
        }
        let mut history = teller.history;
        history.judge();
        Ok(history)
    }
}

struct Teller {
    history: History,
    /// Who bears each number now.
    bearers: [Option<usize>; 32],
    /// Who is prepared and waits for a decision.
    waiting: Option<usize>,
}

impl Teller {
    fn earlier(&mut self, Earlier { number, parent, changed }: &Earlier) {
        let place = self.history.transactions.len();
        let parent = parent.and_then(|parent| self.bearers.get(usize::from(parent)).copied().flatten());
        if let Some(bearer) = self.bearers.get_mut(usize::from(*number)) {
            *bearer = Some(place);
        }
        let transaction = Transaction { number: *number, parent, begun: None, end: End::Never, survives: false };
        self.history.transactions.push(transaction);
        self.history.carried.extend(changed.iter().map(|record| (place, *record)));
    }

    fn event(&mut self, at: usize, word: Word, number: u8, value: u8) -> Result<(), Absurd> {
        let cut = number == 11;
        let accepted = number == 0 || cut;
        let bearer = if word.names_transaction() { self.bearers[usize::from(word.transaction)] } else { None };
        let begins = accepted && word.kind == Kind::Begin;
        let owner = if begins { Some(self.begin(at, word, value)?) } else { bearer };
        self.history.owner.push(owner);
        if accepted && !begins {
            if word.names_transaction() && owner.is_none() {
                return Err(Absurd { at, what: "accepted, but nobody bears the number that it names" });
            }
            self.accepted(at, word, owner, cut, value)?;
        }
        if cut {
            self.end_all(End::Crashed(at));
        }
        Ok(())
    }

    fn begin(&mut self, at: usize, word: Word, number: u8) -> Result<usize, Absurd> {
        let absurd = |what| Err(Absurd { at, what });
        let parent = self.bearers[usize::from(word.transaction)];
        if word.transaction != 31 && parent.is_none() {
            return absurd("begins under a number that nobody bears");
        }
        let place = self.history.transactions.len();
        match self.bearers.get_mut(usize::from(number)) {
            Some(bearer) if bearer.is_none() => *bearer = Some(place),
            _ => return absurd("gives a number that is taken or that there isn't"),
        }
        self.history.transactions.push(Transaction {
            number,
            parent,
            begun: Some(at),
            end: End::Never,
            survives: false,
        });
        Ok(place)
    }

    fn accepted(&mut self, at: usize, word: Word, owner: Option<usize>, cut: bool, value: u8) -> Result<(), Absurd> {
        match (word.kind, owner) {
            (Kind::Write, Some(transaction)) => {
                let Word { record, offset, value, .. } = word;
                self.history.writes.push(Write { at, transaction, record, offset, value });
            }
            (Kind::Commit, Some(transaction)) => self.end(transaction, End::Committed { at, cut, value }),
            (Kind::Abort, Some(aborted)) => {
                for transaction in 0..self.history.transactions.len() {
                    if self.history.line(transaction).any(|up| up == aborted) {
                        self.end(transaction, End::Aborted(at));
                    }
                }
            }
            (Kind::Crash, _) => self.end_all(End::Crashed(at)),
            (Kind::Prepare, Some(transaction)) => self.prepare(at, word, transaction, cut)?,
            // For another identity nothing is done, and no page is written.
            (Kind::Decide, _) if value > 0 => {
                self.decide(Decision { at, identity: word.value, commit: word.offset == 1 })?;
            }
            (Kind::Query, _) => self.query(at, word.value, value)?,
            _ => {}
        }
        Ok(())
    }

    /// Who changed nothing just commits; else it waits, or is lost where the prepare was cut.
    fn prepare(&mut self, at: usize, word: Word, transaction: usize, cut: bool) -> Result<(), Absurd> {
        let changed = self.history.changed_records(transaction);
        self.end(transaction, End::Prepared { at, cut, identity: word.value, changed, decision: None });
        if cut || changed == 0 {
            return Ok(());
        }
        match self.waiting.replace(transaction) {
            Some(_) => Err(Absurd { at, what: "prepares while another is prepared" }),
            None => Ok(()),
        }
    }

    /// A decision is on the one that waits, or else on one that was prepared before the first event.
    fn decide(&mut self, taken: Decision) -> Result<(), Absurd> {
        let Some(waiting) = self.waiting.take() else {
            return match self.history.decided_before.replace(taken) {
                Some(_) => Err(Absurd { at: taken.at, what: "decides, but nothing is prepared" }),
                None => Ok(()),
            };
        };
        match &mut self.history.transactions[waiting].end {
            End::Prepared { identity, decision, .. } if *identity == taken.identity => *decision = Some(taken),
            _ => return Err(Absurd { at: taken.at, what: "decides for another than is prepared" }),
        }
        Ok(())
    }

    fn query(&self, at: usize, asked: u8, value: u8) -> Result<(), Absurd> {
        let Some(waiting) = self.waiting else { return Ok(()) };
        let own = matches!(self.history.transactions[waiting].end, End::Prepared { identity, .. } if identity == asked);
        match value == u8::from(own) {
            true => Ok(()),
            false => Err(Absurd { at, what: "says of another than is prepared that it is" }),
        }
    }

    fn end(&mut self, transaction: usize, end: End) {
        let told = &mut self.history.transactions[transaction];
        if told.end == End::Never {
            told.end = end;
            self.bearers[usize::from(told.number)] = None;
        }
    }

    fn end_all(&mut self, end: End) {
        for transaction in 0..self.history.transactions.len() {
            self.end(transaction, end);
        }
    }
}

impl History {
    /// A transaction and its ancestors, nearest first.
    pub fn line(&self, transaction: usize) -> impl Iterator<Item = usize> + '_ {
        std::iter::successors(Some(transaction), |place| self.transactions[*place].parent)
    }

    /// The writes of surviving transactions.
    pub fn surviving_writes(&self) -> impl Iterator<Item = &Write> {
        self.writes.iter().filter(|write| self.transactions[write.transaction].survives)
    }

    /// Whether it is live after the last event, or committed to one that is: its fate is open, unless
    /// the last event counts as a crash.
    pub fn is_open(&self, transaction: usize) -> bool {
        self.end_of_line(transaction) == Some(End::Never)
    }

    /// Whether it is prepared and waits for its decision after the last event, or committed to one that
    /// does: a crash doesn't change that.
    pub fn is_waiting(&self, transaction: usize) -> bool {
        let end = self.end_of_line(transaction);
        matches!(end, Some(End::Prepared { cut: false, changed: 1.., decision: None, .. }))
    }

    /// Whether its fate isn't decided after the last event.
    pub fn is_undecided(&self, transaction: usize) -> bool {
        self.is_open(transaction) || self.is_waiting(transaction)
    }

    /// How the first of its line ended that didn't commit.
    fn end_of_line(&self, transaction: usize) -> Option<End> {
        self.line(transaction).find(|up| !self.committed(*up)).map(|last| self.transactions[last].end)
    }

    fn committed(&self, transaction: usize) -> bool {
        matches!(self.transactions[transaction].end, End::Committed { .. })
    }

    /// The records with an accepted write by a transaction itself or by a descendant that
    /// committed, as did every transaction between.
    fn changed_records(&self, top: usize) -> u8 {
        let reaches = |(writer, _): &(usize, u8)| {
            let mut below = self.line(*writer).take_while(|up| *up != top);
            self.line(*writer).any(|up| up == top) && below.all(|up| self.committed(up))
        };
        let written = self.writes.iter().map(|write| (write.transaction, write.record));
        let changed = self.carried.iter().copied().chain(written).filter(reaches);
        changed.fold(0u64, |map, (_, record)| map | 1 << record).count_ones() as u8
    }

    /// Finds who survives. A parent begins before its children, so parents are judged first.
    fn judge(&mut self) {
        for place in 0..self.transactions.len() {
            let survives = match (self.transactions[place].end, self.transactions[place].parent) {
                (End::Committed { .. }, Some(parent)) => self.transactions[parent].survives,
                (End::Committed { cut: false, .. }, None) => true,
                (End::Committed { cut: true, value, .. }, None) => value > self.changed_records(place),
                // With no change it just commits; else it is lost until the decision to commit is stored.
                (End::Prepared { changed, decision, cut: false, .. }, None) => {
                    changed == 0 || decision.is_some_and(|decision| decision.commit)
                }
                _ => false,
            };
            self.transactions[place].survives = survives;
        }
    }
}
