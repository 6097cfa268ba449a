//! Reports on transactions that wait on each other: the library's against one over plain facts.

use crate::lent;
use nekahuiro::limits::{RECORDS, TRANSACTIONS};
use nekahuiro::{Ring, Row, State, Work};
use nekahuiro_lists::{stores, Rng};
use nekahuiro_player::event::{Mode, Record, Transaction};
use nekahuiro_player::soundness::{Begun, Facts};
use nekahuiro_player::waiting::{asked, is_ring, pointings, shortest_ring, Row as PlayersRow};
use nekahuiro_player::BAD_STATE;

/// A program that reports, as the library does.
pub type Reports = fn(&State, &[Row], &mut Ring) -> u8;

/// What stands in a ring before a report.
const BEFORE: Ring = Ring { length: 0x99, transactions: [0x99; TRANSACTIONS] };

/// What a report said that is right.
#[derive(Clone, Copy, Debug, PartialEq, Eq)]
pub enum Said {
    /// Refused, with this number.
    Refused(u8),
    /// There is no ring.
    NoRing,
    /// A ring of this length.
    Ring(usize),
}

/// The facts of a state that may be lent, whatever the store holds; none if it isn't sound.
pub fn sound(state: &State) -> Option<Facts> {
    lent::judge(state, &Work::new(), &stores::fresh()).ok()
}

/// What a program says to a state and its rows, if that is right; else what is wrong with it.
pub fn check(reports: Reports, state: &State, facts: Option<&Facts>, rows: &[Row]) -> Result<Said, String> {
    let (lent, given, mut ring) = (state.clone(), rows.to_vec(), BEFORE);
    let number = reports(&lent, &given, &mut ring);
    let wrong = |what: String| Err(format!("{what}\nrows {rows:?}\n{state:?}"));
    if lent != *state || given != rows {
        return wrong("something was changed".to_string());
    }
    let due = facts.ok_or(BAD_STATE).and_then(|facts| Ok((facts, asked(facts, &players(rows))?)));
    let (facts, asked) = match due {
        Err(refusal) if (number, ring) == (refusal, BEFORE) => return Ok(Said::Refused(refusal)),
        Err(refusal) => return wrong(format!("{refusal} is due, and {number} is answered with {ring:?}")),
        Ok(_) if number != 0 => return wrong(format!("{number} is answered, and nothing is to be refused")),
        Ok(taken) => taken,
    };
    let points = pointings(facts, &asked);
    let length = usize::from(ring.length);
    let Some((shown, rest)) = ring.transactions.split_at_checked(length) else {
        return wrong(format!("a ring of {length}"));
    };
    if rest.iter().any(|byte| *byte != 0) {
        return wrong(format!("no zeros after the ring: {ring:?}"));
    }
    let shown: Vec<Transaction> = shown.iter().map(|t| Transaction(*t)).collect();
    match shortest_ring(&points) {
        None if length == 0 => Ok(Said::NoRing),
        None => wrong(format!("{shown:?} is shown, and there is no ring")),
        Some(_) if is_ring(&points, &shown) => Ok(Said::Ring(length)),
        Some(due) => wrong(format!("{shown:?} is no ring, and {due:?} is one")),
    }
}

fn players(rows: &[Row]) -> Vec<PlayersRow> {
    let row = |row: &Row| PlayersRow { transaction: row.transaction, record: row.record, mode: row.mode };
    rows.iter().map(row).collect()
}

/// Rows that make sense on a state: mostly of live transactions, on few records; now and then one that is bad.
pub fn any_rows(state: &State, rng: &mut Rng) -> Vec<Row> {
    let live: Vec<u8> = state.live().map(|t| t.number()).collect();
    let locked: Vec<u8> =
        (0..RECORDS).filter(|r| state.held[2 * r] | state.retained[2 * r] != 0).map(|r| r as u8).collect();
    let bad = rng.one_of([0, 0, 0, 2, 20]);
    let row = |rng: &mut Rng| {
        let transaction = rng.pick(&live).copied().filter(|_| !rng.percent(bad)).unwrap_or(rng.below(32) as u8);
        let record = rng.pick(&locked).copied().filter(|_| rng.percent(90)).unwrap_or(rng.below(RECORDS) as u8);
        match rng.percent(bad) {
            true => Row { transaction, record: rng.byte(), mode: rng.below(4) as u8 },
            false => Row { transaction, record, mode: rng.below(2) as u8 },
        }
    };
    let most = if rng.percent(3) { 40 } else { rng.one_of([2, 5, 24]) };
    let count = rng.below(1 + most);
    (0..count).map(|_| row(rng)).collect()
}

/// The parents of `count` transactions by the number of a choice, if they form a forest: each has nobody or
/// another as its parent.
fn forest(count: usize, mut choice: usize) -> Option<Vec<Option<usize>>> {
    let mut parents = Vec::new();
    for _ in 0..count {
        parents.push((choice % (count + 1)).checked_sub(1));
        choice /= count + 1;
    }
    let line = |t: usize| std::iter::successors(Some(t), |t| parents[*t]).take(count + 1).count();
    (0..count).all(|t| line(t) <= count).then_some(parents)
}

/// How many choices of parents there are for `count` transactions, forests or not.
pub fn forests(count: usize) -> usize {
    (count + 1).pow(count as u32)
}

/// How many ways `count` transactions can have to do with one lock, sound or not.
pub fn ways(count: usize) -> usize {
    9usize.pow(count as u32)
}

/// The facts of the forest of this choice in which each record's lock is had in the way of its number; none if
/// it is no forest.
pub fn small(count: usize, choice: usize, locks: &[usize]) -> Option<Facts> {
    let mut facts = Facts { up: true, ..Facts::default() };
    let parents = forest(count, choice)?;
    for t in 0..count {
        let depth = std::iter::successors(Some(t), |t| parents[*t]).count() as u8;
        let parent = parents[t].map(|parent| Transaction(parent as u8));
        facts.live.insert(Transaction(t as u8), Begun { parent, depth });
    }
    for (record, way) in (0..).map(Record).zip(locks) {
        let mut way = *way;
        for t in (0..count as u8).map(Transaction) {
            facts.holders.extend(mode(way % 3).map(|mode| ((record, t), mode)));
            facts.retainers.extend(mode(way / 3 % 3).map(|mode| ((record, t), mode)));
            way /= 9;
        }
    }
    Some(facts)
}

fn mode(number: usize) -> Option<Mode> {
    [None, Some(Mode::Read), Some(Mode::Write)][number]
}

/// The rows of a choice: each transaction waits for nothing, or for one record to read or to write.
pub fn small_rows(count: usize, records: usize, mut choice: usize) -> Vec<Row> {
    let mut rows = Vec::new();
    for transaction in 0..count as u8 {
        if let Some(what) = (choice % (2 * records + 1)).checked_sub(1) {
            rows.push(Row { transaction, record: (what / 2) as u8, mode: (what % 2) as u8 });
        }
        choice /= 2 * records + 1;
    }
    rows
}
