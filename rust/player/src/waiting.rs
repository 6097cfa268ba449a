//! Transactions that wait on each other: the report over plain facts and a list of waiting rows.
//!
//! Who points to whom is a map of sets, filled sentence by sentence. A ring is searched for breadth first
//! from each transaction, so the one that is shown is as short as any.

use crate::event::{Mode, Record, Transaction};
use crate::limits::RECORDS;
use crate::soundness::Facts;
use crate::store::CommitPage;
use crate::{BAD_RECORD, BAD_STATE};
use std::collections::{BTreeMap, BTreeSet, VecDeque};

/// Refused: more than 24 rows.
pub const TOO_MANY_ROWS: u8 = 26;
/// Refused: a row's transaction isn't live.
pub const DEAD: u8 = 5;
/// Refused: a row's mode is neither 0 nor 1.
pub const BAD_MODE: u8 = 1;
/// As many rows as a report takes.
pub const ROWS: usize = 24;

/// A row as it comes in: a transaction waits for a record's lock, mode 0 to write, 1 to read.
#[derive(Clone, Copy, Debug, PartialEq, Eq)]
pub struct Row {
    /// Who waits.
    pub transaction: u8,
    /// For which record.
    pub record: u8,
    /// In which mode.
    pub mode: u8,
}

/// Who points to whom.
pub type Pointings = BTreeMap<Transaction, BTreeSet<Transaction>>;

/// The report: a shortest ring, if there is one, or the number of the refusal. The store is put aside, so
/// facts are judged as over an empty commit page.
pub fn report(facts: &Facts, rows: &[Row]) -> Result<Option<Vec<Transaction>>, u8> {
    if facts.fault(&CommitPage::Empty).is_some() {
        return Err(BAD_STATE);
    }
    Ok(shortest_ring(&pointings(facts, &asked(facts, rows)?)))
}

/// Who asks for what, or the refusal of the first row that can't be taken.
pub fn asked(facts: &Facts, rows: &[Row]) -> Result<Vec<(Transaction, Record, Mode)>, u8> {
    if rows.len() > ROWS {
        return Err(TOO_MANY_ROWS);
    }
    let ask = |row: &Row| {
        let waiter = Transaction(row.transaction);
        let live = facts.live.contains_key(&waiter);
        let mode = [Mode::Write, Mode::Read].get(usize::from(row.mode));
        match (live, usize::from(row.record) < RECORDS, mode) {
            (false, _, _) => Err(DEAD),
            (true, false, _) => Err(BAD_RECORD),
            (true, true, None) => Err(BAD_MODE),
            (true, true, Some(mode)) => Ok((waiter, Record(row.record), *mode)),
        }
    };
    rows.iter().map(ask).collect()
}

/// Who points to whom while these are asked for.
pub fn pointings(facts: &Facts, asked: &[(Transaction, Record, Mode)]) -> Pointings {
    let mut points = Pointings::new();
    // Every transaction points to its live children.
    for (child, begun) in &facts.live {
        if let Some(parent) = begun.parent {
            points.entry(parent).or_default().insert(*child);
        }
    }
    for (waiter, record, mode) in asked {
        let own = ancestors(facts, *waiter);
        for blocker in blockers(facts, *waiter, *record, *mode) {
            let others = ancestors(facts, blocker).into_iter().filter(|up| up != waiter && !own.contains(up));
            points.entry(*waiter).or_default().extend(others.chain([blocker]));
        }
    }
    points
}

/// Who keeps a lock from being granted: to read, each other that holds in write mode and each stranger that
/// retains so; to write, the same in any mode.
fn blockers(facts: &Facts, waiter: Transaction, record: Record, mode: Mode) -> Vec<Transaction> {
    let own = ancestors(facts, waiter);
    let bars = |had: &Mode| mode == Mode::Write || *had == Mode::Write;
    let of = |((on, who), had): (&(Record, Transaction), &Mode)| (*on == record && bars(had)).then_some(*who);
    let holders = facts.holders.iter().filter_map(of).filter(|holder| *holder != waiter);
    let retainers = facts.retainers.iter().filter_map(of).filter(|t| *t != waiter && !own.contains(t));
    holders.chain(retainers).collect()
}

/// The ancestors of a transaction, itself not among them.
fn ancestors(facts: &Facts, transaction: Transaction) -> Vec<Transaction> {
    let parent = |t: &Transaction| facts.live.get(t)?.parent;
    std::iter::successors(parent(&transaction), parent).collect()
}

/// Whether each of these points to the next, the last to the first, and none stands there twice.
pub fn is_ring(points: &Pointings, ring: &[Transaction]) -> bool {
    let next = ring.iter().skip(1).chain(ring.first());
    let points_on = |(one, other): (&Transaction, &Transaction)| points.get(one).is_some_and(|to| to.contains(other));
    let once: BTreeSet<_> = ring.iter().collect();
    !ring.is_empty() && once.len() == ring.len() && ring.iter().zip(next).all(points_on)
}

/// A ring that is no longer than any other.
pub fn shortest_ring(points: &Pointings) -> Option<Vec<Transaction>> {
    points.keys().filter_map(|start| way_back(points, *start)).min_by_key(Vec::len)
}

/// The shortest way from a transaction back to itself, with that transaction first.
fn way_back(points: &Pointings, start: Transaction) -> Option<Vec<Transaction>> {
    let mut came_from = BTreeMap::new();
    let mut next = VecDeque::from([start]);
    while let Some(here) = next.pop_front() {
        for to in points.get(&here).into_iter().flatten() {
            if *to == start {
                let mut way: Vec<_> = std::iter::successors(Some(here), |t| came_from.get(t).copied()).collect();
                way.reverse();
                return Some(way);
            }
            if !came_from.contains_key(to) {
                came_from.insert(*to, here);
                next.push_back(*to);
            }
        }
    }
    None
}

#[cfg(test)]
mod tests {
    use super::*;

    fn graph(edges: &[(u8, u8)]) -> Pointings {
        let mut points = Pointings::new();
        for (one, other) in edges {
            points.entry(Transaction(*one)).or_default().insert(Transaction(*other));
        }
        points
    }

    fn numbers(ring: Option<Vec<Transaction>>) -> Option<Vec<u8>> {
        ring.map(|ring| ring.iter().map(|t| t.0).collect())
    }

    #[test]
    fn a_shortest_ring_is_found_where_there_is_one() {
        assert_eq!(numbers(shortest_ring(&graph(&[]))), None);
        assert_eq!(numbers(shortest_ring(&graph(&[(0, 1), (0, 2), (1, 3), (2, 3)]))), None);
        assert_eq!(numbers(shortest_ring(&graph(&[(0, 1), (1, 2), (2, 1)]))), Some(vec![1, 2]));
        assert_eq!(numbers(shortest_ring(&graph(&[(3, 0), (0, 2), (0, 1), (2, 3), (3, 1)]))), Some(vec![0, 2, 3]));
        assert_eq!(numbers(shortest_ring(&graph(&[(0, 1), (1, 2), (2, 0), (4, 5), (5, 4)]))), Some(vec![4, 5]));
    }

    #[test]
    fn a_ring_is_closed_and_has_none_twice() {
        let points = graph(&[(0, 1), (1, 0), (1, 2)]);
        let is = |ring: &[u8]| is_ring(&points, &ring.iter().map(|t| Transaction(*t)).collect::<Vec<_>>());
        assert!(is(&[0, 1]) && is(&[1, 0]));
        assert!(!is(&[]) && !is(&[0]) && !is(&[0, 1, 2]) && !is(&[0, 1, 0, 1]));
    }
}
