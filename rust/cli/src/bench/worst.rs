//! The costliest event of each kind: what it takes in a state in which each loop that it runs goes as far as it can.
//!
//! No loop of the engine goes further than the records (16, in edition 2 64), the transactions (24) or the depths (16), so
//! these are bounds.

use nekahuiro::limits::{DEPTH_LIMIT, TRANSACTIONS};
use nekahuiro::{Edition, Fields, Transaction};

const TOP: u8 = Transaction::NONE.number();
const DEEPEST: u8 = DEPTH_LIMIT as u8 - 1;
const LAST: u8 = TRANSACTIONS as u8 - 1;
const PREPARED: u8 = 7;

/// A kind of event: its name, the events before it, and the event itself.
pub struct Worst {
    pub name: &'static str,
    edition: Edition,
    before: Vec<Fields>,
    event: Fields,
}

impl Worst {
    /// The words before the event, and with it.
    pub fn words(&self) -> [Vec<u8>; 2] {
        let before: Vec<u8> = self.before.iter().flat_map(|fields| self.edition.word(*fields)).collect();
        let with = before.iter().copied().chain(self.edition.word(self.event)).collect();
        [before, with]
    }
}

fn begin(parent: u8) -> Fields {
    Fields { kind: 1, transaction: parent, ..Fields::default() }
}

fn record_event(kind: u8, transaction: u8, record: u8) -> Fields {
    Fields { kind, transaction, record, ..Fields::default() }
}

fn ending(kind: u8, transaction: u8, count: u8) -> Fields {
    Fields { kind, transaction, count, ..Fields::default() }
}

fn recover(edition: Edition) -> Fields {
    ending(8, 0, edition.count_limit())
}

/// Up, with a top transaction.
fn up(edition: Edition) -> Vec<Fields> {
    vec![recover(edition), begin(TOP)]
}

/// The transaction locks every record and writes to it.
fn changes_all(edition: Edition, transaction: u8) -> impl Iterator<Item = Fields> {
    (0..edition.records as u8).flat_map(move |record| [2, 3].map(|kind| record_event(kind, transaction, record)))
}

/// A top transaction has changed every record.
fn changed(edition: Edition) -> Vec<Fields> {
    up(edition).into_iter().chain(changes_all(edition, 0)).collect()
}

/// Transactions 0 to 15, each under the one before, and the rest under the last but one. Before its child begins, each down to depth
/// `changing` has changed every record, by a child that committed.
fn nested(edition: Edition, changing: u8) -> Vec<Fields> {
    let mut list = up(edition);
    for transaction in 0..=DEEPEST {
        if transaction < changing {
            list.push(begin(transaction));
            list.extend(changes_all(edition, transaction + 1));
            list.push(ending(5, transaction + 1, 0));
        }
        if transaction < DEEPEST {
            list.push(begin(transaction));
        }
    }
    list
}

/// The same, with as many live as there can be but one.
fn crowded(edition: Edition, changing: u8) -> Vec<Fields> {
    let mut list = nested(edition, changing);
    list.extend((DEEPEST + 1..LAST).map(|_| begin(DEEPEST - 1)));
    list
}

fn after(mut before: Vec<Fields>, more: impl IntoIterator<Item = Fields>) -> Vec<Fields> {
    before.extend(more);
    before
}

pub fn all(edition: Edition) -> Vec<Worst> {
    let (last_record, count) = (edition.records as u8 - 1, edition.count_limit());
    let (nested, crowded) = (|changing| nested(edition, changing), |changing| crowded(edition, changing));
    let changed = || changed(edition);
    let locked = after(nested(1), [record_event(2, DEEPEST, last_record)]);
    let cut = ending(5, 0, 1 + edition.records as u8);
    let of = |name, before, event| Worst { name, edition, before, event };
    let mut all = vec![
        of("begin", crowded(1), begin(DEEPEST - 1)),
        of("lock", nested(1), record_event(2, DEEPEST, last_record)),
        of("write", locked.clone(), record_event(3, DEEPEST, last_record)),
        of("read", locked, record_event(4, DEEPEST, last_record)),
        of("commit of a child", after(nested(DEEPEST), changes_all(edition, DEEPEST)), ending(5, DEEPEST, 0)),
        of("commit", changed(), ending(5, 0, count)),
        of("abort", crowded(DEEPEST), Fields { kind: 6, ..Fields::default() }),
        of("crash", crowded(DEEPEST), Fields { kind: 7, ..Fields::default() }),
        of("recover", after(changed(), [cut]), recover(edition)),
    ];
    if edition.two_phases {
        let prepare = Fields { value: PREPARED, ..ending(9, 0, count) };
        let prepared = after(changed(), [prepare]);
        let decide = |offset| Fields { kind: 10, offset, count, value: PREPARED, ..Fields::default() };
        all.extend([
            of("prepare", changed(), prepare),
            of("decide to commit", prepared.clone(), decide(1)),
            of("decide to abort", prepared.clone(), decide(0)),
            of("query", prepared, Fields { kind: 11, value: PREPARED, ..Fields::default() }),
        ]);
    }
    all
}

#[cfg(test)]
mod tests {
    use super::*;
    use crate::store::Store;

    #[test]
    fn each_event_is_done() {
        for (edition, kinds) in Edition::ALL.into_iter().zip([13, 9, 9]) {
            assert_eq!(all(edition).len(), kinds);
            for worst in all(edition) {
                let [_, events] = worst.words();
                let answers = Store::fresh(edition).play_words(&events).unwrap_or_else(|refused| panic!("{refused}"));
                let refused = answers.iter().position(|answer| !answer.is_accepted());
                assert_eq!(refused, None, "{} of edition {}", worst.name, edition.number);
            }
        }
    }
}
