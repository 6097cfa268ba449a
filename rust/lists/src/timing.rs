//! The lists of the benchmark: deep nesting, flat transactions, and a mixture with refusals. Each seed gives others of the
//! same kind. They are no test of answers: home pages are hardly read.

use crate::{Form, Rng};
use nekahuiro::limits::{DEPTH_LIMIT, EVENTS, TRANSACTIONS};
use nekahuiro::{Fields, Transaction};

/// A list by its seed, of the greatest length.
pub type Make = fn(u64) -> Vec<u8>;

/// The kinds of lists, by name.
pub const KINDS: [(&str, Make); 3] = [("deep", deep), ("flat", flat), ("mixed", mixed)];

/// A list of a form by its seed, of the greatest length.
pub type MakeOf = fn(Form, u64) -> Vec<u8>;

/// The same kinds, of any form.
pub const KINDS_OF: [(&str, MakeOf); 3] = [("deep", deep_of), ("flat", flat_of), ("mixed", mixed_of)];

/// One list of each kind.
pub fn all() -> [(&'static str, Vec<u8>); 3] {
    KINDS.map(|(name, make)| (name, make(1)))
}

const NO_PARENT: u8 = Transaction::NONE.number();

fn begin(parent: u8) -> Fields {
    Fields { kind: 1, transaction: parent, ..Fields::default() }
}

fn recover(form: Form) -> Fields {
    Fields { kind: 8, count: form.count_limit, ..Fields::default() }
}

fn commit(form: Form, transaction: u8) -> Fields {
    Fields { kind: 5, transaction, count: form.count_limit, ..Fields::default() }
}

fn end(form: Form, transaction: u8, rng: &mut Rng) -> Fields {
    if rng.below(4) == 0 {
        Fields { kind: 6, transaction, ..Fields::default() }
    } else {
        commit(form, transaction)
    }
}

/// Three times lock, write, read on one of the records that are this transaction's share.
fn work(form: Form, transaction: u8, share: usize, rng: &mut Rng, list: &mut Vec<Fields>) {
    for _ in 0..3 {
        let record = (usize::from(transaction) * share % form.records + rng.below(share)) as u8;
        let named = Fields { transaction, record, ..Fields::default() };
        list.push(Fields { kind: 2, ..named });
        list.push(Fields { kind: 3, offset: rng.below(32) as u8, value: rng.byte(), ..named });
        list.push(Fields { kind: 4, offset: rng.below(32) as u8, ..named });
    }
}

fn words(form: Form, mut list: Vec<Fields>) -> Vec<u8> {
    list.truncate(EVENTS);
    form.words(&list)
}

/// Nest to the depth limit, working at each depth, then commit or abort back up.
pub fn deep(seed: u64) -> Vec<u8> {
    deep_of(Form::PLAIN, seed)
}

/// The same in the words of a form, over its records.
pub fn deep_of(form: Form, seed: u64) -> Vec<u8> {
    let (mut rng, mut list) = (Rng::new(seed), vec![recover(form)]);
    while list.len() < EVENTS {
        for depth in 0..DEPTH_LIMIT as u8 {
            list.push(begin(if depth == 0 { NO_PARENT } else { depth - 1 }));
            work(form, depth, form.records / DEPTH_LIMIT, &mut rng, &mut list);
        }
        for depth in (0..DEPTH_LIMIT as u8).rev() {
            list.push(end(form, depth, &mut rng));
        }
    }
    words(form, list)
}

/// Eight top transactions side by side, then each commits or aborts.
pub fn flat(seed: u64) -> Vec<u8> {
    flat_of(Form::PLAIN, seed)
}

/// The same in the words of a form, over its records.
pub fn flat_of(form: Form, seed: u64) -> Vec<u8> {
    let (mut rng, mut list) = (Rng::new(seed), vec![recover(form)]);
    while list.len() < EVENTS {
        for transaction in 0..8 {
            list.push(begin(NO_PARENT));
            work(form, transaction, form.records / 8, &mut rng, &mut list);
        }
        for transaction in 0..8 {
            list.push(end(form, transaction, &mut rng));
        }
    }
    words(form, list)
}

/// Random events with random numbers: many are refused.
pub fn mixed(seed: u64) -> Vec<u8> {
    mixed_of(Form::PLAIN, seed)
}

/// The same in the words of a form, over its records.
pub fn mixed_of(form: Form, seed: u64) -> Vec<u8> {
    let (mut rng, mut list) = (Rng::new(seed), vec![recover(form)]);
    while list.len() < EVENTS {
        let transaction = rng.below(TRANSACTIONS) as u8;
        let (record, offset) = (rng.below(form.records) as u8, rng.below(32) as u8);
        let named = Fields { transaction, record, ..Fields::default() };
        list.push(match rng.below(16) {
            0..=2 if rng.below(3) == 0 => begin(NO_PARENT),
            0..=2 => begin(transaction),
            3..=7 => Fields { kind: 2, ..named },
            8..=10 => Fields { kind: 3, offset, value: rng.byte(), ..named },
            11..=13 => Fields { kind: 4, offset, ..named },
            14 => commit(form, transaction),
            _ => Fields { kind: 6, transaction, ..Fields::default() },
        });
    }
    words(form, list)
}
