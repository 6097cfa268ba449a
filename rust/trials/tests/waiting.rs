//! Transactions that wait on each other: the report against an independent search, and what it refuses.

use nekahuiro::limits::{ROWS, TRANSACTIONS};
use nekahuiro::{raw, Event, Refusal, Ring, Row, State};
use nekahuiro_lists::{stores, Rng};
use nekahuiro_trials::lent::encode;
use nekahuiro_trials::portions::{rng, share, Board};
use nekahuiro_trials::states::{any_state, mutate, start};
use nekahuiro_trials::waiting::{any_rows, check, forests, small, small_rows, sound, ways, Reports, Said};
use nekahuiro_trials::{listed, settings};
use std::sync::atomic::{AtomicU64, Ordering};

/// The state after `recover 63` and these events on a fresh store.
fn after(list: &str) -> State {
    let mut board = Board::new(stores::fresh(), &mut Rng::new(6));
    board.play(&listed::words(&format!("recover 63, {list}"))).unwrap();
    board.state
}

fn rows(list: &str) -> Vec<Row> {
    list.split(',').filter_map(|words| Row::of(&words.parse::<Event>().ok()?)).collect()
}

/// The ring that the library shows.
fn ring(list: &str, waiting: &str) -> Vec<u8> {
    let (state, rows) = (after(list), rows(waiting));
    check(raw::waiting, &state, sound(&state).as_ref(), &rows).unwrap();
    state.waiting(&rows).unwrap().transactions().map(|t| t.number()).collect()
}

#[test]
fn the_rings_of_the_readings_are_shown() {
    let parent_holds = "begin none, lock 0 3, begin 0";
    assert_eq!(ring(parent_holds, "lock 1 3"), [0, 1]);
    let crossing = "begin none, begin none, lock 0 3, lock 1 4";
    assert_eq!(ring(crossing, "lock 0 4, lock 1 3"), [0, 1]);
    assert_eq!(ring(crossing, "read-lock 0 4, read-lock 1 3"), [0, 1]);
    assert_eq!(ring(crossing, "lock 0 4"), []);
    let readers = "begin none, begin none, read-lock 0 3, read-lock 1 3";
    assert_eq!(ring(readers, "lock 0 3, lock 1 3"), [0, 1]);
    assert_eq!(ring(readers, "lock 0 3, read-lock 1 3"), []);
    // The example of source document 000, 6.2.3.
    let moss = "begin none, begin 0, lock 1 1, begin 0, begin none, lock 3 2";
    assert_eq!(ring(moss, "lock 2 2, lock 3 1"), [0, 2, 3]);
    assert_eq!(ring(moss, "lock 2 1"), []);
    let own_child = "begin none, lock 0 3, begin 0, lock 1 4";
    assert_eq!(ring(own_child, "lock 0 4"), []);
    assert_eq!(ring(own_child, "lock 0 4, lock 1 3"), [0, 1]);
    // One transaction with two rows, each of which closes nothing alone.
    let three = "begin none, lock 0 0, begin none, lock 1 1, begin none, lock 2 2";
    assert_eq!(ring(three, "lock 0 1, lock 0 2, lock 2 0"), [0, 2]);
    assert_eq!(ring(three, "lock 0 1, lock 1 2, lock 2 0"), [0, 1, 2]);
    assert_eq!(ring(three, "lock 0 0, lock 1 9, read-lock 2 2"), []);
}

#[test]
fn every_depth_can_be_in_a_ring() {
    let below: Vec<String> = (0..15).map(|parent| format!("begin {parent}")).collect();
    let list = format!("begin none, lock 0 3, {}", below.join(", "));
    assert_eq!(ring(&list, "lock 15 3"), (0..16).collect::<Vec<u8>>());
    // Twenty-four top transactions in one ring.
    let held: Vec<String> = (0..24).map(|t| format!("begin none, read-lock {t} {}", t % 16)).collect();
    let state = after(&held.join(", "));
    let rows: Vec<Row> = (0..24).map(|t| Row { transaction: t, record: (t + 1) % 24 % 16, mode: 0 }).collect();
    assert!(matches!(check(raw::waiting, &state, sound(&state).as_ref(), &rows), Ok(Said::Ring(2..))));
}

#[test]
fn refusals_come_in_their_order() {
    let state = after("begin none, begin none, lock 1 3");
    let row = |transaction, record, mode| Row { transaction, record, mode };
    let fine = row(0, 3, 0);
    let cases: &[(&[Row], Result<u8, Refusal>)] = &[
        (&[], Ok(0)),
        (&[fine; ROWS], Ok(0)),
        (&[fine; ROWS + 1], Err(Refusal::Rows)),
        (&[row(9, 99, 99); ROWS + 1], Err(Refusal::Rows)),
        (&[row(9, 99, 99)], Err(Refusal::NotLive)),
        (&[row(24, 0, 0)], Err(Refusal::NotLive)),
        (&[row(255, 0, 0)], Err(Refusal::NotLive)),
        (&[row(0, 16, 99)], Err(Refusal::Record)),
        (&[row(0, 15, 2)], Err(Refusal::Mode)),
        (&[row(0, 15, 1)], Ok(0)),
        (&[row(0, 3, 7), row(9, 3, 0)], Err(Refusal::Mode)),
        (&[fine, row(0, 255, 0), row(9, 3, 0)], Err(Refusal::Record)),
    ];
    for (rows, due) in cases {
        assert_eq!(state.waiting(rows).map(|ring| ring.length), *due, "{rows:?}");
        check(raw::waiting, &state, sound(&state).as_ref(), rows).unwrap();
        let unsound = State { spare: [0, 0, 1], ..state.clone() };
        assert_eq!(unsound.waiting(rows), Err(Refusal::State), "{rows:?}");
    }
    // Down: every row names a dead transaction, and without rows there is no ring.
    assert_eq!(State::new().waiting(&[]), Ok(Ring::default()));
    assert_eq!(State::new().waiting(&[fine]), Err(Refusal::NotLive));
}

/// What is prepared is in the store alone: it blocks its records, and nobody waits for it.
#[test]
fn nobody_waits_for_what_is_prepared() {
    let mut board = Board::new(stores::fresh(), &mut Rng::new(6));
    let list = "recover 63, begin none, lock 0 3, write 0 3 0 11, prepare 0 63 7, begin none";
    board.play(&listed::words(list)).unwrap();
    assert_eq!(board.play(&listed::words("lock 0 3")).unwrap(), [8, 0]);
    assert_eq!(board.state.waiting(&rows("lock 0 3")), Ok(Ring::default()));
}

/// How many reports said what.
#[derive(Default)]
struct Tally {
    refused: AtomicU64,
    without: AtomicU64,
    with: AtomicU64,
    longest: AtomicU64,
}

impl Tally {
    fn add(&self, said: Said) {
        match said {
            Said::Refused(_) => self.refused.fetch_add(1, Ordering::Relaxed),
            Said::NoRing => self.without.fetch_add(1, Ordering::Relaxed),
            Said::Ring(length) => {
                self.longest.fetch_max(length as u64, Ordering::Relaxed);
                self.with.fetch_add(1, Ordering::Relaxed)
            }
        };
    }

    fn in_words(&self) -> String {
        let get = |count: &AtomicU64| count.load(Ordering::Relaxed);
        let (with, longest) = (get(&self.with), get(&self.longest));
        let all = get(&self.refused) + get(&self.without) + with;
        format!("{all} reports, {} refused, {with} with a ring, the longest of {longest}", get(&self.refused))
    }
}

#[test]
fn random_reports_are_those_of_an_independent_search() {
    let states = settings::lists() / 5;
    let tally = Tally::default();
    let failure = share(states, |number| {
        let mut rng = rng(18, number);
        let mut state = match rng.percent(50) {
            true => any_state(&mut rng),
            false => start(settings::seed() + 18, number, &mut rng)?.0,
        };
        if rng.percent(10) {
            mutate(&mut state, &mut rng);
        }
        let facts = sound(&state);
        for _ in 0..5 {
            tally.add(check(raw::waiting, &state, facts.as_ref(), &any_rows(&state, &mut rng))?);
        }
        Ok(())
    });
    assert_eq!(failure, None, "seed {}", settings::seed());
    println!("waiting, random: {}", tally.in_words());
    let with = tally.with.load(Ordering::Relaxed);
    assert!(states < 1_000 || with * 10 > states, "{with} of {states} states have a ring");
}

/// Every state of so many transactions and records, sound or not, with every choice of at most one row for each
/// transaction. Of states that differ only in which record is which, one is tried: all rows are tried on each, so
/// the others would ask the same with the records exchanged.
fn every_state(count: usize, records: usize) -> Tally {
    let (tally, ways) = (Tally::default(), ways(count));
    let states = forests(count) * ways.pow(records as u32);
    let failure = share(states as u64, |number| {
        let (choice, mut rest) = (number as usize % forests(count), number as usize / forests(count));
        let mut locks = Vec::new();
        for _ in 0..records {
            locks.push(rest % ways);
            rest /= ways;
        }
        if !locks.is_sorted() {
            return Ok(());
        }
        let Some(facts) = small(count, choice, &locks) else { return Ok(()) };
        let state = encode(&facts);
        let Some(facts) = sound(&state) else {
            tally.add(check(raw::waiting, &state, None, &[])?);
            return Ok(());
        };
        for rows in 0..(2 * records + 1).pow(count as u32) {
            tally.add(check(raw::waiting, &state, Some(&facts), &small_rows(count, records, rows))?);
        }
        Ok(())
    });
    assert_eq!(failure, None);
    println!("waiting, all of {count} on {records}: {}", tally.in_words());
    tally
}

#[test]
fn every_state_of_up_to_four_transactions_on_one_record() {
    for count in 0..=4 {
        every_state(count, 1);
    }
}

#[test]
fn every_state_of_up_to_three_transactions_on_two_records() {
    for count in 0..=3 {
        every_state(count, 2);
    }
}

/// Reports that are wrong, each in its own way.
const WRONG: &[(&str, Reports)] = &[
    ("never a ring", |_, _, ring| {
        *ring = Ring::default();
        0
    }),
    ("backwards", |state, rows, ring| {
        let number = raw::waiting(state, rows, ring);
        if number == 0 {
            ring.transactions[..usize::from(ring.length)].reverse();
        }
        number
    }),
    ("not closed", |state, rows, ring| {
        let number = raw::waiting(state, rows, ring);
        if number == 0 && ring.length > 2 {
            ring.length -= 1;
            ring.transactions[usize::from(ring.length)] = 0;
        }
        number
    }),
    ("one twice", |state, rows, ring| {
        let number = raw::waiting(state, rows, ring);
        let length = usize::from(ring.length);
        if number == 0 && (1..=TRANSACTIONS / 2).contains(&length) {
            ring.transactions.copy_within(..length, length);
            ring.length *= 2;
        }
        number
    }),
    ("no zeros after", |state, rows, ring| {
        let number = raw::waiting(state, rows, ring);
        if number == 0 {
            ring.transactions[TRANSACTIONS - 1] = 9;
        }
        number
    }),
    ("written though refused", |state, rows, ring| {
        let number = raw::waiting(state, rows, ring);
        if number != 0 {
            *ring = Ring::default();
        }
        number
    }),
    ("rows tried before the state", |state, rows, ring| match rows.len() > ROWS {
        true => 26,
        false => raw::waiting(state, rows, ring),
    }),
    ("the last row first", |state, rows, ring| {
        let backwards: Vec<Row> = rows.iter().rev().copied().collect();
        raw::waiting(state, &backwards, ring)
    }),
];

#[test]
fn wrong_reports_are_found() {
    for (name, wrong) in WRONG {
        let found = (0..20_000).any(|number| {
            let mut rng = rng(19, number);
            let mut state = any_state(&mut rng);
            if rng.percent(10) {
                mutate(&mut state, &mut rng);
            }
            check(*wrong, &state, sound(&state).as_ref(), &any_rows(&state, &mut rng)).is_err()
        });
        assert!(found, "{name}");
        println!("wrong report, {name}: is found");
    }
}
