//! What may be lent as a state, against an independent judge; and how it is played on.

use nekahuiro::limits::{DEPTH_LIMIT, STATE_BYTES};
use nekahuiro::{raw, Fields, Record, Refusal, State, Transaction, Work};
use nekahuiro_lists::stores::{self, Bytes};
use nekahuiro_lists::Rng;
use nekahuiro_player::soundness::Fault;
use nekahuiro_trials::lent::{self, Unsound};
use nekahuiro_trials::portions::{rng, share, Board};
use nekahuiro_trials::states::{mutate, start};
use nekahuiro_trials::{listed, settings};
use std::collections::BTreeMap;
use std::sync::Mutex;

/// A state after `recover 63` and these events on a fresh store, changed by hand.
fn after(list: &str, change: fn(&mut State)) -> (State, Work) {
    let mut board = Board::new(stores::fresh(), &mut Rng::new(6));
    board.play(&listed::words(&format!("recover 63, {list}"))).unwrap();
    change(&mut board.state);
    (board.state, board.work)
}

/// What the library says to an empty portion, which must be what the judge says.
fn judged(state: &State, work: &Work, store: &Bytes) -> Result<(), Unsound> {
    let (mut lent, mut lent_store, mut lent_work) = (state.clone(), *store, work.clone());
    let mut answers = [0x99; 2];
    let number = raw::portion(&mut lent, &mut lent_store, &[0xC0, 0, 0, 0], lent_work.bytes_mut(), &mut answers);
    let verdict = lent::judge(state, work, store).map(|_| ());
    assert_eq!(number, if verdict.is_ok() { 0 } else { 25 }, "{verdict:?}: {state:?}");
    // The one event is a bad one: it changes nothing but its answer.
    assert_eq!(answers, if verdict.is_ok() { [1, 0] } else { [0x99; 2] });
    assert!((&lent, &lent_store) == (state, store) && (verdict.is_ok() || lent_work == *work), "something was changed");
    verdict
}

const CHAIN: &str = "begin none, begin 0, begin 1, begin none";
const FORK: &str = "begin none, begin 0, begin 0";

/// A set in any mode, and the set in write mode.
type Sets = (u32, u32);

/// The lock of record 3: who retains it, who holds it, and who has a version.
fn lock(state: &mut State, retained: Sets, held: Sets, writers: u32) {
    (state.retained[6], state.retained[7]) = retained;
    (state.held[6], state.held[7]) = held;
    state.writers[3] = writers;
}

const NONE: Sets = (0, 0);

const fn unsound(fault: Fault) -> Result<(), Unsound> {
    Err(Unsound::Facts(fault))
}

const ODD: Result<(), Unsound> = Err(Unsound::Struct);
const DEEP: &str = "begin none, begin 0, begin 1, begin 2, begin 3, begin 4, begin 5, begin 6, \
    begin 7, begin 8, begin 9, begin 10, begin 11, begin 12, begin 13, begin 14";

/// Events, a change by hand, and what is to be said to the state: each clause is broken, alone where
/// that can be.
type Row = (&'static str, fn(&mut State), Result<(), Unsound>);
const ROWS: &[Row] = &[
    (CHAIN, |_| (), Ok(())),
    ("begin none", |s| (s.parent[0], s.line[0]) = (5, 1 | 1 << 5), unsound(Fault::Parent)),
    ("begin none", |s| s.parent[0] = 5, unsound(Fault::Parent)),
    ("begin none", |s| s.parent[0] = 24, unsound(Fault::Parent)),
    ("begin none", |s| s.parent[0] = 30, unsound(Fault::Parent)),
    ("begin none", |s| s.parent[0] = 0, unsound(Fault::Depth)),
    (CHAIN, |s| s.depth[3] = 2, unsound(Fault::Depth)),
    (CHAIN, |s| s.depth[2] = 2, unsound(Fault::Depth)),
    (CHAIN, |s| (s.parent[0], s.depth[0]) = (1, 3), unsound(Fault::Depth)),
    (DEEP, |_| (), Ok(())),
    (DEEP, |s| (s.parent[16], s.depth[16], s.line[16]) = (15, 17, 0x1FFFF), unsound(Fault::TooDeep)),
    (CHAIN, |s| lock(s, NONE, (1 << 7, 0), 0), unsound(Fault::Holder)),
    (CHAIN, |s| lock(s, NONE, (1 << 24, 1 << 24), 0), unsound(Fault::Holder)),
    (CHAIN, |s| lock(s, (1 << 7, 0), NONE, 0), unsound(Fault::Retainer)),
    (CHAIN, |s| lock(s, (1 << 31, 1 << 31), NONE, 0), unsound(Fault::Retainer)),
    // Retainers: anywhere in read mode, but each on one line with those in write mode.
    (CHAIN, |s| lock(s, (0b0111, 0b0111), NONE, 0), Ok(())),
    (CHAIN, |s| lock(s, (0b1111, 0), NONE, 0), Ok(())),
    (CHAIN, |s| lock(s, (0b0111, 0b0010), NONE, 0), Ok(())),
    (CHAIN, |s| lock(s, (0b1001, 0b1001), NONE, 0), unsound(Fault::Line)),
    (CHAIN, |s| lock(s, (0b1001, 0b0001), NONE, 0), unsound(Fault::Line)),
    (CHAIN, |s| lock(s, (0b1001, 0b1000), NONE, 0), unsound(Fault::Line)),
    (FORK, |s| lock(s, (0b0110, 0), NONE, 0), Ok(())),
    (FORK, |s| lock(s, (0b0111, 0b0001), NONE, 0), Ok(())),
    (FORK, |s| lock(s, (0b0110, 0b0010), NONE, 0), unsound(Fault::Line)),
    // Holders: many in read mode, at or beneath all write-mode retainers.
    (CHAIN, |s| lock(s, NONE, (0b1111, 0), 0), Ok(())),
    (CHAIN, |s| lock(s, (0b0001, 0b0001), (0b0111, 0), 0), Ok(())),
    (CHAIN, |s| lock(s, (0b0111, 0b0001), (0b0011, 0), 0), Ok(())),
    (CHAIN, |s| lock(s, (0b0100, 0), (0b1011, 0), 0), Ok(())),
    (FORK, |s| lock(s, (0b0001, 0b0001), (0b0110, 0), 0), Ok(())),
    (CHAIN, |s| lock(s, (0b0010, 0b0010), (0b0101, 0), 0), unsound(Fault::Beneath)),
    (CHAIN, |s| lock(s, (0b0101, 0b0101), (0b0010, 0), 0), unsound(Fault::Beneath)),
    (CHAIN, |s| lock(s, (0b0010, 0b0010), (0b1000, 0), 0), unsound(Fault::Beneath)),
    (CHAIN, |s| lock(s, (0b0010, 0b0010), (0b1000, 0b1000), 0), unsound(Fault::Beneath)),
    // A write holder: alone, at or beneath every retainer.
    (CHAIN, |s| lock(s, (0b0101, 0b0101), (0b0100, 0b0100), 0), Ok(())),
    (CHAIN, |s| lock(s, (0b0011, 0), (0b0100, 0b0100), 0), Ok(())),
    (CHAIN, |s| lock(s, NONE, (0b0011, 0b0011), 0), unsound(Fault::NotAlone)),
    (CHAIN, |s| lock(s, NONE, (0b0011, 0b0010), 0), unsound(Fault::NotAlone)),
    (CHAIN, |s| lock(s, NONE, (0b1010, 0b0010), 0), unsound(Fault::NotAlone)),
    (CHAIN, |s| lock(s, (0b0100, 0), (0b0010, 0b0010), 0), unsound(Fault::WriterBeneath)),
    (CHAIN, |s| lock(s, (0b1001, 0), (0b0010, 0b0010), 0), unsound(Fault::WriterBeneath)),
    (CHAIN, |s| lock(s, (0b1000, 0), (0b0100, 0b0100), 0), unsound(Fault::WriterBeneath)),
    // Versions: only of one who holds or retains in write mode.
    (CHAIN, |s| lock(s, (0b0001, 0b0001), NONE, 0b0010), unsound(Fault::Version)),
    (CHAIN, |s| (s.held[6], s.held[7], s.writers[2]) = (1, 1, 1), unsound(Fault::Version)),
    (CHAIN, |s| lock(s, NONE, (0b0001, 0), 0b0001), unsound(Fault::Version)),
    (CHAIN, |s| lock(s, (0b0011, 0b0001), NONE, 0b0010), unsound(Fault::Version)),
    (CHAIN, |s| lock(s, NONE, NONE, 1 << 9), unsound(Fault::Version)),
    (CHAIN, |s| lock(s, (0b0001, 0b0001), (0b0001, 0), 0b0001), Ok(())),
    (CHAIN, |s| lock(s, (0b0001, 0), (0b0001, 0b0001), 0b0001), Ok(())),
    (CHAIN, |s| lock(s, (0b0011, 0b0011), (0b0100, 0b0100), 0b0111), Ok(())),
    // Write mode, but not any mode.
    (CHAIN, |s| lock(s, NONE, (0, 0b0001), 0), ODD),
    (CHAIN, |s| lock(s, (0, 0b0001), NONE, 0), ODD),
    (CHAIN, |s| lock(s, (0b0001, 0b0001), (0, 0b0001), 0), ODD),
    (CHAIN, |s| lock(s, (0b0001, 0b0011), (0b0010, 0b0010), 0), ODD),
    ("begin none", |s| s.up = 0, unsound(Fault::Down)),
    ("begin none, abort 0", |s| s.up = 0, Ok(())),
    ("begin none", |s| s.up = 2, ODD),
    ("crash", |s| s.up = 128, ODD),
    (CHAIN, |s| s.line[2] = 0b0101, ODD),
    (CHAIN, |s| s.line[3] = 0b1001, ODD),
    (CHAIN, |s| s.line[0] = 1 | 1 << 31, ODD),
    (CHAIN, |s| s.line[7] = 1 << 7, ODD),
    (CHAIN, |s| s.parent[7] = 1, ODD),
    (CHAIN, |s| s.parent[23] = 31, ODD),
    (CHAIN, |s| s.spare[0] = 1, ODD),
    (CHAIN, |s| s.spare[2] = 128, ODD),
];

#[test]
fn each_clause_of_soundness_is_asked() {
    for (at, (list, change, due)) in ROWS.iter().enumerate() {
        let (state, work) = after(list, *change);
        assert_eq!(judged(&state, &work, &stores::fresh()), *due, "row {at}");
    }
    // While up the commit page is empty; while down it may be anything.
    let mut rng = Rng::new(7);
    for way in 0..=stores::DAMAGES {
        let store =
            if way == stores::DAMAGES { stores::committed(&mut rng, 0x9000) } else { stores::damaged(&mut rng, way) };
        let up = after("begin none", |_| ());
        assert_eq!(judged(&up.0, &up.1, &store), unsound(Fault::Page));
        let down = after("crash", |_| ());
        assert_eq!(judged(&down.0, &down.1, &store), Ok(()));
    }
}

#[test]
fn while_up_nobody_has_a_lock_of_what_is_prepared() {
    let store = stores::prepared(&mut Rng::new(12), 0x1001, 7);
    let rows: &[Row] = &[
        (CHAIN, |_| (), Ok(())),
        (CHAIN, |s| (s.held[8], s.retained[29], s.retained[28]) = (1, 1, 1), Ok(())),
        (CHAIN, |s| lock(s, NONE, (1, 0), 0), unsound(Fault::Prepared)),
        (CHAIN, |s| lock(s, NONE, (1, 1), 1), unsound(Fault::Prepared)),
        (CHAIN, |s| lock(s, (1, 0), NONE, 0), unsound(Fault::Prepared)),
        (CHAIN, |s| lock(s, (1, 1), NONE, 1), unsound(Fault::Prepared)),
        (CHAIN, |s| s.held[30] = 8, unsound(Fault::Prepared)),
        (CHAIN, |s| s.retained[30] = 8, unsound(Fault::Prepared)),
        // What is wrong with a state on any store is wrong here too.
        (CHAIN, |s| s.line[7] = 1, ODD),
        ("crash", |_| (), Ok(())),
        ("crash", |s| s.held[6] = 1, unsound(Fault::Holder)),
    ];
    for (at, (list, change, due)) in rows.iter().enumerate() {
        let (state, work) = after(list, *change);
        assert_eq!(judged(&state, &work, &store), *due, "row {at}");
        // On a fresh store these locks are nobody's business.
        let plain = if *due == unsound(Fault::Prepared) { Ok(()) } else { *due };
        assert_eq!(judged(&state, &work, &stores::fresh()), plain, "row {at}");
    }
}

/// Events that make sense on a state: mostly of live transactions, on few records.
fn events_on(state: &State, rng: &mut Rng) -> Vec<u8> {
    let live: Vec<Transaction> = state.live().collect();
    let records = rng.one_of([2, 5, 16]);
    let mut words = Vec::new();
    for _ in 0..rng.below(30) {
        let anyone = rng.below(32) as u8;
        let someone = rng.pick(&live).map_or(anyone, |live| live.number());
        let transaction = if rng.percent(85) { someone } else { anyone };
        let (record, offset, value) = (rng.below(records) as u8, rng.below(32) as u8, rng.byte());
        // The mode of a lock, or whether an abort has a report.
        let mode = rng.below(2) as u8;
        let count = if rng.percent(70) { 63 } else { rng.below(8) as u8 };
        let none = Fields::default();
        let fields = match rng.below(20) {
            0..=2 => Fields { kind: 1, transaction, ..none },
            3 => Fields { kind: 1, transaction: Transaction::NONE.number(), ..none },
            4..=8 => Fields { kind: 2, transaction, record, value: mode, ..none },
            9..=11 => Fields { kind: 3, transaction, record, offset, value, ..none },
            12..=13 => Fields { kind: 4, transaction, record, offset, ..none },
            14..=17 => Fields { kind: 5, transaction, count, ..none },
            18 if rng.percent(50) => Fields { kind: 6, transaction, value: mode, ..none },
            18 => Fields { kind: 9, transaction, count, value: rng.one_of([0, 7, 255]), ..none },
            _ if rng.percent(40) => Fields { kind: 10, offset: mode, count, value: rng.one_of([0, 7, 255]), ..none },
            _ if rng.percent(50) => Fields { kind: 8, count, ..none },
            _ => Fields { kind: rng.below(16) as u8, value: rng.below(2) as u8, ..none },
        };
        words.extend(fields.word());
    }
    words
}

#[test]
fn the_library_takes_exactly_what_the_judge_calls_sound_and_plays_on() {
    let structs = settings::lists() / 5;
    let verdicts: Mutex<BTreeMap<String, u64>> = Mutex::default();
    let failure = share(structs, |number| {
        let mut rng = rng(8, number);
        let (mut state, mut store, mut work) = start(settings::seed() + 8, number, &mut rng)?;
        for _ in 0..rng.one_of([0, 1, 1, 1, 2, 3]) {
            mutate(&mut state, &mut rng);
        }
        if rng.percent(3) {
            store = stores::any(&mut rng);
        }
        if rng.percent(20) {
            work.bytes_mut().fill_with(|| rng.byte());
        }
        let verdict = judged(&state, &work, &store);
        if let Ok(mut verdicts) = verdicts.lock() {
            *verdicts.entry(format!("{verdict:?}")).or_default() += 1;
        }
        if verdict.is_ok() {
            let mut board = Board::with(state, store, work).ok_or("the player doesn't take it")?;
            for _ in 0..3 {
                board.play(&events_on(&board.state, &mut rng))?;
                board.scramble(&mut rng);
            }
        }
        Ok(())
    });
    assert_eq!(failure, None, "seed {}", settings::seed());
    let verdicts = verdicts.into_inner().unwrap();
    let sound = verdicts.get("Ok(())").copied().unwrap_or(0);
    println!("lent states: {structs} structs, {sound} sound, the others for {} reasons", verdicts.len() - 1);
    // Every clause was met, and a good part was sound.
    assert!(structs < 4_000 || verdicts.len() >= 15, "{verdicts:?}");
    assert!(structs < 2_000 || sound * 5 > structs, "{verdicts:?}");
}

#[test]
fn random_bytes_are_hardly_ever_a_state() {
    let mut rng = Rng::new(9);
    for _ in 0..20_000 {
        let mut bytes = State::new().bytes();
        for _ in 0..rng.one_of([1, 2, 5, STATE_BYTES]) {
            bytes[rng.below(STATE_BYTES)] = rng.byte();
        }
        let state = State::of(&bytes).unwrap();
        assert_eq!(state.bytes(), bytes);
        let _ = judged(&state, &Work::new(), &stores::fresh());
    }
}

#[test]
fn a_state_tells_who_is_live_and_who_has_what() {
    let list = "begin none, begin 0, lock 1 3, write 1 3 2 A5, commit 1 63, begin 0, lock 1 3, \
        read-lock 1 4, begin none, read-lock 2 4, commit 1 63, begin 0, read-lock 1 4, read-lock 1 3";
    let (state, work) = after(list, |_| ());
    let record = Record::new(3).unwrap();
    let numbers = |who: Vec<Transaction>| who.into_iter().map(Transaction::number).collect::<Vec<u8>>();
    assert!(state.is_up());
    assert_eq!(numbers(state.live().collect()), [0, 1, 2]);
    assert_eq!(state.parent(Transaction::new(1).unwrap()), Transaction::new(0));
    assert_eq!(state.parent(Transaction::new(0).unwrap()), None);
    assert_eq!(numbers(state.holders(record).collect()), [1]);
    assert_eq!(state.write_holders(record).count(), 0);
    assert_eq!(numbers(state.retainers(record).collect()), [0]);
    assert_eq!(numbers(state.write_retainers(record).collect()), [0]);
    let read = Record::new(4).unwrap();
    assert_eq!(numbers(state.holders(read).collect()), [1, 2]);
    assert_eq!(numbers(state.retainers(read).collect()), [0]);
    assert_eq!((state.write_holders(read).count(), state.write_retainers(read).count()), (0, 0));
    assert_eq!(numbers(state.writers(record).collect()), [0]);
    assert_eq!(work.version(record, 1)[2], 0xA5);
    assert_eq!((work.version(record, 0), work.version(record, DEPTH_LIMIT as u8 + 1)), ([0; 32], [0; 32]));
    assert_eq!(State::of(&[0; STATE_BYTES - 1]), Err(Refusal::State));
}
