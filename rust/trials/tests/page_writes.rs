//! The page writes of an event, told before it is played: against the player's, and carried out one by one
//! against the library's own run with that count, for every count.

use nekahuiro::limits::{EVENT_BYTES, PAGE_WRITE_BYTES, RECORDS, STORE_BYTES, WORK_BYTES};
use nekahuiro::{raw, Fields, Refusal, State, Store, Work};
use nekahuiro_lists::stores::{self, Bytes};
use nekahuiro_lists::Rng;
use nekahuiro_player::planted::Bug;
use nekahuiro_player::store::Store as PlayersStore;
use nekahuiro_player::Player;
use nekahuiro_trials::exhaustive::{CRASHING, NESTED, PREPARING};
use nekahuiro_trials::planned::{check, plan, told};
use nekahuiro_trials::portions::{rng, share, Board};
use nekahuiro_trials::states::{any_state, mutate};
use nekahuiro_trials::{lent, listed, random, settings};
use std::sync::atomic::{AtomicU64, Ordering};

fn word(bytes: &[u8]) -> [u8; EVENT_BYTES] {
    [bytes[0], bytes[1], bytes[2], bytes[3]]
}

#[test]
fn random_lists_event_by_event() {
    let lists = settings::lists() / 400;
    let (events, writes) = (AtomicU64::new(0), AtomicU64::new(0));
    let failure = share(lists, |number| {
        let mut rng = rng(41, number);
        let case = random::case(settings::seed() + 41, number);
        let mut board = Board::new(case.store, &mut rng);
        for (at, bytes) in case.events.chunks_exact(EVENT_BYTES).take(400).enumerate() {
            let found = check(&board, word(bytes)).map_err(|text| format!("event {at}: {text}"))?;
            writes.fetch_add(found.len() as u64, Ordering::Relaxed);
            // An event that could come instead.
            check(&board, some_word(&mut rng)).map_err(|text| format!("instead of event {at}: {text}"))?;
            board.play(bytes)?;
            events.fetch_add(2, Ordering::Relaxed);
        }
        Ok(())
    });
    assert_eq!(failure, None, "seed {}", settings::seed());
    println!("random lists with page writes told: {lists} lists, {events:?} events, {writes:?} page writes");
}

/// A word of a kind that may write pages, mostly a good one.
fn some_word(rng: &mut Rng) -> [u8; EVENT_BYTES] {
    let fields = Fields { kind: rng.one_of([5, 5, 8, 9, 9, 10]), count: rng.below(64) as u8, ..Fields::default() };
    let transaction = if rng.percent(90) { rng.below(6) } else { rng.below(32) } as u8;
    let value = rng.one_of([0, 1, 7, 255]);
    let fields = match fields.kind {
        5 => Fields { transaction, ..fields },
        9 => Fields { transaction, value, ..fields },
        10 => Fields { offset: rng.below(2) as u8, value, ..fields },
        _ => fields,
    };
    let mut word = fields.word();
    if rng.percent(3) {
        word[rng.below(EVENT_BYTES)] ^= 1 << rng.below(8);
    }
    word
}

#[test]
fn lent_states_that_no_list_leads_to() {
    let count = settings::lists() / 20;
    let (sound, refused) = (AtomicU64::new(0), AtomicU64::new(0));
    let failure = share(count, |number| {
        let mut rng = rng(42, number);
        let mut state = any_state(&mut rng);
        if rng.percent(40) {
            mutate(&mut state, &mut rng);
        }
        let store = stores::any(&mut rng);
        let mut work = Work::new();
        work.bytes_mut().fill_with(|| rng.byte());
        let event = some_word(&mut rng);
        match (lent::judge(&state, &work, &store), Board::with(state.clone(), store, work.clone())) {
            (Ok(_), Some(board)) => {
                sound.fetch_add(1, Ordering::Relaxed);
                check(&board, event).map(|_| ())
            }
            (Ok(_), None) => Err("a sound state that the player doesn't take".to_string()),
            (Err(why), _) => {
                refused.fetch_add(1, Ordering::Relaxed);
                match plan(&state, &store, &work, event) {
                    Err(text) if text == "ended by Some(25)" => Ok(()),
                    other => Err(format!("{why:?}, and {other:?}")),
                }
            }
        }
    });
    assert_eq!(failure, None, "seed {}", settings::seed());
    println!("lent states with page writes told: {sound:?} sound, {refused:?} refused");
}

#[test]
fn short_lists_event_by_event() {
    let prefix = listed::words("recover 63, begin none, lock 0 0, write 0 0 0 11");
    let length = settings::length(3) as u32;
    for family in [NESTED, CRASHING, PREPARING].map(listed::words) {
        let letters = (family.len() / EVENT_BYTES) as u64;
        let failure = share(letters.pow(length), |number| {
            let mut board = Board::new(stores::fresh(), &mut Rng::new(24));
            board.play(&prefix)?;
            for place in 0..length {
                let letter = (number / letters.pow(place) % letters) as usize;
                let event = &family[letter * EVENT_BYTES..][..EVENT_BYTES];
                check(&board, word(event)).map_err(|text| format!("{event:02X?}: {text}"))?;
                board.play(event)?;
            }
            Ok(())
        });
        assert_eq!(failure, None);
    }
}

/// A state with one top transaction that has a version of each record in the map.
fn writer(map: u16) -> State {
    let mut state = State { up: 1, ..State::new() };
    (state.line[0], state.parent[0], state.depth[0]) = (1, 31, 1);
    for r in (0..RECORDS).filter(|r| map & 0x8000 >> r != 0) {
        (state.held[2 * r], state.held[2 * r + 1], state.writers[r]) = (1, 1, 1);
    }
    state
}

#[test]
fn every_map() {
    let failure = share(1 << RECORDS, |number| {
        let (map, mut rng) = (number as u16, Rng::new(number));
        let mut work = Work::new();
        work.bytes_mut().fill_with(|| rng.byte());
        let ones = map.count_ones() as usize;
        let rows: [(State, Bytes, &str, usize); 5] = [
            (writer(map), stores::used(&mut rng), "commit 0 63", if ones == 0 { 0 } else { 2 * ones + 2 }),
            (writer(map), stores::used(&mut rng), "prepare 0 63 7", if ones == 0 { 0 } else { ones + 1 }),
            (State::new(), stores::committed(&mut rng, map), "recover 63", if ones == 0 { 0 } else { ones + 1 }),
            (up(), stores::prepared(&mut rng, map, 7), "decide commit 63 7", ones + 2),
            (up(), stores::prepared(&mut rng, map, 7), "decide abort 63 7", 1),
        ];
        for (state, store, event, due) in rows {
            let Some(board) = Board::with(state, store, work.clone()) else {
                // A prepared page names a record.
                if map == 0 {
                    continue;
                }
                return Err(format!("map {map:04X}: no board"));
            };
            // Every cut of each would take long.
            let event_word = word(&listed::words(event));
            let found = if number % 64 == 0 { check(&board, event_word) } else { told(&board, event_word) };
            match found.map(|writes| writes.len()) {
                Ok(found) if found == due => {}
                other => return Err(format!("map {map:04X}, {event}: {other:?}, and {due} are due")),
            }
        }
        Ok(())
    });
    assert_eq!(failure, None);
}

fn up() -> State {
    State { up: 1, ..State::new() }
}

#[test]
fn refusals_in_their_order() {
    let store = stores::fresh();
    let lengths = |due: usize| [due, due - 1, due + 1, 0];
    let events = [4, 3, 5, 0, 8];
    let mut unsound = up();
    unsound.up = 2;
    let long = [0u8; WORK_BYTES + 1];
    let mut tried = 0;
    for store_bytes in lengths(STORE_BYTES) {
        for work_bytes in lengths(WORK_BYTES) {
            for event_bytes in events {
                for write_bytes in lengths(PAGE_WRITE_BYTES) {
                    for state in [up(), unsound.clone()] {
                        let wrong = [
                            (22, store_bytes != STORE_BYTES),
                            (24, work_bytes != WORK_BYTES),
                            (20, event_bytes != 4),
                            (21, write_bytes != PAGE_WRITE_BYTES),
                            (25, state != up()),
                        ];
                        let due = wrong.iter().find(|(_, wrong)| *wrong).map_or(12, |(number, _)| *number);
                        let mut padded = [0; STORE_BYTES + 1];
                        padded[..STORE_BYTES].copy_from_slice(&store);
                        let mut write = vec![0xD7; write_bytes];
                        let (store, event) = (&padded[..store_bytes], &[0x80, 0, 0x3F, 0, 0, 0, 0, 0][..event_bytes]);
                        let number = raw::page_write(&state, store, event, &long[..work_bytes], 0, &mut write);
                        assert_eq!(number, due);
                        assert!(write.iter().all(|byte| *byte == 0xD7));
                        tried += 1;
                    }
                }
            }
        }
    }
    assert_eq!(tried, 640);
}

/// The plans of players with a bug are found out by the comparison.
#[test]
fn wrong_plans_are_found() {
    let rows = [
        (Bug::HomeBeforeCommitPage, "begin none, lock 0 3, write 0 3 0 11", "commit 0 63"),
        (Bug::EmptiedTooEarly, "begin none, lock 0 3, write 0 3 0 11", "commit 0 63"),
        (Bug::CommitDecisionLeavesPage, "begin none, lock 0 3, write 0 3 0 11, prepare 0 63 7", "decide commit 63 7"),
        (Bug::AbortDecisionWritesHome, "begin none, lock 0 3, write 0 3 0 11, prepare 0 63 7", "decide abort 63 7"),
        (Bug::DecisionForAnother, "begin none, lock 0 3, write 0 3 0 11, prepare 0 63 7", "decide commit 63 8"),
    ];
    for (bug, list, event) in rows {
        let mut board = Board::new(stores::fresh(), &mut Rng::new(5));
        board.play(&listed::words(&format!("recover 63, {list}"))).unwrap();
        let event = word(&listed::words(event));
        let right: Vec<_> = check(&board, event).unwrap().iter().map(|write| (write.page, write.bytes)).collect();
        let (mut volatile, mut store) = (board.volatile.clone(), board.store);
        let mut player = Player::new(PlayersStore::over(&mut store).unwrap(), &mut volatile);
        player.plant(Some(bug));
        let wrong: Vec<_> = player.page_writes(event).into_iter().map(|(place, page)| (place.number(), page)).collect();
        assert_ne!(right, wrong, "{bug:?}");
    }
}

/// Intention pages, the commit page, home pages, the commit page as empty; told by the wrapper.
#[test]
fn the_page_writes_of_a_refresh() {
    let (mut store, mut state, mut work) = (Store::fresh(), State::new(), Work::new());
    let list = "recover 63, begin none, lock 0 3, write 0 3 0 07, lock 0 9, write 0 9 0 08";
    store.portion_words(&mut state, &mut work, &listed::words(list)).unwrap();
    let told = |state: &State, event: &str| store.page_writes(state, &work, word(&listed::words(event)));
    let pages = |event: &str| told(&state, event).unwrap().iter().map(|write| write.page).collect::<Vec<_>>();
    assert_eq!(pages("commit 0 63"), [4, 10, 0, 20, 26, 0]);
    assert_eq!(pages("commit 0 0"), [4, 10, 0, 20, 26, 0]);
    assert_eq!(pages("prepare 0 63 5"), [4, 10, 0]);
    assert_eq!(pages("recover 63"), []);
    assert_eq!(pages("00000000"), []);
    let commit = told(&state, "commit 0 63").unwrap();
    assert_eq!(commit[2].bytes[..4], [0x15, 0x10, 0x40, 0x10]);
    assert_eq!((commit[0].bytes[0], commit[4].bytes[0], commit[5].bytes[0]), (7, 8, 0x10));
    state.spare[0] = 1;
    assert_eq!(told(&state, "commit 0 63"), Err(Refusal::State));
}
