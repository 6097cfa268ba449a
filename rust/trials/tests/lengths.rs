//! Wrong lengths: refused in their order, with no buffer touched; and what a run leaves alone.

use nekahuiro::limits::{EVENTS, STORE_BYTES, WORK_BYTES};
use nekahuiro::raw;
use nekahuiro_lists::{stores, timing};
use nekahuiro_trials::{Case, Program};

const STORES: [usize; 7] = [0, 1, 32, STORE_BYTES - 1, STORE_BYTES, STORE_BYTES + 1, 2 * STORE_BYTES];
const WORKS: [usize; 6] = [0, 1, WORK_BYTES - 1, WORK_BYTES, WORK_BYTES + 1, 2 * WORK_BYTES];
const LISTS: [usize; 10] = [0, 1, 2, 3, 4, 5, 8, 4 * EVENTS - 1, 4 * EVENTS, 4 * EVENTS + 4];

fn due(store: usize, work: usize, events: usize, answers: usize) -> u8 {
    if store != STORE_BYTES {
        22
    } else if work != WORK_BYTES {
        24
    } else if events % 4 != 0 || events > 4 * EVENTS {
        20
    } else if answers < events / 4 * 2 {
        21
    } else {
        0
    }
}

#[test]
fn wrong_lengths_are_refused_in_order_and_touch_nothing() {
    let list: Vec<u8> = timing::mixed(3).into_iter().chain([0; 8]).collect();
    for store in STORES {
        for work in WORKS {
            for events in LISTS {
                for answers in [0, 1, 2, events / 2 - events / 2 % 2, (events / 2).saturating_sub(1), events / 2 + 3] {
                    try_lengths(store, work, &list[..events], answers);
                }
            }
        }
    }
}

fn try_lengths(store: usize, work: usize, events: &[u8], answers: usize) {
    let mut buffers = (vec![0x10; store], vec![0x77; work], vec![0x99; answers]);
    if store == STORE_BYTES {
        buffers.0.copy_from_slice(&stores::fresh());
    }
    let before = buffers.clone();
    let due = due(store, work, events.len(), answers);
    for program in [Program::Engine, Program::Player] {
        let mut lent = before.clone();
        let number = program.run(&mut lent.0, events, &mut lent.1, &mut lent.2);
        let lengths = format!("{program:?}: store {store}, work {work}, events {}, answers {answers}", events.len());
        assert_eq!(number, due, "{lengths}");
        assert!(due == 0 || lent == before, "{lengths}: a buffer was touched");
    }
}

#[test]
fn fresh_refuses_a_wrong_length_and_writes_nothing() {
    for length in STORES {
        let mut store = vec![0x5A; length];
        let number = raw::fresh(&mut store);
        if length == STORE_BYTES {
            assert_eq!((number, store), (0, stores::fresh().to_vec()));
        } else {
            assert_eq!((number, store), (22, vec![0x5A; length]));
        }
    }
}

#[test]
fn an_empty_list_changes_nothing() {
    for store in [stores::fresh(), [0xFF; STORE_BYTES]] {
        let case = Case { store, events: Vec::new() };
        let played = Program::Engine.play(&case, 0x12);
        assert!(played.number == 0 && played.store == store && played.answers.iter().all(|b| *b == 0xEE));
    }
}

#[test]
fn answers_past_the_last_event_stay() {
    for (_, events) in timing::all() {
        let mut answers = vec![0xAB; events.len() / 2 + 1000];
        let number = raw::run(&mut stores::fresh(), &events, &mut [0; WORK_BYTES], &mut answers);
        assert_eq!(number, 0);
        assert!(answers[events.len() / 2..].iter().all(|byte| *byte == 0xAB));
    }
}
