//! The tuned player, a yardstick of the benchmark, plays by the same rules: what it is timed at is the same work.

use nekahuiro::limits::{ANSWER_BYTES, EVENT_BYTES, WORK_BYTES};
use nekahuiro_lists::timing;
use nekahuiro_player::Form as _;
use nekahuiro_trials::forms::{self, Edition2, Form, Pairs, Run};
use nekahuiro_trials::portions::share;
use nekahuiro_trials::{random, settings, Case, Program};
use nekahuiro_tuned::Tuned;

/// It is a yardstick, not the independent truth: a tenth of the lists that the engine is compared on.
#[test]
fn the_tuned_player_agrees_on_random_lists() {
    let (seed, lists) = (settings::seed() ^ 0x7E57, settings::lists() / 10);
    let (_, failure) = random::search(Program::Tuned, Program::Player, seed, lists);
    if let Some(text) = failure {
        panic!("{text}");
    }
}

#[test]
fn the_tuned_player_agrees_on_the_lists_that_are_timed() {
    for (name, make) in timing::KINDS {
        for seed in 0..20 {
            let case = Case { store: nekahuiro_lists::stores::fresh(), events: make(seed) };
            let (tuned, engine) = (Program::Tuned.play(&case, 0), Program::Engine.play(&case, 0));
            assert!(tuned == engine, "{name} {seed}");
            assert!(one_by_one(&case) == engine.answers[..case.length() * ANSWER_BYTES], "{name} {seed} one by one");
        }
    }
}

/// Other forms against their engines: random stores and lists, and those that are timed.
#[test]
fn the_tuned_player_agrees_in_other_forms() {
    agrees::<Edition2>(nekahuiro_tuned::run_edition2);
    agrees::<Pairs>(nekahuiro_tuned::run_pairs);
}

fn agrees<F: Form>(tuned: Run) {
    let (seed, lists) = (settings::seed() ^ 0x7E57, settings::lists() / 100);
    let timed = |number: u64| {
        let (_, make) = timing::KINDS_OF[number as usize % timing::KINDS_OF.len()];
        forms::Case { store: F::fresh(), events: make(F::LISTS, number) }
    };
    let disagrees = share(lists, |number| {
        let case = if number < 30 { timed(number) } else { forms::random::case::<F>(seed, number) };
        let played = [F::PROVED, tuned].map(|run| {
            let (mut store, mut answers) = (case.store.clone(), vec![0; case.length::<F>() * ANSWER_BYTES]);
            let number = run(&mut store, &case.events, &mut vec![0; F::Player::WORK_BYTES], &mut answers);
            (number, store, answers)
        });
        if played[0] == played[1] {
            Ok(())
        } else {
            Err(format!("{}, seed {seed}, list {number}", F::NAME))
        }
    });
    assert_eq!(disagrees, None);
}

fn one_by_one(case: &Case) -> Vec<u8> {
    let (mut tuned, mut store, mut work) = (Tuned::default(), case.store, [0; WORK_BYTES]);
    let mut answer = [0; ANSWER_BYTES];
    let play = |word: &[u8]| {
        assert_eq!(tuned.portion(&mut store, word, &mut work, &mut answer), 0);
        answer
    };
    case.events.chunks_exact(EVENT_BYTES).flat_map(play).collect()
}
