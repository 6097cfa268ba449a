//! Copies of the ordinary player with one bug each: the same tests must find every one.

use nekahuiro_lists::stores;
use nekahuiro_lists::Rng;
use nekahuiro_player::planted::Bug;
use nekahuiro_trials::exhaustive::{
    agrees, Choice, Family, BESIDE, BESIDE_PREFIX, CONTENDED, CRASHING, INHERITED, MODES, NESTED, PREPARING, REPORTED,
};
use nekahuiro_trials::{random, settings, Program};

#[test]
fn random_lists_find_every_planted_bug() {
    for bug in Bug::ALL {
        let (tally, failure) = random::search(Program::Planted(bug), Program::Player, settings::seed(), 20_000);
        let text = failure.unwrap_or_else(|| panic!("{bug:?} was not found in {}", tally.text()));
        println!("{bug:?} was found after {}:\n{text}", tally.text());
    }
}

#[test]
fn exhaustive_lists_find_every_planted_bug() {
    for bug in Bug::ALL {
        let text = (2..=9).find_map(|length| shortest(bug, length)).unwrap_or_else(|| panic!("{bug:?} was not found"));
        println!("{bug:?} was found:\n{text}");
    }
}

/// A failing list of up to this many events after the first two.
fn shortest(bug: Bug, length: usize) -> Option<String> {
    let on_fresh = |alphabet| (alphabet, "recover 63, begin none", stores::fresh());
    let beside = (BESIDE, BESIDE_PREFIX, stores::prepared(&mut Rng::new(9), 0x8000, 255));
    let families = match bug.is_of_two_phases() {
        true => vec![on_fresh(PREPARING), beside],
        false if length <= 6 => [NESTED, CONTENDED, CRASHING, REPORTED, INHERITED, MODES].map(on_fresh).to_vec(),
        false => [INHERITED, MODES].map(on_fresh).to_vec(),
    };
    families.into_iter().find_map(|(alphabet, prefix, store)| {
        let program = Program::Planted(bug);
        Family { program, store, alphabet, prefix, length, choice: Choice::AcceptedButLast, check: agrees }.play().err()
    })
}
