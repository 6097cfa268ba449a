//! Both ends never hold opposite decisions; and they do, at once, where half of the premise is dropped.

use nekahuiro_trials::ends::{simulate, Premise, Slip, Tally, FULL};
use nekahuiro_trials::every_order::{search, Found};
use nekahuiro_trials::portions::{rng, share};
use nekahuiro_trials::settings;
use std::sync::Mutex;

const STEPS: usize = 300;

/// Worlds of some 30 rounds each.
fn play(premise: Premise, slip: Option<Slip>, salt: u64, worlds: u64) -> (Tally, Option<String>) {
    let tally = Mutex::new(Tally::default());
    let failure = share(worlds, |number| {
        let played = simulate(&mut rng(salt, number), premise, slip, STEPS)?;
        tally.lock().map(|mut tally| tally.add(played)).map_err(|_| "another thread failed".to_string())
    });
    (tally.into_inner().unwrap_or_default(), failure)
}

#[test]
fn both_ends_never_hold_opposite_decisions() {
    let wanted = settings::rounds();
    let (mut tally, mut chunk) = (Tally::default(), 0);
    while tally.rounds < wanted {
        chunk += 1;
        let (played, failure) = play(FULL, None, 100 + chunk, wanted / 40 + 1);
        assert_eq!(failure, None, "seed {}", settings::seed());
        tally.add(played);
    }
    let Tally { rounds, committed, aborted, cuts } = tally;
    println!("two ends: {rounds} rounds, both committed {committed}, both aborted {aborted}, {cuts} cut by a crash");
    assert!(committed * 50 > rounds && aborted * 50 > rounds && cuts * 50 > rounds, "{tally:?}");
}

#[test]
fn either_half_of_the_premise_is_needed() {
    for premise in [Premise { quiet: false, ..FULL }, Premise { unused: false, ..FULL }] {
        let (tally, failure) = play(premise, None, 200, 2_000);
        let text = failure.unwrap_or_else(|| panic!("{premise:?}: no opposite decisions in {tally:?}"));
        println!("{premise:?}: opposite decisions after {} rounds:\n{text}", tally.rounds);
    }
}

#[test]
fn an_end_that_slips_is_found() {
    for slip in Slip::ALL {
        let (tally, failure) = play(FULL, Some(slip), 300, 2_000);
        let text = failure.unwrap_or_else(|| panic!("{slip:?} was not found in {tally:?}"));
        println!("{slip:?} was found after {} rounds:\n{text}", tally.rounds);
    }
}

#[test]
fn in_every_order_of_two_rounds() {
    let found = search(FULL).unwrap_or_else(|text| panic!("{text}"));
    let Found { worlds, gateways, committed, aborted } = found;
    println!("two ends in every order of two rounds: {worlds} worlds, {gateways} states of the gateway");
    assert!(committed > 0 && aborted > 0, "{found:?}");
    for premise in [Premise { quiet: false, ..FULL }, Premise { unused: false, ..FULL }] {
        match search(premise) {
            Ok(found) => panic!("{premise:?}: no opposite decisions in {found:?}"),
            Err(text) => println!("{premise:?}: the shortest way to opposite decisions:\n{text}"),
        }
    }
}
