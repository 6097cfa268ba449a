//! Random lists: the engine against the ordinary player and against demand 3.

use nekahuiro_trials::{random, settings, Program};

#[test]
fn the_engine_agrees_with_the_player_on_random_lists() {
    let (seed, lists) = (settings::seed(), settings::lists());
    println!("random lists: seed {seed}");
    let (tally, failure) = random::search(Program::Engine, Program::Player, seed, lists);
    println!("random lists: {}", tally.text());
    if let Some(text) = failure {
        panic!("{text}");
    }
}
