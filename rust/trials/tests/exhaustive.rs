//! Every short list over small alphabets, from fresh, used, committed and damaged stores.

use nekahuiro_lists::stores::{self, Bytes};
use nekahuiro_lists::Rng;
use nekahuiro_trials::exhaustive::{
    agrees, Choice, Family, BESIDE, BESIDE_PREFIX, CONTENDED, CRASHING, INHERITED, MODES, NESTED, PREPARING, REPORTED,
    SHARED, SHARED_PREFIX, STRAY,
};
use nekahuiro_trials::{settings, Program};
use std::time::Instant;

/// Records 0 and 15 are committed and not yet copied home.
fn committed() -> Bytes {
    stores::committed(&mut Rng::new(7), 0x8001)
}

/// The records of a map are changed by a transaction that is prepared.
fn prepared(map: u16, identity: u8) -> Bytes {
    stores::prepared(&mut Rng::new(9), map, identity)
}

fn play(name: &str, store: Bytes, alphabet: &str, prefix: &str, length: usize, choice: Choice) {
    let (start, length) = (Instant::now(), settings::length(length));
    let family = Family { program: Program::Engine, store, alphabet, prefix, length, choice, check: agrees };
    match family.play() {
        Ok(lists) => println!("{name}: {lists} lists of up to {length} events, {:.1} s", start.elapsed().as_secs_f64()),
        Err(text) => panic!("{name}: {text}"),
    }
}

#[test]
fn every_short_list() {
    for (name, alphabet) in [("nested", NESTED), ("contended", CONTENDED), ("crashing", CRASHING), ("stray", STRAY)] {
        play(&format!("{name}, fresh"), stores::fresh(), alphabet, "", 5, Choice::Every);
        play(&format!("{name}, committed"), committed(), alphabet, "", 4, Choice::Every);
    }
}

#[test]
fn every_short_list_after_a_lock() {
    for (name, alphabet) in [("nested", NESTED), ("contended", CONTENDED), ("crashing", CRASHING)] {
        let prefix = "recover 63, begin none, lock 0 0";
        play(&format!("{name}, locked"), committed(), alphabet, prefix, 4, Choice::Every);
    }
}

#[test]
fn every_short_list_on_damaged_stores() {
    for way in 0..stores::DAMAGES {
        let store = stores::damaged(&mut Rng::new(way as u64), way);
        play(&format!("damaged in way {way}"), store, CRASHING, "", 4, Choice::Every);
    }
}

#[test]
fn longer_lists_of_accepted_events() {
    for (name, alphabet) in [("nested", NESTED), ("contended", CONTENDED), ("crashing", CRASHING)] {
        for (kind, store, length) in [("fresh", stores::fresh(), 8), ("committed", committed(), 7)] {
            play(&format!("{name}, accepted, {kind}"), store, alphabet, "recover 63", length, Choice::AcceptedButLast);
        }
    }
    let prefix = "recover 63, begin none";
    play("inherited, accepted", committed(), INHERITED, prefix, 10, Choice::AcceptedButLast);
}

#[test]
fn locks_to_read_and_to_write() {
    play("shared, fresh", stores::fresh(), SHARED, SHARED_PREFIX, 4, Choice::Every);
    play("shared, accepted", committed(), SHARED, SHARED_PREFIX, 6, Choice::AcceptedButLast);
    play("modes, accepted", stores::fresh(), MODES, "recover 63, begin none", 8, Choice::AcceptedButLast);
}

#[test]
fn aborts_with_a_report() {
    play("reported, accepted", committed(), REPORTED, "recover 63, begin none", 6, Choice::AcceptedButLast);
}

#[test]
fn prepares_and_decisions() {
    play("preparing, fresh", stores::fresh(), PREPARING, "recover 63", 5, Choice::Every);
    play("preparing, prepared", prepared(0x8001, 7), PREPARING, "", 4, Choice::Every);
    play("preparing, accepted, fresh", stores::fresh(), PREPARING, "recover 63", 6, Choice::AcceptedButLast);
    play("preparing, accepted, prepared", prepared(0x8001, 7), PREPARING, "recover 0", 5, Choice::AcceptedButLast);
    play("beside, prepared", prepared(0x8000, 255), BESIDE, BESIDE_PREFIX, 4, Choice::Every);
    play("beside, accepted", prepared(0x8000, 255), BESIDE, BESIDE_PREFIX, 6, Choice::AcceptedButLast);
    play("preparing, damaged", stores::damaged(&mut Rng::new(3), 9), PREPARING, "", 3, Choice::Every);
}
