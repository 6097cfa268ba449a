//! Random cases of a form, shared among threads. A case is made from the seed and its own number alone.

use super::{check, told, Case, Form, Program};
use crate::portions::share;
use nekahuiro_lists::random::{list_of, Taste};
use nekahuiro_lists::Rng;
use std::sync::atomic::{AtomicU64, Ordering};

/// The case of this number.
pub fn case<F: Form>(seed: u64, number: u64) -> Case {
    let mut rng = Rng::new(seed ^ number.wrapping_mul(0xD6E8_FEB8_6659_FD93));
    let mut case = Case { store: F::any(&mut rng), events: Vec::new() };
    // A store that was played on before, often by a run that was cut.
    for _ in 0..rng.below(3) / 2 {
        case.events = random_list::<F>(&mut rng, &case.store);
        case.store = Program::Player.play::<F>(&case, 0).store;
    }
    case.events = random_list::<F>(&mut rng, &case.store);
    case
}

fn random_list<F: Form>(rng: &mut Rng, store: &[u8]) -> Vec<u8> {
    let taste = Taste::any_of(F::LISTS, rng);
    list_of(F::LISTS, rng, &taste, F::named(store))
}

/// Plays the first `lists` cases of a seed; what was played, and the first failure found, made small and told in words.
pub fn search<F: Form>(program: Program, reference: Program, seed: u64, lists: u64) -> (String, Option<String>) {
    let (played, events, accepted, cuts) = (AtomicU64::new(0), AtomicU64::new(0), AtomicU64::new(0), AtomicU64::new(0));
    let failure = share(lists, |number| {
        let case = case::<F>(seed, number);
        let Ok(run) = check::<F>(program, reference, &case) else {
            return Err(format!("seed {seed}, made small: {}", told::<F>(program, reference, case)));
        };
        let answers = run.told();
        let count = |of: &dyn Fn(u8) -> bool| answers.iter().filter(|(number, _)| of(*number)).count() as u64;
        played.fetch_add(1, Ordering::Relaxed);
        events.fetch_add(answers.len() as u64, Ordering::Relaxed);
        accepted.fetch_add(count(&|number| number == 0 || number == 11), Ordering::Relaxed);
        cuts.fetch_add(count(&|number| number == 11), Ordering::Relaxed);
        Ok(())
    });
    let text = format!("{played:?} lists, {events:?} events, {accepted:?} accepted, {cuts:?} cut by a crash");
    (text, failure)
}
