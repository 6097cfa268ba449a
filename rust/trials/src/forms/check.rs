//! All that is compared on a case of a form.

use super::{Case, Form, Played, Program};
use crate::check::{compare, Fault};
use nekahuiro::limits::ANSWER_BYTES;
use nekahuiro_history::{second_half, second_list, History, Run};

/// Plays a case on a program and compares it with a reference and with demand 3. From a store with a good copy of each
/// page comes one with a good copy of each page; from any other the same.
pub fn check<F: Form>(program: Program, reference: Program, case: &Case) -> Result<Played, Fault> {
    let played = program.play::<F>(case, 0x5A);
    compare(case.length::<F>(), played.left(), reference.play::<F>(case, 0).left())?;
    if !F::HISTORY.premise(&case.store) {
        return if played.store == case.store { Ok(played) } else { Err(Fault::Premise) };
    }
    if !F::HISTORY.premise(&played.store) {
        return Err(Fault::Premise);
    }
    let history = F::HISTORY.first_half(run_of::<F>(case, &played)).map_err(Fault::Demand)?;
    check_second::<F>(program, case, &played, &history)?;
    Ok(played)
}

/// The second run has other bytes in lost transactions' writes and another working buffer; with no
/// such write it is the same run, and must leave the same.
fn check_second<F: Form>(program: Program, case: &Case, played: &Played, history: &History) -> Result<(), Fault> {
    match second_list(history, &case.events, |value| value.wrapping_mul(5).wrapping_add(0x5D)) {
        Some(events) => {
            let other = Case { store: case.store.clone(), events };
            let second = program.play::<F>(&other, 0xC3);
            second_half(history, run_of::<F>(case, played), run_of::<F>(&other, &second)).map_err(Fault::Demand)
        }
        None if program.play::<F>(case, 0xC3) == *played => Ok(()),
        None => Err(Fault::Work),
    }
}

/// A case that was played, as the history takes it.
pub fn run_of<'r, F: Form>(case: &'r Case, played: &'r Played) -> Run<'r> {
    let answers = &played.answers[..case.length::<F>() * ANSWER_BYTES];
    Run { before: &case.store, events: &case.events, answers, after: &played.store }
}
