//! All that is compared on a case.

use crate::case::{Case, Played, Program, TAIL};
use nekahuiro::limits::ANSWER_BYTES;
use nekahuiro_history::{first_half, second_half, second_list, Breach, History, Run, Unlike};

/// What is wrong with a case.
#[derive(Clone, Debug, PartialEq, Eq)]
pub enum Fault {
    /// The runs themselves answer differently.
    Number(u8, u8),
    /// The two programs answer this event differently.
    Answer(usize),
    /// The two programs leave different bytes at this place of the store.
    Store(usize),
    /// A byte past the last answer was touched.
    Tail,
    /// What the working buffer held before had an effect.
    Work,
    /// Demand 3 is broken.
    Demand(Breach),
    /// It isn't as if one transaction came at a time.
    Serial(Unlike),
    /// Where pages are pairs of copies: a page is left without a good copy, or one without was touched.
    Premise,
}

/// Plays a case on a program and compares it with a reference and with demand 3.
pub fn check(program: Program, reference: Program, case: &Case) -> Result<Played, Fault> {
    let played = program.play(case, 0x5A);
    compare(case.length(), played.left(), reference.play(case, 0).left())?;
    let history = first_half(run_of(case, &played)).map_err(Fault::Demand)?;
    check_second(program, case, &played, &history)?;
    Ok(played)
}

/// What a program left: what the run itself answered, the whole answer buffer, the store.
pub(crate) type Left<'l> = (u8, &'l [u8], &'l [u8]);

/// How what a program left after so many events differs from what is due.
pub(crate) fn compare(events: usize, played: Left, due: Left) -> Result<(), Fault> {
    if played == due {
        return Ok(());
    }
    let ((number, answers, store), (due, due_answers, due_store)) = (played, due);
    if number != due {
        return Err(Fault::Number(number, due));
    }
    let end = events * ANSWER_BYTES;
    let differs = |(one, two): (&u8, &u8)| one != two;
    if let Some(at) = answers[..end].iter().zip(due_answers).position(differs) {
        return Err(Fault::Answer(at / ANSWER_BYTES));
    }
    if answers[end..].iter().any(|byte| *byte != TAIL) {
        return Err(Fault::Tail);
    }
    let at = store.iter().zip(due_store).position(differs);
    Err(Fault::Store(at.unwrap_or(0)))
}

/// The second run has other bytes in lost transactions' writes and another working buffer; with no
/// such write it is the same run, and must leave the same.
fn check_second(program: Program, case: &Case, played: &Played, history: &History) -> Result<(), Fault> {
    let changed = second_list(history, &case.events, |value| value.wrapping_mul(5).wrapping_add(0x5D));
    match changed {
        Some(events) => {
            let other = Case { store: case.store, events };
            let second = program.play(&other, 0xC3);
            second_half(history, run_of(case, played), run_of(&other, &second)).map_err(Fault::Demand)
        }
        None if program.play(case, 0xC3) == *played => Ok(()),
        None => Err(Fault::Work),
    }
}

pub(crate) fn run_of<'r>(case: &'r Case, played: &'r Played) -> Run<'r> {
    let answers = &played.answers[..case.length() * ANSWER_BYTES];
    Run { before: &case.store, events: &case.events, answers, after: &played.store }
}
