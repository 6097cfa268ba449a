//! Lists played as if one transaction came at a time, and the same in portions.

use crate::check::run_of;
use crate::minimise::minimise;
use crate::portions::{play_cut, Board};
use crate::{report, Case, Fault, Played, Program};
use nekahuiro_history::{serial, tell, Run, Serial};
use nekahuiro_lists::Rng;
use std::sync::atomic::{AtomicU64, Ordering};

/// What was played again.
#[derive(Default)]
pub struct Tally {
    /// Lists.
    pub lists: AtomicU64,
    /// Top transactions that were played one after the other.
    pub turns: AtomicU64,
    /// Those of them that weren't in their place by the order of their begins.
    pub moved: AtomicU64,
    /// Reads whose bytes were compared.
    pub reads: AtomicU64,
    /// Decisions that were played.
    pub decisions: AtomicU64,
}

/// Plays a case, finds its serial list in events and answers, plays that over the same store, and compares.
pub fn check(program: Program, case: &Case) -> Result<(Played, Serial), Fault> {
    let played = program.play(case, 0x5A);
    let run = run_of(case, &played);
    let history = tell(run.events, run.answers).map_err(|absurd| Fault::Demand(absurd.into()))?;
    let serial = serial(&history, run.events, run.answers);
    let again = Case { store: case.store, events: serial.words() };
    let replayed = program.play(&again, 0xC3);
    serial.check(run, run_of(&again, &replayed)).map_err(Fault::Serial)?;
    Ok((played, serial))
}

/// The same for lists of an exhaustive family: a failure is made small and told in words.
pub fn holds(program: Program, case: &Case) -> Result<Played, String> {
    match check(program, case) {
        Ok((played, _)) => Ok(played),
        Err(_) => Err(told(program, case.clone(), |_| true)),
    }
}

/// Whether a case isn't as if one transaction came at a time, though its answers tell a history.
pub fn is_serial(fault: &Fault) -> bool {
    matches!(fault, Fault::Serial(_))
}

/// A failing case, made small as long as it fails so, and told in words, with its serial list.
pub fn told(program: Program, case: Case, so: fn(&Fault) -> bool) -> String {
    let small = minimise(case, |case| check(program, case).is_err_and(|fault| so(&fault)));
    let Err(fault) = check(program, &small) else { return "the failure doesn't come again".to_string() };
    let mut text = report::tell(&small, &fault, program, Program::Player);
    let played = program.play(&small, 0x5A);
    if let Ok(history) = tell(&small.events, run_of(&small, &played).answers) {
        let serial = serial(&history, &small.events, run_of(&small, &played).answers);
        let words = serial.events().map(|placed| format!("{} (event {})", nekahuiro::describe(placed.word), placed.at));
        text.push_str(&format!("played: {}\n", words.collect::<Vec<_>>().join(", ")));
    }
    text
}

/// Plays a case in portions, and its serial list, found in the joined events and answers, in other portions.
pub fn check_cut(case: &Case, longest: usize, rng: &mut Rng) -> Result<(), String> {
    let mut board = Board::new(case.store, rng);
    let (answers, _) = play_cut(&mut board, &case.events, longest, rng)?;
    let history = tell(&case.events, &answers).map_err(|absurd| absurd.what.to_string())?;
    let serial = serial(&history, &case.events, &answers);
    let words = serial.words();
    let mut other = Board::new(case.store, rng);
    let (again, _) = play_cut(&mut other, &words, longest, rng)?;
    let run = Run { before: &case.store, events: &case.events, answers: &answers, after: &board.store };
    let replay = Run { before: &case.store, events: &words, answers: &again, after: &other.store };
    serial.check(run, replay).map_err(|unlike| format!("{unlike:?}"))
}

impl Tally {
    /// Counts a case.
    pub fn add(&self, serial: &Serial) {
        let count = |counter: &AtomicU64, number: usize| counter.fetch_add(number as u64, Ordering::Relaxed);
        let begun: Vec<usize> = serial.turns.iter().filter_map(|turn| turn.transaction).collect();
        count(&self.lists, 1);
        count(&self.turns, serial.turns.len());
        count(&self.moved, begun.windows(2).filter(|pair| pair[0] > pair[1]).count());
        count(&self.reads, serial.events().filter(|placed| placed.word[0] >> 4 == 4).count());
        count(&self.decisions, serial.events().filter(|placed| placed.word[0] >> 4 == 10).count());
    }

    /// The tally as a line of text.
    pub fn text(&self) -> String {
        let get = |count: &AtomicU64| count.load(Ordering::Relaxed);
        format!(
            "{} lists, {} top transactions one at a time, {} in another order than begun, {} reads, {} decisions",
            get(&self.lists),
            get(&self.turns),
            get(&self.moved),
            get(&self.reads),
            get(&self.decisions)
        )
    }
}
