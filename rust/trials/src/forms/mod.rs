//! Other forms of the store than the plain one: edition 2, and pages that are pairs of copies. The same checks, over a
//! form.

mod check;
pub mod copies;
pub mod events;
pub mod every;
pub mod hex;
pub mod random;
mod tell;

use crate::case::{TAIL, TAIL_BYTES};
use crate::check::Left;
pub use check::{check, run_of};
use nekahuiro::limits::ANSWER_BYTES;
use nekahuiro::raw;
use nekahuiro_lists::{stores, Rng};
use nekahuiro_player::planted::Bug;
use nekahuiro_player::Form as PlayersForm;
pub use tell::told;

/// A run on lent buffers: store, event words, working buffer and answers.
pub type Run = fn(&mut [u8], &[u8], &mut [u8], &mut [u8]) -> u8;

/// A form of the store, as the player, the history and the lists know it.
pub trait Form: Sync {
    /// Its name in reports.
    const NAME: &'static str;
    /// The proved run.
    const PROVED: Run;
    /// The player's.
    type Player: PlayersForm;
    /// The history's.
    const HISTORY: nekahuiro_history::Form;
    /// The lists'.
    const LISTS: nekahuiro_lists::Form;
    /// A fresh store.
    fn fresh() -> Vec<u8>;
    /// Any store.
    fn any(rng: &mut Rng) -> Vec<u8>;
    /// How many records a committed page 0 names, at a guess.
    fn named(store: &[u8]) -> u32;
}

/// Edition 2: sixty-four records and words of eight bytes.
pub struct Edition2;

impl Form for Edition2 {
    const NAME: &'static str = "edition 2";
    const PROVED: Run = raw::edition2::run;
    type Player = nekahuiro_player::Edition2;
    const HISTORY: nekahuiro_history::Form = nekahuiro_history::Form::EDITION_2;
    const LISTS: nekahuiro_lists::Form = nekahuiro_lists::Form::EDITION_2;

    fn fresh() -> Vec<u8> {
        stores::edition2::fresh()
    }

    fn any(rng: &mut Rng) -> Vec<u8> {
        stores::edition2::any(rng)
    }

    fn named(store: &[u8]) -> u32 {
        stores::edition2::named(store)
    }
}

/// Edition 1 where each page is a pair of copies.
pub struct Pairs;

impl Form for Pairs {
    const NAME: &'static str = "pairs";
    const PROVED: Run = raw::pairs::run;
    type Player = nekahuiro_player::Pairs;
    const HISTORY: nekahuiro_history::Form = nekahuiro_history::Form::PAIRS;
    const LISTS: nekahuiro_lists::Form = nekahuiro_lists::Form::PAIRS;

    fn fresh() -> Vec<u8> {
        stores::pairs::fresh()
    }

    fn any(rng: &mut Rng) -> Vec<u8> {
        stores::pairs::any(rng)
    }

    fn named(store: &[u8]) -> u32 {
        stores::pairs::named(store)
    }
}

/// A program that plays lists of a form.
#[derive(Clone, Copy, Debug, PartialEq, Eq)]
pub enum Program {
    /// The proved engine.
    Engine,
    /// The ordinary player.
    Player,
    /// The ordinary player with a bug planted.
    Planted(Bug),
}

/// A start store and event words.
#[derive(Clone)]
pub struct Case {
    /// The store before.
    pub store: Vec<u8>,
    /// The event words.
    pub events: Vec<u8>,
}

/// What a program left after a case.
#[derive(Clone, PartialEq, Eq)]
pub struct Played {
    /// What the run itself answered.
    pub number: u8,
    /// The store after.
    pub store: Vec<u8>,
    /// The whole answer buffer.
    pub answers: Vec<u8>,
}

impl Program {
    /// Runs it on lent buffers.
    pub fn run<F: Form>(self, store: &mut [u8], events: &[u8], work: &mut [u8], answers: &mut [u8]) -> u8 {
        match self {
            Program::Engine => F::PROVED(store, events, work, answers),
            Program::Player => F::Player::run(store, events, work, answers),
            Program::Planted(bug) => F::Player::run_with_bug(bug, store, events, work, answers),
        }
    }

    /// Plays a case on a working buffer full of one byte.
    pub fn play<F: Form>(self, case: &Case, filler: u8) -> Played {
        let mut store = case.store.clone();
        let mut work = vec![filler; F::Player::WORK_BYTES];
        let mut answers = vec![TAIL; case.length::<F>() * ANSWER_BYTES + TAIL_BYTES];
        let number = self.run::<F>(&mut store, &case.events, &mut work, &mut answers);
        Played { number, store, answers }
    }
}

impl Case {
    /// Events in the list.
    pub fn length<F: Form>(&self) -> usize {
        self.events.len() / F::LISTS.event_bytes
    }
}

impl Played {
    /// The same in parts.
    fn left(&self) -> Left<'_> {
        (self.number, &self.answers, &self.store)
    }

    /// The answers to the events, as numbers and values.
    pub fn told(&self) -> Vec<(u8, u8)> {
        let events = self.answers.len() - TAIL_BYTES;
        self.answers[..events].chunks_exact(ANSWER_BYTES).map(|answer| (answer[0], answer[1])).collect()
    }
}
