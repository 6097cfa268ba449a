//! A case: a start store and a list. A program plays it.

use crate::check::Left;
use nekahuiro::limits::{ANSWER_BYTES, EVENT_BYTES, WORK_BYTES};
use nekahuiro_lists::stores::Bytes;
use nekahuiro_player::planted::Bug;

/// A start store and event words.
#[derive(Clone)]
pub struct Case {
    /// The store before.
    pub store: Bytes,
    /// The event words.
    pub events: Vec<u8>,
}

/// A program that plays lists: the proved library, the ordinary player, the tuned one, or a copy with a bug.
#[derive(Clone, Copy, Debug, PartialEq, Eq)]
pub enum Program {
    /// The proved library.
    Engine,
    /// The ordinary player.
    Player,
    /// The player that is written to be quick.
    Tuned,
    /// The ordinary player with a bug planted.
    Planted(Bug),
}

/// What a program left after a case.
#[derive(Clone, PartialEq, Eq)]
pub struct Played {
    /// What the run itself answered.
    pub number: u8,
    /// The store after.
    pub store: Bytes,
    /// The whole answer buffer.
    pub answers: Vec<u8>,
}

/// What the answer buffer holds before a run.
pub const TAIL: u8 = 0xEE;
/// Bytes of the answer buffer past the last event.
pub const TAIL_BYTES: usize = 5;

impl Program {
    /// Its name in reports.
    pub fn name(self) -> &'static str {
        match self {
            Program::Engine => "engine",
            Program::Player => "player",
            Program::Tuned => "tuned",
            Program::Planted(_) => "planted",
        }
    }

    /// Runs it on lent buffers.
    pub fn run(self, store: &mut [u8], events: &[u8], work: &mut [u8], answers: &mut [u8]) -> u8 {
        match self {
            Program::Engine => nekahuiro::raw::run(store, events, work, answers),
            Program::Player => nekahuiro_player::run(store, events, work, answers),
            Program::Tuned => nekahuiro_tuned::run(store, events, work, answers),
            Program::Planted(bug) => nekahuiro_player::run_with_bug(bug, store, events, work, answers),
        }
    }

    /// Plays a case on a working buffer full of one byte.
    pub fn play(self, case: &Case, filler: u8) -> Played {
        let mut store = case.store;
        let mut work = [filler; WORK_BYTES];
        let mut answers = vec![TAIL; case.length() * ANSWER_BYTES + TAIL_BYTES];
        let number = self.run(&mut store, &case.events, &mut work, &mut answers);
        Played { number, store, answers }
    }
}

impl Played {
    /// The same in parts.
    pub(crate) fn left(&self) -> Left<'_> {
        (self.number, &self.answers, &self.store)
    }
}

impl Case {
    /// Events in the list.
    pub fn length(&self) -> usize {
        self.events.len() / EVENT_BYTES
    }
}
