//! The programs that are timed: the engine, the ordinary player, the tuned player, and the floor.

use crate::failure::{Failure, Outcome};
use crate::store::{library, Store};
use nekahuiro::limits::{ANSWER_BYTES, EVENTS, EVENT_BYTES};
use nekahuiro::{raw, Edition, State};
use nekahuiro_lists::timing::{MakeOf, KINDS_OF};
use nekahuiro_lists::Form;
use nekahuiro_player::{Edition2, Form as PlayersForm, Pairs, Plain, Volatile};
use nekahuiro_tuned::{Tuned, TunedPairs};
use std::hint::black_box;
use std::time::Instant;

/// Plays a list on the buffers; 0, or a refusal's number.
pub type Program = fn(&mut Bench, &[u8]) -> u8;

/// The programs' names, the engine's first.
pub const NAMES: [&str; 4] = ["engine", "player", "tuned", "floor"];

/// The programs on a whole list, and on one event at a time.
const WHOLE: [Program; 4] = [Bench::engine, Bench::player, Bench::tuned, Bench::floor];
const ONE_BY_ONE: [Program; 4] =
    [Bench::engine_one_by_one, Bench::player_one_by_one, Bench::tuned_one_by_one, Bench::floor_one_by_one];

/// How lists are played: what the name of a list gets before it, the edition, then the programs. Edition 2 has no portions.
pub const WAYS: [(&str, Edition, [Program; 4]); 5] = [
    ("", Edition::FIRST, WHOLE),
    ("portions-of-1-", Edition::FIRST, ONE_BY_ONE),
    ("edition-2-", Edition::SECOND, WHOLE),
    ("pairs-", Edition::PAIRS, WHOLE),
    ("pairs-portions-of-1-", Edition::PAIRS, ONE_BY_ONE),
];

/// A kind of list and how it is played.
pub struct Race {
    pub name: String,
    pub edition: Edition,
    pub programs: [Program; 4],
    make: MakeOf,
}

impl Race {
    /// The list of this seed.
    pub fn list(&self, seed: u64) -> Vec<u8> {
        let form = match self.edition {
            Edition::SECOND => Form::EDITION_2,
            Edition::PAIRS => Form::PAIRS,
            _ => Form::PLAIN,
        };
        (self.make)(form, seed)
    }
}

/// All kinds, whole; then all of them one event at a time; then those of edition 2, and where pages can tear.
pub fn races() -> Vec<Race> {
    let of = |(before, edition, programs)| {
        KINDS_OF.map(|(kind, make)| Race { name: format!("{before}{kind}"), edition, programs, make })
    };
    WAYS.into_iter().flat_map(of).collect()
}

/// The buffers of a run. The store is fresh before each; the working buffer and the answers hold what the run before left.
pub struct Bench {
    edition: Edition,
    fresh: Vec<u8>,
    store: Vec<u8>,
    work: Vec<u8>,
    answers: Vec<u8>,
}

impl Bench {
    pub fn new(edition: Edition) -> Bench {
        let (fresh, answers) = (Store::fresh(edition).bytes().to_vec(), vec![0; EVENTS * ANSWER_BYTES]);
        Bench { edition, store: fresh.clone(), fresh, work: vec![0; edition.work_bytes()], answers }
    }

    fn engine(&mut self, events: &[u8]) -> u8 {
        let run = match self.edition {
            Edition::SECOND => raw::edition2::run,
            Edition::PAIRS => raw::pairs::run,
            _ => raw::run,
        };
        run(&mut self.store, events, &mut self.work, &mut self.answers)
    }

    fn player(&mut self, events: &[u8]) -> u8 {
        let run = match self.edition {
            Edition::SECOND => Edition2::run,
            Edition::PAIRS => Pairs::run,
            _ => nekahuiro_player::run,
        };
        run(&mut self.store, events, &mut self.work, &mut self.answers)
    }

    fn tuned(&mut self, events: &[u8]) -> u8 {
        let run = match self.edition {
            Edition::SECOND => nekahuiro_tuned::run_edition2,
            Edition::PAIRS => nekahuiro_tuned::run_pairs,
            _ => nekahuiro_tuned::run,
        };
        run(&mut self.store, events, &mut self.work, &mut self.answers)
    }

    fn floor(&mut self, events: &[u8]) -> u8 {
        match self.edition {
            Edition::SECOND => self.answer_each::<8>(events, least_edition2),
            _ => self.answer_each::<EVENT_BYTES>(events, least),
        }
    }

    #[inline(always)]
    fn answer_each<const WORD: usize>(&mut self, events: &[u8], answer: impl Fn(&[u8]) -> [u8; ANSWER_BYTES]) -> u8 {
        for (word, place) in events.chunks_exact(WORD).zip(self.answers.chunks_exact_mut(ANSWER_BYTES)) {
            place.copy_from_slice(&answer(word));
        }
        0
    }

    fn engine_one_by_one(&mut self, events: &[u8]) -> u8 {
        let portion = if self.edition.tears { raw::pairs::portion } else { raw::portion };
        let mut state = State::new();
        let Bench { store, work, answers, .. } = self;
        one_by_one(events, answers, |word, answer| portion(&mut state, store, word, work, answer))
    }

    fn player_one_by_one(&mut self, events: &[u8]) -> u8 {
        match self.edition.tears {
            true => self.play_one_by_one::<Pairs>(events),
            false => self.play_one_by_one::<Plain>(events),
        }
    }

    fn play_one_by_one<F: PlayersForm>(&mut self, events: &[u8]) -> u8 {
        let mut volatile = Volatile::default();
        let Bench { store, work, answers, .. } = self;
        one_by_one(events, answers, |word, answer| F::portion(&mut volatile, store, word, work, answer))
    }

    fn tuned_one_by_one(&mut self, events: &[u8]) -> u8 {
        let (mut tuned, mut pairs) = (Tuned::default(), TunedPairs::default());
        let tears = self.edition.tears;
        let Bench { store, work, answers, .. } = self;
        match tears {
            true => one_by_one(events, answers, |word, answer| pairs.portion(store, word, work, answer)),
            false => one_by_one(events, answers, |word, answer| tuned.portion(store, word, work, answer)),
        }
    }

    fn floor_one_by_one(&mut self, events: &[u8]) -> u8 {
        one_by_one(events, &mut self.answers, |word, answer| {
            answer.copy_from_slice(&least(black_box(word)));
            0
        })
    }

    /// Plays a list on a fresh store; how many nanoseconds it took.
    pub fn time(&mut self, program: Program, events: &[u8]) -> Outcome<f64> {
        self.store.copy_from_slice(&self.fresh);
        let start = Instant::now();
        let number = program(self, black_box(events));
        let time = start.elapsed().as_secs_f64() * 1e9;
        black_box(&self.answers);
        match number {
            0 => Ok(time),
            _ => Err(Failure::new(
                &format!("a run was refused with {number}"),
                &format!("make the library again with `tools/archives {}`", library(self.edition)),
            )),
        }
    }
}

/// The least that any player does: it takes a word apart, branches on its kind, and gives two bytes.
fn least(word: &[u8]) -> [u8; ANSWER_BYTES] {
    let word = u32::from_be_bytes([word[0], word[1], word[2], word[3]]);
    let (transaction, record, offset) = (word >> 23 & 31, word >> 19 & 15, word >> 14 & 31);
    branched(word >> 28, transaction, record, offset, word >> 8 & 63, word & 1)
}

/// The same for a word of edition 2.
fn least_edition2(word: &[u8]) -> [u8; ANSWER_BYTES] {
    let word = u64::from_be_bytes([word[0], word[1], word[2], word[3], word[4], word[5], word[6], word[7]]) >> 28;
    let (transaction, record, offset) = (word >> 27 & 31, word >> 21 & 63, word >> 16 & 31);
    let [transaction, record, offset] = [transaction, record, offset].map(|field| field as u32);
    branched((word >> 32) as u32, transaction, record, offset, (word >> 8 & 255) as u32, (word & 1) as u32)
}

#[inline(always)]
fn branched(kind: u32, transaction: u32, record: u32, offset: u32, count: u32, one: u32) -> [u8; ANSWER_BYTES] {
    // The empty asides keep the arms apart, so that there is a branch.
    let aside = |value: u32| {
        black_box(());
        value
    };
    let value = match kind {
        1 => aside(transaction),
        2 => aside(record + transaction),
        3 => aside(offset ^ record),
        4 => aside(offset + transaction),
        5 => aside(count),
        6 => aside(one),
        7 | 8 => aside(0),
        _ => return [1, 0],
    };
    [0, value as u8]
}

/// Plays each event as a portion of its own, up to the first that is refused.
fn one_by_one(events: &[u8], answers: &mut [u8], mut play: impl FnMut(&[u8], &mut [u8]) -> u8) -> u8 {
    let pairs = events.chunks_exact(EVENT_BYTES).zip(answers.chunks_exact_mut(ANSWER_BYTES));
    pairs.map(|(word, answer)| play(word, answer)).find(|number| *number != 0).unwrap_or(0)
}
