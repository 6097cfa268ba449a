//! Lists cut into portions: the library, on a state that is lent, against the player and whole runs.

use crate::case::{Case, Program, TAIL, TAIL_BYTES};
use crate::{forms, lent, settings};
use nekahuiro::limits::{ANSWER_BYTES, EVENT_BYTES};
use nekahuiro::{raw, State, Work};
use nekahuiro_lists::stores::Bytes;
use nekahuiro_lists::Rng;
use nekahuiro_player::{Form as PlayersForm, Volatile};
use std::sync::atomic::{AtomicU64, Ordering};
use std::sync::Mutex;

/// A portion of the library: the lent state, store, event words, working buffer and answers.
pub type Portion = fn(&mut State, &mut [u8], &[u8], &mut [u8], &mut [u8]) -> u8;

/// A form of the store that is played in portions.
pub trait Lends {
    /// The bytes of a store.
    type Bytes: Clone + PartialEq + AsRef<[u8]> + AsMut<[u8]>;
    /// The player's form.
    type Player: PlayersForm;
    /// The library's.
    const PORTION: Portion;
}

/// Edition 1 on atomic pages.
pub struct Plain;

impl Lends for Plain {
    type Bytes = Bytes;
    type Player = nekahuiro_player::Plain;
    const PORTION: Portion = raw::portion;
}

impl Lends for forms::Pairs {
    type Bytes = Vec<u8>;
    type Player = nekahuiro_player::Pairs;
    const PORTION: Portion = raw::pairs::portion;
}

/// What a board keeps from one portion to the next, and what the player keeps beside it.
pub struct BoardOf<F: Lends> {
    /// The lent state.
    pub state: State,
    /// The store.
    pub store: F::Bytes,
    /// The working buffer.
    pub work: Work,
    /// What the player keeps.
    pub volatile: Volatile<F::Player>,
    players_store: F::Bytes,
}

/// The same on atomic pages.
pub type Board = BoardOf<Plain>;

impl<F: Lends> BoardOf<F> {
    /// A board at the start, with anything in its working buffer.
    pub fn new(store: F::Bytes, rng: &mut Rng) -> Self {
        let mut work = Work::new();
        work.bytes_mut().fill_with(|| rng.byte());
        let players_store = store.clone();
        BoardOf { state: State::new(), store, work, volatile: Volatile::default(), players_store }
    }

    /// A board on which a state was put; none if it isn't sound.
    pub fn with(state: State, store: F::Bytes, work: Work) -> Option<Self> {
        let facts = lent::judge_in::<F::Player>(&state, &work, store.as_ref()).ok()?;
        let volatile = Volatile::of(&facts, &F::Player::commit_page(store.as_ref())?)?;
        Some(BoardOf { state, players_store: store.clone(), store, work, volatile })
    }

    /// Plays a portion on library and player; the answers, or how they differ.
    pub fn play(&mut self, events: &[u8]) -> Result<Vec<u8>, String> {
        let end = events.len() / EVENT_BYTES * ANSWER_BYTES;
        let mut answers = vec![TAIL; end + TAIL_BYTES];
        let mut due = answers.clone();
        let number = F::PORTION(&mut self.state, self.store.as_mut(), events, self.work.bytes_mut(), &mut answers);
        let players = F::Player::portion(
            &mut self.volatile,
            self.players_store.as_mut(),
            events,
            Work::new().bytes_mut(),
            &mut due,
        );
        if (number, players) != (0, 0) {
            return Err(format!("the portion is answered {number}, by the player {players}"));
        }
        if answers != due {
            return Err(format!("answers {answers:02X?}, the player's {due:02X?}"));
        }
        self.compare()?;
        answers.truncate(end);
        Ok(answers)
    }

    /// Store, struct and versions are the player's.
    fn compare(&self) -> Result<(), String> {
        let facts = self.volatile.facts();
        let due = lent::encode(&facts);
        if self.store != self.players_store {
            return Err("the store isn't the player's".to_string());
        }
        if self.state.bytes() != due.bytes() {
            return Err(format!("the state is {:?}, the player's {due:?}", self.state));
        }
        if lent::facts(&self.state, &self.work) != facts {
            return Err("a version isn't the player's".to_string());
        }
        match lent::judge_in::<F::Player>(&self.state, &self.work, self.store.as_ref()) {
            Ok(_) => Ok(()),
            Err(why) => Err(format!("the state isn't sound: {why:?}")),
        }
    }

    /// Puts anything into the bytes of the working buffer that hold no version.
    pub fn scramble(&mut self, rng: &mut Rng) {
        let taken = lent::taken(&self.state);
        for (byte, taken) in self.work.bytes_mut().iter_mut().zip(taken) {
            if !taken {
                *byte = rng.byte();
            }
        }
    }

    /// Lends what must be refused, in a random way; nothing may change.
    pub fn refuse(&mut self, events: &[u8], rng: &mut Rng) -> Result<(), String> {
        let mut answers = vec![TAIL; events.len() / EVENT_BYTES * ANSWER_BYTES + 1];
        let mut work = self.work.bytes().to_vec();
        let mut store = self.store.as_ref().to_vec();
        let mut list = events.to_vec();
        let mut state = self.state.clone();
        // Whatever is wrong behind the first wrong thing has no say.
        let way = match rng.below(5) {
            3 if events.is_empty() => 2, // no answers are due
            way => way,
        };
        let wrong = |at: usize, rng: &mut Rng| at == way || (at > way && rng.percent(30));
        if wrong(0, rng) {
            store.pop();
        }
        if wrong(1, rng) {
            work.push(0);
        }
        if wrong(2, rng) {
            list.push(0);
        }
        if wrong(3, rng) {
            answers.truncate((events.len() / EVENT_BYTES * ANSWER_BYTES).saturating_sub(1));
        }
        if wrong(4, rng) {
            state.up = 2 + rng.below(254) as u8;
        }
        let before = (state.clone(), store.clone(), work.clone(), answers.clone());
        let number = F::PORTION(&mut state, &mut store, &list, &mut work, &mut answers);
        let due = [22, 24, 20, 21, 25][way];
        if number != due {
            return Err(format!("refused with {number}, and {due} is due"));
        }
        match (state, store, work, answers) == before {
            true => Ok(()),
            false => Err(format!("refused with {number}, but something was changed")),
        }
    }
}

/// Plays a list in portions of random length, at most `longest` events, with refused ones between; the
/// joined answers, and how many portions there were.
pub fn play_cut<F: Lends>(
    board: &mut BoardOf<F>,
    list: &[u8],
    longest: usize,
    rng: &mut Rng,
) -> Result<(Vec<u8>, u64), String> {
    let length = list.len() / EVENT_BYTES;
    let (mut joined, mut at, mut portions) = (Vec::new(), 0, 0);
    while at < length {
        let end = length.min(at + rng.below(longest + 1));
        let end = if longest == 1 { at + 1 } else { end };
        let events = &list[at * EVENT_BYTES..end * EVENT_BYTES];
        let place = |text: String| format!("events {at} to {end}: {text}");
        if rng.percent(10) {
            board.refuse(events, rng).map_err(place)?;
        }
        joined.extend(board.play(events).map_err(place)?);
        if rng.percent(30) {
            board.scramble(rng);
        }
        at = end;
        portions += 1;
    }
    Ok((joined, portions))
}

/// Plays a case in portions of random length, at most `longest` events, and compares with a whole run.
pub fn check_cut(case: &Case, longest: usize, rng: &mut Rng) -> Result<u64, String> {
    let whole = Program::Engine.play(case, 0x5A);
    compare_cut(Board::new(case.store, rng), &case.events, (&whole.answers, &whole.store), longest, rng)
}

/// The same of a form.
pub fn check_cut_of<F: Lends<Bytes = Vec<u8>> + forms::Form>(
    case: &forms::Case,
    longest: usize,
    rng: &mut Rng,
) -> Result<u64, String> {
    let whole = forms::Program::Engine.play::<F>(case, 0x5A);
    let board = BoardOf::<F>::new(case.store.clone(), rng);
    compare_cut(board, &case.events, (&whole.answers, &whole.store), longest, rng)
}

/// Plays a list in portions on a board; answers and store must be those of the whole run.
fn compare_cut<F: Lends>(
    mut board: BoardOf<F>,
    list: &[u8],
    (answers, store): (&[u8], &F::Bytes),
    longest: usize,
    rng: &mut Rng,
) -> Result<u64, String> {
    let (joined, portions) = play_cut(&mut board, list, longest, rng)?;
    if let Some(at) = (0..joined.len()).find(|at| joined[*at] != answers[*at]) {
        return Err(format!("event {}: the answer isn't that of the whole run", at / ANSWER_BYTES));
    }
    match board.store == *store {
        true => Ok(portions),
        false => Err("the store isn't that of the whole run".to_string()),
    }
}

/// The random source for a number of a test, which its salt tells from other tests.
pub fn rng(salt: u64, number: u64) -> Rng {
    Rng::new(settings::seed() ^ salt.rotate_left(40) ^ number.wrapping_mul(0xA24B_AED4_963E_E407))
}

/// Does `work` for each number below `count`, shared among threads; the first failure.
pub fn share(count: u64, work: impl Fn(u64) -> Result<(), String> + Sync) -> Option<String> {
    let (next, found) = (AtomicU64::new(0), Mutex::new(None));
    let worker = || loop {
        let number = next.fetch_add(1, Ordering::Relaxed);
        if number >= count {
            return;
        }
        if let Err(text) = work(number) {
            next.store(count, Ordering::Relaxed);
            found.lock().map(|mut found| found.get_or_insert(format!("number {number}: {text}")).clone()).ok();
        }
    };
    std::thread::scope(|scope| {
        for _ in 0..settings::threads() {
            scope.spawn(worker);
        }
    });
    found.into_inner().ok().flatten()
}
