//! States to lend: those that lists lead to, sound ones made at random, and sound ones with something changed.

use crate::portions::Board;
use crate::random;
use nekahuiro::limits::{DEPTH_LIMIT, EVENT_BYTES, RECORDS, STATE_BYTES};
use nekahuiro::{State, Work};
use nekahuiro_lists::stores::{self, Bytes};
use nekahuiro_lists::Rng;

/// A reachable or a made up state with its store and working buffer.
pub fn start(seed: u64, number: u64, rng: &mut Rng) -> Result<(State, Bytes, Work), String> {
    let mut case = random::case(seed, number);
    let cut = rng.below(case.length() + 1);
    case.events.truncate(cut * EVENT_BYTES);
    let mut board = Board::new(case.store, rng);
    board.play(&case.events)?;
    if rng.percent(30) {
        board.state = any_state(rng);
        board.store = if rng.percent(70) { stores::used(rng) } else { prepared_beside(&board.state, rng) };
        board.work.bytes_mut().fill_with(|| rng.byte());
    }
    Ok((board.state, board.store, board.work))
}

/// A store with a prepared transaction that changed records whose locks nobody has, or almost.
fn prepared_beside(state: &State, rng: &mut Rng) -> Bytes {
    let free = (0..16).filter(|r| state.held[2 * r] | state.retained[2 * r] == 0);
    let map = free.fold(0, |map, r| map | 0x8000 >> r) & rng.bits() as u16;
    let map = if map == 0 || rng.percent(10) { map | 1 << rng.below(16) } else { map };
    let identity = rng.one_of([0, 7, 255]);
    stores::prepared(rng, map, identity)
}

/// Changes something in a struct, at random: it may still be sound.
pub fn mutate(state: &mut State, rng: &mut Rng) {
    let (t, r) = (rng.below(state.depth.len()), rng.below(RECORDS));
    // A set of a record, in any mode or in write mode.
    let place = 2 * r + rng.below(2);
    let live = live(state);
    let someone = rng.pick(&live).copied().unwrap_or(t);
    let bit = 1 << someone;
    match rng.below(20) {
        0..=1 => {
            let mut bytes = state.bytes();
            // The last bytes are few and say much.
            let at = if rng.percent(30) { STATE_BYTES - 1 - rng.below(4) } else { rng.below(STATE_BYTES) };
            bytes[at] = if rng.percent(50) { bytes[at] ^ 1 << rng.below(8) } else { rng.byte() };
            State::of(&bytes).into_iter().for_each(|changed| *state = changed);
        }
        2 => state.depth[someone] = state.depth[someone].wrapping_add(rng.one_of([1, 255])),
        3 => state.depth[t] = rng.below(DEPTH_LIMIT + 3) as u8,
        4 => state.parent[someone] = rng.below(33) as u8,
        5 => state.parent[someone] = rng.pick(&live).map_or(31, |parent| *parent as u8),
        6 => state.held[place] ^= bit,
        7 => state.held[2 * r] |= bit,
        8 => (state.held[2 * r], state.held[2 * r + 1]) = (bit, bit & rng.bits() as u32),
        9 => state.held[2 * r + 1] |= state.held[2 * r] & rng.bits() as u32,
        10 => state.retained[place] ^= bit,
        11 => state.retained[2 * r] |= (state.line[someone] | bit) & rng.bits() as u32,
        12 => state.retained[2 * r + 1] |= state.retained[2 * r] & rng.bits() as u32,
        13 => {
            let set = state.line[someone] & rng.bits() as u32;
            state.retained[2 * r] |= set;
            state.retained[2 * r + 1] |= set;
        }
        14 => state.writers[r] ^= bit,
        15 => state.writers[r] |= (state.held[place] | state.retained[place]) & rng.bits() as u32,
        16 => state.up = rng.one_of([0, 1, 1, 1, 2, 255]),
        17 => state.line[someone] ^= 1 << rng.below(32),
        _ => forget(state, someone),
    }
}

/// A transaction is gone, with all that it held: sound if it was a leaf.
fn forget(state: &mut State, transaction: usize) {
    state.depth[transaction] = 0;
    state.parent[transaction] = 0;
    state.line[transaction] = 0;
    for set in state.held.iter_mut().chain(&mut state.retained).chain(&mut state.writers) {
        *set &= !(1 << transaction);
    }
}

/// A sound struct made at random, mostly one that no list leads to.
pub fn any_state(rng: &mut Rng) -> State {
    let mut state = State { up: 1, ..State::new() };
    tree(&mut state, rng);
    let live = live(&state);
    for r in 0..RECORDS {
        let Some(low) = rng.pick(&live).copied().filter(|_| rng.percent(60)) else { continue };
        if rng.percent(40) {
            written(&mut state, r, low, rng);
        } else {
            shared(&mut state, r, low, rng);
        }
        let writing = state.held[2 * r + 1] | state.retained[2 * r + 1];
        state.writers[r] = writing & rng.bits() as u32;
    }
    state
}

/// Live transactions: chains down to the depth limit, or bushes.
fn tree(state: &mut State, rng: &mut Rng) {
    let chains = rng.one_of([0, 50, 95]);
    for t in 0..rng.below(state.depth.len() + 1) {
        if rng.percent(10) {
            continue;
        }
        let above: Vec<usize> = (0..t).filter(|t| (1..DEPTH_LIMIT as u8).contains(&state.depth[*t])).collect();
        let deepest = above.iter().max_by_key(|t| state.depth[**t]).copied();
        let parent = match rng.percent(chains) {
            true => deepest,
            false => rng.pick(&above).copied().filter(|_| rng.percent(75)),
        };
        state.parent[t] = parent.map_or(31, |parent| parent as u8);
        state.depth[t] = 1 + parent.map_or(0, |parent| state.depth[parent]);
        state.line[t] = 1 << t | parent.map_or(0, |parent| state.line[parent]);
    }
}

/// A lock with a write holder, which is alone and beneath every retainer; or with retainers on its line only.
fn written(state: &mut State, r: usize, low: usize, rng: &mut Rng) {
    state.retained[2 * r] = state.line[low] & rng.bits() as u32;
    state.retained[2 * r + 1] = state.retained[2 * r] & rng.bits() as u32;
    if rng.percent(70) {
        (state.held[2 * r], state.held[2 * r + 1]) = (1 << low, 1 << low);
    }
}

/// A lock that is held to read: readers beneath all write-mode retainers, and retainers in read mode on one
/// line with each of those.
fn shared(state: &mut State, r: usize, low: usize, rng: &mut Rng) {
    let none = rng.percent(40);
    let writing = if none { 0 } else { state.line[low] & rng.bits() as u32 };
    let beneath = |t: usize| state.line[t] & writing == writing;
    let on_line = |t: usize| on_one_line(state, t, writing);
    let live = live(state);
    let set = |wanted: &dyn Fn(usize) -> bool| live.iter().filter(|t| wanted(**t)).fold(0, |set, t| set | 1u32 << t);
    let (readers, retainers) = (set(&beneath), set(&on_line));
    state.held[2 * r] = readers & rng.bits() as u32;
    state.retained[2 * r] = writing | retainers & rng.bits() as u32;
    state.retained[2 * r + 1] = writing;
}

/// Whether a transaction is on one line with each of these.
fn on_one_line(state: &State, t: usize, these: u32) -> bool {
    let with = |other: usize| state.line[t] >> other & 1 == 1 || state.line[other] >> t & 1 == 1;
    (0..state.depth.len()).filter(|other| these >> other & 1 == 1).all(with)
}

fn live(state: &State) -> Vec<usize> {
    (0..state.depth.len()).filter(|t| state.depth[*t] != 0).collect()
}
