//! The copy writes of an event where pages can tear: the library's against the player's, and every cut of them, between
//! two and within one, against the library's own run with that count and value.

use super::Pairs;
use crate::planned;
use crate::portions::BoardOf;
use nekahuiro::limits::{ANSWER_BYTES, COUNT_LIMIT, EVENT_BYTES};
use nekahuiro::pairs::limits::COPY_WRITE_BYTES;
use nekahuiro::pairs::{CopyWrite, Half, Store};
use nekahuiro::{raw, Fields, CUT, DONE};
use nekahuiro_player::Form as _;

/// A board on pages that can tear.
pub type Board = BoardOf<Pairs>;

/// The kinds whose count and value say when the power goes.
const COMMIT: u8 = 5;
const RECOVER: u8 = 8;

/// The copy writes of an event word on a board, which must be the player's page writes, each of both copies.
pub fn told(board: &Board, word: [u8; EVENT_BYTES]) -> Result<Vec<CopyWrite>, String> {
    let lent = (board.state.clone(), board.store.clone(), board.work.clone());
    let ask = |index, write: &mut [u8]| raw::pairs::page_write(&lent.0, &lent.1, &word, lent.2.bytes(), index, write);
    let writes = planned::all::<COPY_WRITE_BYTES>(0..70, ask)?;
    if (&lent.0, &lent.1, &lent.2) != (&board.state, &board.store, &board.work) {
        return Err("state, store or working buffer was changed".to_string());
    }
    let due = nekahuiro_player::Pairs::page_writes(&board.volatile, &board.store, word);
    let due = due.ok_or("the player has no state")?.into_iter();
    let due = due.flat_map(|(page, bytes)| [0, 1].map(|half| [&[page, half], &bytes[..]].concat()));
    match writes.iter().map(|write| write.to_vec()).eq(due) {
        true => Ok(writes.into_iter().map(CopyWrite::of).collect()),
        false => Err(format!("copy writes {writes:02X?} aren't the player's page writes twice")),
    }
}

/// The copy writes of an event word on a board. With the first j of them carried out, for every j, and with the power
/// gone within the next, the store must be what the library leaves with that count and value.
pub fn check(board: &Board, word: [u8; EVENT_BYTES]) -> Result<Vec<CopyWrite>, String> {
    let writes = told(board, word)?;
    let fields = Fields::of(word);
    if !matches!(fields.kind, COMMIT | RECOVER) || fields.value > 3 {
        let (store, _) = played(board, word)?;
        return if writes.is_empty() && store == board.store { Ok(writes) } else { Err(format!("{word:02X?} writes")) };
    }
    let before = readied(board, word)?;
    for made in 0..=writes.len() {
        // Between two page writes, or the two copies of one; then within the next copy.
        let count = made as u8 / 2;
        let (behind, within) = if made % 2 == 0 { (0, 1) } else { (3, 2) };
        let mut medium = store(&before);
        writes[..made].iter().for_each(|write| medium.make(write));
        compare(board, Fields { count, value: behind, ..fields }, &writes, medium.bytes())?;
        if let Some(next) = writes.get(made) {
            medium.spoil(next);
            compare(board, Fields { count, value: within, ..fields }, &writes, medium.bytes())?;
        }
    }
    // With a count of at least as many as are due nothing tears.
    let mut whole = store(&before);
    writes.iter().for_each(|write| whole.make(write));
    for (count, value) in [writes.len() as u8 / 2, COUNT_LIMIT].into_iter().flat_map(|n| (0..4).map(move |v| (n, v))) {
        compare(board, Fields { count, value, ..fields }, &writes, whole.bytes())?;
    }
    Ok(writes)
}

/// The store before the first copy write of a commit or recover: mended, where a recover is accepted.
fn readied(board: &Board, word: [u8; EVENT_BYTES]) -> Result<Vec<u8>, String> {
    let (_, answer) = played(board, word)?;
    let recovers = Fields::of(word).kind == RECOVER && matches!(answer[0], DONE | CUT);
    Ok(if recovers { mended(&board.store) } else { board.store.clone() })
}

/// Each pair of a store twice its first good copy, where there is one.
pub fn mended(bytes: &[u8]) -> Vec<u8> {
    let mut mended = store(bytes);
    for page in 0..33 {
        if let Some(good) = mended.first_good(page.into()) {
            let bytes = mended.copy(page.into(), good).bytes;
            Half::BOTH.iter().for_each(|half| mended.make(&CopyWrite { page, half: *half, bytes }));
        }
    }
    mended.bytes().to_vec()
}

/// What the library leaves and answers of one event.
fn played(board: &Board, word: [u8; EVENT_BYTES]) -> Result<(Vec<u8>, [u8; ANSWER_BYTES]), String> {
    let (mut state, mut store, mut work) = (board.state.clone(), board.store.clone(), board.work.clone());
    let mut answer = [0; ANSWER_BYTES];
    match raw::pairs::portion(&mut state, &mut store, &word, work.bytes_mut(), &mut answer) {
        0 => Ok((store, answer)),
        number => Err(format!("{word:02X?} is refused with {number}")),
    }
}

/// One run of the library with a count and a value.
fn compare(board: &Board, fields: Fields, writes: &[CopyWrite], due: &[u8]) -> Result<(), String> {
    let (store, answer) = played(board, fields.word())?;
    let (pages, count) = (writes.len() / 2, usize::from(fields.count));
    let made = if count < pages { count + usize::from(fields.value >= 2) } else { pages };
    let wrong = |what: &str| Err(format!("{fields:?}: {what} isn't that of {made} of {pages} page writes"));
    match writes.is_empty() || answer == [if count < pages { CUT } else { DONE }, made as u8] {
        _ if store != due => wrong("the store"),
        false => wrong(&format!("the answer {answer:02X?}")),
        true => Ok(()),
    }
}

/// The store in these bytes.
///
/// # Panics
/// If they aren't as many as a store has.
pub fn store(bytes: &[u8]) -> Store {
    Store::of(bytes).expect("the bytes of a store")
}
