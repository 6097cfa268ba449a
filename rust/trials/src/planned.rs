//! The page writes of an event: the library's against the player's, and each cut of them against the library's own
//! run with that count.

use crate::portions::Board;
use nekahuiro::limits::{ANSWER_BYTES, COUNT_LIMIT, EVENT_BYTES, PAGES, PAGE_BYTES, PAGE_WRITE_BYTES, RECORDS};
use nekahuiro::{raw, Fields, PageWrite, State, Work, CUT};
use nekahuiro_lists::stores::Bytes;
use nekahuiro_player::event::uncut;
use std::ops::Range;

/// What each byte of the buffer for a write holds before the call.
const UNTOUCHED: u8 = 0xD7;
/// The library's answer where there is no such page write.
pub const NO_SUCH_WRITE: u8 = 12;

/// The page writes that the library tells of an event word, or why it doesn't; nothing else may be written.
pub fn plan(state: &State, store: &Bytes, work: &Work, word: [u8; EVENT_BYTES]) -> Result<Vec<PageWrite>, String> {
    let lent = (state.clone(), *store, work.clone());
    let ask = |index, write: &mut [u8]| raw::page_write(&lent.0, &lent.1, &word, lent.2.bytes(), index, write);
    let writes = all::<PAGE_WRITE_BYTES>(0..40, ask)?;
    match lent == (state.clone(), *store, work.clone()) {
        true => Ok(writes.into_iter().map(PageWrite::of).collect()),
        false => Err("state, store or working buffer was changed".to_string()),
    }
}

/// All writes that are told, the first of them at these numbers; behind the last one a few are enough.
pub fn all<const N: usize>(first: Range<u8>, ask: impl Fn(u8, &mut [u8]) -> u8) -> Result<Vec<[u8; N]>, String> {
    let (mut writes, mut end) = (Vec::new(), None);
    for index in first.chain([127, 128, 254, 255]) {
        let mut write = [UNTOUCHED; N];
        let number = ask(index, &mut write);
        match end {
            None if number == 0 => writes.push(write),
            _ if write != [UNTOUCHED; N] => return Err(format!("write {index}: {number}, and something is written")),
            None => end = Some(number),
            Some(before) if before != number => return Err(format!("write {index}: {number} after {before}")),
            Some(_) => {}
        }
    }
    match end {
        Some(NO_SUCH_WRITE) => Ok(writes),
        other => Err(format!("ended by {other:?}")),
    }
}

/// The store with the first page writes carried out, one by one.
pub fn carried(store: &Bytes, writes: &[PageWrite]) -> Bytes {
    let mut store = *store;
    for PageWrite { page, bytes } in writes {
        store[usize::from(*page) * PAGE_BYTES..][..PAGE_BYTES].copy_from_slice(bytes);
    }
    store
}

/// The page writes of an event word on a board, which must be the player's.
pub fn told(board: &Board, word: [u8; EVENT_BYTES]) -> Result<Vec<PageWrite>, String> {
    let writes = plan(&board.state, &board.store, &board.work, word)?;
    let due = nekahuiro_player::page_writes(&board.volatile, &board.store, word).ok_or("the player has no state")?;
    let due: Vec<PageWrite> = due.into_iter().map(|(page, bytes)| PageWrite { page, bytes }).collect();
    match writes == due {
        true => Ok(writes),
        false => Err(format!("page writes {writes:02X?}, the player's {due:02X?}")),
    }
}

/// The page writes of an event word on a board; cut after any number of them, the store must be what the library
/// leaves with that count.
pub fn check(board: &Board, word: [u8; EVENT_BYTES]) -> Result<Vec<PageWrite>, String> {
    let writes = told(board, word)?;
    if writes.len() > 2 * RECORDS + 2 || writes.iter().any(|write| usize::from(write.page) >= PAGES) {
        return Err(format!("no such page writes can be: {writes:02X?}"));
    }
    // Only what has a count can be cut, and beyond the last page write every count is the same.
    let has_count = matches!(Fields::of(word).kind, 5 | 8 | 9 | 10);
    let counts = if writes.is_empty() { 0..=1 } else { 0..=COUNT_LIMIT };
    for count in counts.filter(|_| has_count) {
        check_cut(board, Fields { count, ..Fields::of(word) }.word(), &writes, count.into())?;
    }
    check_cut(board, uncut(word), &writes, writes.len())?;
    Ok(writes)
}

/// One run of the library with a count.
fn check_cut(board: &Board, word: [u8; EVENT_BYTES], writes: &[PageWrite], count: usize) -> Result<(), String> {
    let (mut state, mut store, mut work) = (board.state.clone(), board.store, board.work.clone());
    let mut answer = [0; ANSWER_BYTES];
    let number = raw::portion(&mut state, &mut store, &word, work.bytes_mut(), &mut answer);
    let made = count.min(writes.len());
    let is_cut = count < writes.len();
    if number != 0 || store != carried(&board.store, &writes[..made]) {
        return Err(format!("{word:02X?}: the store isn't the one with {made} page writes carried out"));
    }
    if (answer[0] == CUT) != is_cut || (!writes.is_empty() && usize::from(answer[1]) != made) {
        return Err(format!(
            "{word:02X?}: the answer {answer:02X?} isn't that of {made} of {} page writes",
            writes.len()
        ));
    }
    Ok(())
}
