//! State files: what a portion left for the next one. A heading, the digests of the store that was
//! left with it and of what comes after; then the lent state, the working buffer, and where the store is,
//! seen from the state file's folder.

use crate::failure::{Failure, Outcome};
use crate::files::{cant_read, edition_of, folder_of, length_in_words, place_of, read_up_to};
use crate::live::Versions;
use crate::staged::digest;
use crate::store::{is_lent, Store};
use nekahuiro::limits::{STATE_BYTES, WORK_BYTES};
use nekahuiro::{any, Record, State, Work};
use std::io::ErrorKind;
use std::os::unix::ffi::OsStrExt;
use std::path::{Path, PathBuf};

/// Tells versions apart whose states mean something else.
pub const VERSION: u8 = 3;
/// What a state file begins with.
const HEADING: &[u8; 18] = b"nekahuiro state 3\n";
/// What the state files of other versions begin with ..
const NAME: &[u8; 15] = b"nekahuiro state";
/// .. but for the first, which had no heading.
const FIRST_BYTES: usize = 340 + WORK_BYTES;
const DIGEST_BYTES: usize = 8;
const HEADER_BYTES: usize = HEADING.len() + 2 * DIGEST_BYTES;
/// All but the store's place.
const LEAST_BYTES: usize = HEADER_BYTES + STATE_BYTES + WORK_BYTES;
/// No place of a file is longer than 4,096 bytes.
const MOST_BYTES: usize = LEAST_BYTES + 4096;

/// What is kept between portions, beside the store.
#[derive(Clone, Default, PartialEq, Eq)]
pub struct Kept {
    /// The lent state.
    pub state: State,
    /// The working buffer.
    pub work: Work,
}

/// The bytes of a state file; none if it isn't there.
pub fn bytes(name: &str, place: &Path) -> Outcome<Option<Vec<u8>>> {
    match read_up_to(place, MOST_BYTES + 1) {
        Err(error) if error.kind() == ErrorKind::NotFound => Ok(None),
        found => found.map(Some).map_err(|error| cant_read(name, &error, "check the name")),
    }
}

/// The parts of a state file that is whole: the digest of its store, the lent state with the working buffer, and
/// where the store is.
struct Parts<'b> {
    of_store: &'b [u8],
    lent: &'b [u8],
    place: &'b [u8],
}

/// The parts of a state file, if it is one and whole.
fn parts<'b>(name: &str, bytes: &'b [u8]) -> Outcome<Parts<'b>> {
    let headed = bytes.starts_with(NAME);
    if headed && !bytes.starts_with(HEADING) || !headed && bytes.len() == FIRST_BYTES {
        let mend = format!("play on with the version that left it, or {}", start_down(name));
        return Err(Failure::refused(&format!("{name} is a state file of another version of nekahuiro"), &mend));
    }
    if !headed && !is_lent(edition_of(name)) {
        let reason =
            format!("{name} is no state file: it is as long as a store of edition 2, which has no state files");
        return Err(Failure::refused(&reason, "name the state file that a play on a store of edition 1 left"));
    }
    if bytes.len() <= LEAST_BYTES || bytes.len() > MOST_BYTES {
        let found = length_in_words(name, bytes.len(), MOST_BYTES);
        return Err(no_state_file(name, &format!("it has {found}, and a state file has more than {LEAST_BYTES}")));
    }
    if !headed {
        return Err(no_state_file(name, "it doesn't begin with `nekahuiro state`"));
    }
    let (header, content) = bytes.split_at(HEADER_BYTES);
    let (of_store, of_content) = header[HEADING.len()..].split_at(DIGEST_BYTES);
    if of_content != digest(content) {
        let reason = format!("{name} is damaged: its digest doesn't fit the state in it");
        return Err(Failure::refused(&reason, &start_down(name)));
    }
    let (lent, place) = content.split_at(STATE_BYTES + WORK_BYTES);
    Ok(Parts { of_store, lent, place })
}

/// What these bytes keep, if they go with a store.
pub fn read(name: &str, bytes: &[u8], store_name: &str, store: &Store) -> Outcome<Kept> {
    let Parts { of_store, lent, place } = parts(name, bytes)?;
    if place != seen_from(name, store_name).as_os_str().as_bytes() {
        let own = String::from_utf8_lossy(place);
        let reason = format!("{name} goes with the store `{own}` of its folder, and {store_name} is another one");
        return Err(Failure::refused(
            &reason,
            &format!("name the two files that go together, or {}", start_down(name)),
        ));
    }
    if of_store != digest(store.bytes()) {
        let reason = format!("{store_name} isn't the store that was left with {name}, or it was changed since");
        return Err(Failure::refused(
            &reason,
            &format!("name the two files that go together, or {}", start_down(name)),
        ));
    }
    kept(name, lent)
}

/// What these bytes keep, whatever became of the store.
pub fn read_alone(name: &str, bytes: &[u8]) -> Outcome<Kept> {
    kept(name, parts(name, bytes)?.lent)
}

fn kept(name: &str, lent: &[u8]) -> Outcome<Kept> {
    let (state, work) = lent.split_at(STATE_BYTES);
    match (State::of(state), Work::of(work)) {
        (Ok(state), Ok(work)) => Ok(Kept { state, work }),
        _ => Err(no_state_file(name, "its parts have other lengths")),
    }
}

/// Where the store is, seen from the state file's folder: the two can be moved and copied together.
fn seen_from(state_name: &str, store_name: &str) -> PathBuf {
    let (state, store) = (place_of(state_name), place_of(store_name));
    let folder = folder_of(&state);
    let shared = folder.components().zip(store.components()).take_while(|(one, other)| one == other).count();
    let up = folder.components().skip(shared).map(|_| "..".as_ref());
    up.chain(store.components().skip(shared).map(|part| part.as_os_str())).collect()
}

fn no_state_file(path: &str, why: &str) -> Failure {
    let mend = "name the file that an earlier play left, or a new one to start down";
    Failure::refused(&format!("{path} is no state file: {why}"), mend)
}

/// The message for a state that is refused.
pub fn unsound(path: &str) -> Failure {
    Failure::refused(&format!("the state in {path} is refused (25): it isn't sound"), &start_down(path))
}

fn start_down(path: &str) -> String {
    format!("give up what was live: remove {path} and begin with a recover; no file was changed")
}

impl Kept {
    /// Its bytes in a state file of this name, which goes with this store.
    pub fn bytes(&self, name: &str, store_name: &str, store: &Store) -> Vec<u8> {
        let place = seen_from(name, store_name);
        let content = [&self.state.bytes()[..], &self.work.bytes()[..], place.as_os_str().as_bytes()].concat();
        [&HEADING[..], &digest(store.bytes())[..], &digest(&content)[..], &content[..]].concat()
    }

    /// What live transactions have written.
    pub fn versions(&self) -> Versions {
        let Kept { state, work } = self;
        let depth = |number: u8| state.depth.get(usize::from(number)).copied().unwrap_or(0);
        let mut versions = Versions::new();
        for (record, place) in Record::all().zip(any::Record::all()) {
            let written = state.writers(record).map(|t| ((place, t.number()), work.version(record, depth(t.number()))));
            versions.extend(written);
        }
        versions
    }
}
