//! A store file and the state file that goes with it: read together, replaced together.

use crate::failure::{Failure, Outcome, Status};
use crate::files::{need, place_of, read_store};
use crate::live::Live;
use crate::staged::{self, Staged};
use crate::state_file;
use crate::store::{is_lent, Store};
use nekahuiro::Edition;

/// What is said if something fails after the point of no return.
const PLAYED: &str = "the list was played, so don't play it again";

/// The two files as they were read. Without a state file all starts down.
pub struct Pair<'n> {
    store_name: &'n str,
    state_name: Option<&'n str>,
    /// The store.
    pub store: Store,
    /// The state file, byte by byte; none if there isn't one.
    state: Option<Vec<u8>>,
}

impl<'n> Pair<'n> {
    /// Reads both. The state is that of the state file if it fits the store; else, where a play was stopped
    /// between its two files, that of the file beside it, which then takes its place unless it is a dry run.
    pub fn read(store_name: &'n str, state_name: Option<&'n str>, dry: bool) -> Outcome<(Pair<'n>, Live)> {
        let store = read_store(store_name)?;
        let start = Live::start(&store);
        let mut pair = Pair { store_name, state_name, store, state: None };
        let Some(name) = state_name else { return Ok((pair, start)) };
        need_no_state(store_name, state_name)?;
        let place = place_of(name);
        pair.state = state_file::bytes(name, &place)?;
        let first = pair.state.as_deref().map(|bytes| state_file::read(name, bytes, store_name, &pair.store));
        if let Some(Ok(kept)) = first {
            return Ok((pair, Live::Lent(Box::new(kept))));
        }
        let beside = staged::beside(&place);
        let second = state_file::bytes(&beside.to_string_lossy(), &beside)?;
        if let Some(Ok(kept)) = second.as_deref().map(|bytes| state_file::read(name, bytes, store_name, &pair.store)) {
            if !dry {
                staged::sync(store_name, &place_of(store_name))?;
                staged::finish(name, &place)?;
            }
            pair.state = second;
            return Ok((pair, Live::Lent(Box::new(kept))));
        }
        let live = first.transpose()?.map_or(start, |kept| Live::Lent(Box::new(kept)));
        Ok((pair, live))
    }

    /// Puts the new store and state in their places, unless somebody changed the old ones meanwhile. Where
    /// the store stays as it is, the state is replaced in one step. Else the new state is on the disk beside the
    /// old one before the store is replaced, and takes its place after: whatever stops this between, the
    /// state that fits the store is there.
    pub fn replace(self, store: &Store, live: &Live) -> Outcome {
        self.replace_and(store, live, PLAYED)
    }

    /// As [`Pair::replace`]; `done` is said where something fails after the store was replaced.
    pub fn replace_and(self, store: &Store, live: &Live, done: &str) -> Outcome {
        let mut new_state = None;
        if let (Some(name), Live::Lent(kept)) = (self.state_name, live) {
            let bytes = kept.bytes(name, self.store_name, store);
            if self.state.as_ref() != Some(&bytes) {
                new_state = Some(Staged::new(name, &bytes)?);
            }
        }
        let changes = *store != self.store;
        let new_store = changes.then(|| Staged::new(self.store_name, store.bytes())).transpose()?;
        self.check_unchanged()?;
        if let Some(mut new_store) = new_store {
            let synced = new_state.as_ref().map_or(Ok(()), Staged::sync);
            synced.and_then(|()| new_store.put()).map_err(|failure| failure.and("no file was changed"))?;
            new_state.iter_mut().for_each(Staged::leave);
            new_store.sync().map_err(|failure| failure.after(done))?;
        }
        let Some(mut new_state) = new_state else { return Ok(()) };
        new_state.put().map_err(|failure| match changes {
            true => failure.after(&format!("{done}, and the next play finds the new state all the same")),
            false => failure.and("no file was changed"),
        })?;
        new_state.sync().map_err(|failure| failure.after(done))
    }

    fn check_unchanged(&self) -> Outcome {
        let changed = |name: &str| {
            let reason = format!("{name} was changed by somebody else while the list was played");
            Err(Failure::with(Status::Busy, &reason, "try again; no file was changed"))
        };
        if read_store(self.store_name)? != self.store {
            return changed(self.store_name);
        }
        match self.state_name {
            Some(name) if state_file::bytes(name, &place_of(name))? != self.state => changed(name),
            _ => Ok(()),
        }
    }
}

/// A state file goes with a store that is played in portions.
pub fn need_no_state(store_name: &str, state_name: Option<&str>) -> Outcome {
    let why = "which has no state files: what is live is lost at the end of a list";
    let mend = "leave out --state, and play in one list what belongs together";
    state_name.map_or(Ok(()), |_| need(is_lent, store_name, why, mend))
}

/// Under which condition nothing is kept: where there are state files it is for want of one.
pub fn without_state(edition: Edition) -> &'static str {
    match is_lent(edition) {
        true => " without --state",
        false => "",
    }
}

/// A list is read before its store, for the edition that the store has then; it must still have that.
pub fn need_edition(store_name: &str, store: &Store, edition: Edition) -> Outcome {
    match store.edition == edition {
        true => Ok(()),
        false => {
            let reason = format!("{store_name} was changed by somebody else: it is of another edition now");
            Err(Failure::with(Status::Busy, &reason, "try again; no file was changed"))
        }
    }
}
