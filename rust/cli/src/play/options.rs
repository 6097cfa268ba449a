//! What the user asked `play` for.

use super::COMMAND;
use crate::command::number;
use crate::failure::{Failure, Outcome};
use crate::files::{need, need_different, need_plain};
use crate::pair::need_no_state;
use crate::store::is_lent;
use crate::{page, picture};
use nekahuiro::limits::EVENTS;
use std::time::Duration;

/// The names and options of a call.
pub struct Options<'w> {
    /// The store file.
    pub store: &'w str,
    /// The list, or `-`.
    pub events: &'w str,
    /// Where the answers go.
    pub answers: Option<&'w str>,
    /// Where the picture goes.
    pub picture: Option<&'w str>,
    /// Where the page goes.
    pub page: Option<&'w str>,
    /// The state file.
    pub state: Option<&'w str>,
    /// The answers that should be given.
    pub expect: Option<&'w str>,
    /// How many events to play at a time.
    pub portions: Option<usize>,
    /// How long to wait for another command.
    pub wait: Duration,
    /// Whether the list has raw words.
    pub raw: bool,
    /// Whether the list is a job sheet.
    pub sheet: bool,
    /// Whether each event is told.
    pub trace: bool,
    /// Whether a refused event has a status of its own.
    pub strict: bool,
    /// Whether store and state stay as they are.
    pub dry: bool,
}

impl<'w> Options<'w> {
    /// The words of a call, told apart.
    pub fn of(words: &'w [String]) -> Outcome<Options<'w>> {
        let ([store, events], given) = COMMAND.read(words)?;
        if given.has("--raw") && given.has("--sheet") {
            return Err(COMMAND.misuse("EVENTS are raw words or a sheet, not both"));
        }
        Ok(Options {
            store,
            events,
            answers: given.value("--answers"),
            picture: given.value("--picture"),
            page: given.value("--page"),
            state: given.value("--state"),
            expect: given.value("--expect"),
            portions: given.value("--portions").map(portion_length).transpose()?,
            wait: given.wait()?,
            raw: given.has("--raw"),
            sheet: given.has("--sheet"),
            trace: given.has("--trace"),
            strict: given.has("--strict"),
            dry: given.has("--dry"),
        })
    }

    /// What an edition hasn't got can't be asked of its stores.
    pub fn check_edition(&self) -> Outcome {
        need_no_state(self.store, self.state)?;
        if self.portions.is_some() {
            let mend = "leave out --portions; a list that is too long for one run can be cut where nothing is live";
            need(is_lent, self.store, "which is played as a whole and not in portions", mend)?;
        }
        if self.sheet {
            let mend = "write the events as a list; `./nekahuiro help` says how";
            need(is_lent, self.store, "and a job sheet has the records of edition 1 alone", mend)?;
        }
        Ok(())
    }

    /// No file may be written that is read or written as something else.
    pub fn check_files(&self) -> Outcome {
        self.page.map_or(Ok(()), page::check_name)?;
        need_plain(self.store, "store")?;
        self.state.map_or(Ok(()), |path| need_plain(path, "state file"))?;
        let events = if self.events == "-" { "/dev/stdin" } else { self.events };
        let mut files = vec![("the store", self.store), ("the events", events), ("the output", "/dev/stdout")];
        let others = [
            ("the state", self.state),
            ("the expected answers", self.expect),
            ("the answers", self.answers),
            ("the picture", self.picture),
            ("the page", self.page),
        ];
        files.extend(others.into_iter().filter_map(|(what, name)| Some((what, name?))));
        need_different(&files)?;
        self.picture.map_or(Ok(()), picture::check_name)
    }
}

fn portion_length(word: &str) -> Outcome<usize> {
    let length = number(word).map(|length| length as usize).filter(|length| (1..=EVENTS).contains(length));
    length.ok_or_else(|| {
        let reason = format!("--portions needs the events of a portion, from 1 to {EVENTS}, and `{word}` was given");
        Failure::usage(&reason, "write `--portions 1` for one event at a time")
    })
}
