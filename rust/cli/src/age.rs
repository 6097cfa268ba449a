//! `age STORE RECORD CLOCK LIMIT`: how old a record is.

use crate::command::{digits, number, record, Command};
use crate::failure::{Failure, Outcome};
use crate::{files, say};
use nekahuiro::{Clock, Limit};

/// The command.
pub const COMMAND: Command = Command {
    name: "age",
    names: &["STORE", "RECORD", "CLOCK", "LIMIT"],
    options: &[],
    summary: "how old a record is, in minutes: live, ahead or stale",
    help: "\
CLOCK is the time now and LIMIT how old a record may be, in whole minutes. A record's first four bytes
are the minute when it was made. It is `live` up to LIMIT, `stale` if it is older, `ahead` if the clock is behind it:
after `put STORE 4 00000003`, `age STORE 4 5 10` answers `live 2`.
",
    run,
};

/// Prints `live`, `ahead` or `stale` and the age in minutes.
fn run(words: &[String]) -> Outcome {
    let ([path, record, clock, limit], _) = COMMAND.read(words)?;
    let (clock, limit) = (minutes("clock", clock)?, minutes("limit", limit)?);
    digits(files::edition_of(path), record)?;
    let store = files::read_store(path)?;
    match store.age(self::record(store.edition, record)?, Clock(clock), Limit(limit)) {
        Ok(verdict) => say(&format!("{verdict}\n")),
        Err(refusal) => {
            let reason = format!("{path}: {refusal}");
            Err(Failure::refused(&reason, &format!("`./nekahuiro show {path}` says what is wrong with its pages")))
        }
    }
}

fn minutes(what: &str, text: &str) -> Outcome<u32> {
    number(text).ok_or_else(|| {
        let reason = format!("the {what} `{text}` isn't a number of minutes from 0 to {}", u32::MAX);
        Failure::usage(&reason, "give a whole number of minutes")
    })
}
