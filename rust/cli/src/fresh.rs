//! `fresh STORE [--force] [--edition 2] [--pairs]`: makes a store file.

use crate::alone::Alone;
use crate::command::{Command, EDITION, PAIRS, WAIT};
use crate::failure::{visible, Failure, Outcome};
use crate::files::need_plain;
use crate::say;
use crate::staged::Staged;
use crate::store::Store;
use std::fs;

/// The command.
pub const COMMAND: Command = Command {
    name: "fresh",
    names: &["STORE"],
    options: &[
        ("--force", "", "replace a store that is there"),
        (EDITION, "NUMBER", "1 or 2; a store of edition 2 has sixty-four records, and without it there are sixteen"),
        (PAIRS, "", "a store on pages that can tear, each kept as two copies"),
        WAIT,
    ],
    summary: "make a store file",
    help: "\
A store of edition 2 has 4128 bytes, and commands know it by its length. It has no prepare, decide and query, no
state files, portions and sheets, and isn't audited.

A store made with --pairs has 2178 bytes, and is known by its length too. Each of its pages is kept as two copies, a
status (1 for good) before each, so that a page write within which the power goes loses nothing. Its records and event
words are those of edition 1; it has no prepare, decide and query, and isn't audited.
",
    run,
};

/// Makes a fresh store; over another only if that is asked for.
fn run(words: &[String]) -> Outcome {
    let ([path], given) = COMMAND.read(words)?;
    let store = Store::fresh(given.edition()?);
    need_plain(path, "store")?;
    let _alone = Alone::with(&[path], given.wait()?)?;
    if fs::metadata(path).is_ok_and(|found| found.len() > 0) && !given.has("--force") {
        let reason = format!("{path} is there already, and a fresh store would lose what is in it");
        return Err(Failure::refused(&reason, "choose another name, or give --force to replace it"));
    }
    let mut staged = Staged::new(path, store.bytes())?;
    staged.put().map_err(|failure| failure.and("no file was changed"))?;
    let said = format!("{}: a fresh store of {} bytes\n", visible(path), store.bytes().len());
    let told = staged.sync().and_then(|()| say(&said));
    told.map_err(|failure| failure.after(&format!("{path} is a fresh store now")))
}
