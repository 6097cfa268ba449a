//! `get STORE RECORD`: a record's settled value.

use crate::command::{digits, record, Command};
use crate::failure::{Failure, Outcome};
use crate::show::digits as digits_of;
use crate::{files, say};

/// The command.
pub const COMMAND: Command = Command {
    name: "get",
    names: &["STORE", "RECORD"],
    options: &[],
    summary: "a record's 32 bytes in hex, as they are settled",
    help: "\
The settled value is what a power cut now would leave, once the store has recovered. `put` takes what `get` prints.
",
    run,
};

/// Prints 64 hex digits.
fn run(words: &[String]) -> Outcome {
    let ([path, number], _) = COMMAND.read(words)?;
    digits(files::edition_of(path), number)?;
    let store = files::read_store(path)?;
    let record = record(store.edition, number)?;
    if let Some(why) = store.damage() {
        let reason = format!("{path}: refused 4: {why}, so it isn't known where records are settled");
        return Err(Failure::refused(&reason, &format!("`./nekahuiro show {path}` shows the home pages")));
    }
    say(&format!("{}\n", digits_of(&store.settled(record))))
}
