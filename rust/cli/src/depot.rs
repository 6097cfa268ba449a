//! `depot STATE MESSAGE`: the depot's next state for an identity, and what it replies.

use crate::command::Command;
use crate::failure::{Failure, Outcome};
use crate::say;
use nekahuiro::{Depot, Message, Stage};
use std::fmt::Display;

/// The command.
pub const COMMAND: Command = Command {
    name: "depot",
    names: &["STATE", "MESSAGE"],
    options: &[],
    summary: "where two ends commit together: the depot's next state, and its reply",
    help: "\
STATE is idle, asked, committed or aborted; MESSAGE is start, yes, no or give-up. Each identity has a state
of its own. A pair that the depot refuses (27) has no effect.
",
    run,
};

/// Prints the next state and the reply.
fn run(words: &[String]) -> Outcome {
    let ([state, message], _) = COMMAND.read(words)?;
    let stage = named("state", state, Stage::ALL)?;
    let message = named("message", message, Message::ALL)?;
    let mut depot = Depot::at(stage);
    match depot.receive(message) {
        Ok(order) => say(&format!("{} {order}\n", depot.stage())),
        Err(refusal) => {
            let reason = format!("{message} in state {stage}: {refusal}");
            Err(Failure::refused(&reason, "the state is as it was, and nothing is replied"))
        }
    }
}

/// The one of these that is called so.
fn named<T: Display + Copy, const N: usize>(what: &str, word: &str, all: [T; N]) -> Outcome<T> {
    all.into_iter().find(|one| one.to_string() == word).ok_or_else(|| {
        let names = all.map(|one| one.to_string()).join(", ");
        Failure::usage(&format!("there is no {what} `{word}`"), &format!("give one of {names}"))
    })
}
