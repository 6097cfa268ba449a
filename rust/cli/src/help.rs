//! `help [COMMAND]`: what there is, or what one command does.

use crate::command::Command;
use crate::failure::{Outcome, STATUSES};
use crate::{as_called, commands, say, state_file};
use std::fmt::Write;

/// The command.
pub const COMMAND: Command = Command {
    name: "help",
    names: &["[COMMAND]"],
    options: &[],
    summary: "this text, or the help of one command",
    help: "",
    run,
};

const OPTIONS: &str = "\
Options may stand anywhere after the command, as `--option VALUE` or `--option=VALUE`. After -- nothing
is an option; a file whose name begins with - can also be written ./-name.
";

/// Prints the help.
pub fn run(words: &[String]) -> Outcome {
    match &COMMAND.split(words)?.names[..] {
        [] => say(&as_called(&all())),
        [name] => say(&as_called(&commands::named(name)?.help())),
        [_, second, ..] => Err(COMMAND.misuse(&format!("`{second}` is one word too many"))),
    }
}

fn all() -> String {
    let mut text = String::from("nekahuiro: a record store with nested transactions, proved\n\n");
    for command in commands::ALL {
        let _ = writeln!(text, "  {:43} {}", command.usage(), command.summary);
    }
    let _ = writeln!(text, "  {:43} the version", "./nekahuiro --version");
    let _ = writeln!(text, "\n`./nekahuiro help play` has the options of `play`, and so for each command.");
    let _ = write!(text, "\n{}\n{OPTIONS}\nThe exit status is\n{STATUSES}", crate::list::HELP);
    text
}

/// Prints the version.
pub fn version() -> Outcome {
    let (version, states) = (env!("CARGO_PKG_VERSION"), state_file::VERSION);
    say(&format!("nekahuiro {version} (state files of version {states})\n"))
}
