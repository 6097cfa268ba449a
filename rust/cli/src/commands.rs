//! The commands: one row each, in the order of the help. A new one has a module with a `COMMAND`, and a row here.

use crate::command::Command;
use crate::failure::{visible, Failure, Outcome};
use crate::{
    age, audit, bench, check, demo, depot, encode, fresh, get, help, plan, play, put, serial, sheet, shell, show,
    waiting,
};

/// All commands.
pub const ALL: &[Command] = &[
    demo::COMMAND,
    fresh::COMMAND,
    play::COMMAND,
    shell::COMMAND,
    plan::COMMAND,
    show::COMMAND,
    serial::COMMAND,
    check::COMMAND,
    get::COMMAND,
    put::COMMAND,
    age::COMMAND,
    waiting::COMMAND,
    audit::COMMAND,
    depot::COMMAND,
    encode::COMMAND,
    sheet::COMMAND,
    bench::COMMAND,
    help::COMMAND,
];

/// The command of this name.
pub fn named(name: &str) -> Outcome<&'static Command> {
    ALL.iter().find(|command| command.name == name).ok_or_else(|| {
        let reason = format!("there is no command `{}`", visible(name));
        Failure::usage(&reason, "`./nekahuiro help` lists the commands")
    })
}

/// Does what the words ask for.
pub fn run(words: &[String]) -> Outcome {
    let Some((name, rest)) = words.split_first() else {
        return Err(Failure::usage("no command given", "try `./nekahuiro demo` or `./nekahuiro help`"));
    };
    match name.as_str() {
        "--version" | "-V" => help::version(),
        "--help" | "-h" => help::run(rest),
        name if asks_for_help(rest) => help::run(&[name.to_string()]),
        name => (named(name)?.run)(rest),
    }
}

fn asks_for_help(words: &[String]) -> bool {
    words.iter().take_while(|word| *word != "--").any(|word| word == "--help" || word == "-h")
}
