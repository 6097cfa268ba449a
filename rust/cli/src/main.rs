//! The command line: `./nekahuiro help` says what it can do.

mod age;
mod alone;
mod audit;
mod bench;
mod check;
mod command;
mod commands;
mod demo;
mod depot;
mod encode;
mod failure;
mod files;
mod follow;
mod fresh;
mod get;
mod help;
mod list;
mod live;
mod names;
mod output;
mod page;
mod pair;
mod picture;
mod plan;
mod play;
mod put;
mod sentence;
mod serial;
mod sheet;
mod shell;
mod show;
mod staged;
mod state_file;
mod store;
mod trace;
mod waiting;

use failure::{Failure, Outcome};
use std::ffi::OsString;
use std::io::{ErrorKind, Write};
use std::path::Path;
use std::process::ExitCode;

fn main() -> ExitCode {
    let words: Outcome<Vec<String>> = std::env::args_os().skip(1).map(plain).collect();
    match words.and_then(|words| commands::run(&words)) {
        Ok(()) => ExitCode::SUCCESS,
        Err(failure) => {
            complain(&failure);
            ExitCode::from(failure.status as u8)
        }
    }
}

fn plain(word: OsString) -> Outcome<String> {
    word.into_string().map_err(|word| {
        let reason = format!("`{}` isn't UTF-8 text", word.display());
        Failure::usage(&reason, "rename the file, or reach it through a link with another name")
    })
}

/// Writes a failure to standard error. Nothing can be done if that is closed too.
fn complain(failure: &Failure) {
    let _ = write!(std::io::stderr(), "{}", as_called(&failure.to_string()));
}

/// Text with the command line's name as it was called: the script is ./nekahuiro, what is installed is nekahuiro.
fn as_called(text: &str) -> String {
    let own = std::env::args_os().next().unwrap_or_default();
    match Path::new(&own).file_name().is_some_and(|name| name == "nekahuiro") {
        true => text.replace("./nekahuiro", "nekahuiro"),
        false => text.to_string(),
    }
}

/// Writes text to standard output.
fn say(text: &str) -> Outcome {
    say_bytes(text.as_bytes())
}

/// Writes bytes to standard output, to the last one.
fn say_bytes(bytes: &[u8]) -> Outcome {
    let mut out = std::io::stdout().lock();
    let written = out.write_all(bytes).and_then(|()| out.flush());
    written.map_err(|error| {
        let reason = format!("can't write to standard output: {}", files::said(&error));
        match error.kind() {
            ErrorKind::BrokenPipe => Failure::unread(&reason, "let the output be read to its end"),
            _ => Failure::new(&reason, "free some room, or write elsewhere"),
        }
    })
}

/// A number of things in words.
fn number_of(number: usize, thing: &str) -> String {
    format!("{number} {thing}{}", if number == 1 { "" } else { "s" })
}
