//! `bench`: the engine of each edition, also where pages can tear, against three yardsticks on lists of 4,096 events, whole and one event at a time.

mod cold;
mod counts;
mod lists;
mod programs;
mod sizes;
mod times;
mod worst;

use crate::command::Command;
use crate::failure::{Failure, Outcome};
use crate::say;
use crate::store::library;
use nekahuiro::Edition;
use programs::{Bench, NAMES};
use std::hint::black_box;

/// The command.
pub const COMMAND: Command = Command {
    name: "bench",
    names: &[],
    options: &[("--quick", "", "leave out the instruction counts, for which valgrind is used if it is there")],
    summary: "time the engine against an ordinary program, a tuned one and the least that any could do",
    help: "",
    run,
};

/// In the place of a program: lists are made, and nobody plays them.
const NO_PROGRAM: &str = "none";

/// Prints a line for each list and way; ratios stand last.
fn run(arguments: &[String]) -> Outcome {
    let words: Vec<&str> = arguments.iter().map(String::as_str).collect();
    match words[..] {
        ["--quick"] => say(&times::text()?),
        [] => {
            say(&times::text()?)?;
            say(&cold::text()?)?;
            say(&counts::text()?)?;
            say(&sizes::text())
        }
        // For valgrind: one program plays lists of one kind a few times.
        ["one", race, program, rounds] => one(race, program, rounds.parse().unwrap_or(0)),
        ["worst", library, event, with] => worst_once(library, event, with == "with"),
        // For other machines: the lists as files.
        ["lists", folder, random] => lists::write(folder, random.parse().unwrap_or(0)),
        _ => Err(Failure::usage("bench takes --quick or nothing", "write `./nekahuiro bench`")),
    }
}

/// The ratios of the first figure to each of the others.
fn ratios(figures: &[f64]) -> String {
    figures[1..].iter().map(|other| format!(" {:.2}", figures[0] / other)).collect()
}

fn one(race: &str, program: &str, rounds: u64) -> Outcome {
    let found = programs::races().into_iter().find(|found| found.name == race);
    let place = NAMES.iter().position(|name| *name == program);
    let (Some(race), true) = (found, place.is_some() || program == NO_PROGRAM) else {
        return Err(Failure::usage("bench one takes a list, a program and rounds", "write `bench one deep engine 4`"));
    };
    let mut bench = Bench::new(race.edition);
    for seed in 0..rounds {
        let events = black_box(race.list(seed));
        if let Some(place) = place {
            bench.time(race.programs[place], &events)?;
        }
    }
    Ok(())
}

fn worst_once(name: &str, event: &str, with: bool) -> Outcome {
    let edition = Edition::ALL.into_iter().find(|known| library(*known) == name);
    let found = edition.and_then(|edition| worst::all(edition).into_iter().find(|found| found.name == event));
    let way = programs::WAYS.into_iter().find(|(_, of, _)| Some(*of) == edition);
    let (Some(found), Some((_, edition, [engine, ..]))) = (found, way) else {
        let mend = "write `bench worst nekahuiro commit with`";
        return Err(Failure::usage("bench worst takes a library and an event", mend));
    };
    Bench::new(edition).time(engine, &found.words()[usize::from(with)]).map(|_| ())
}
