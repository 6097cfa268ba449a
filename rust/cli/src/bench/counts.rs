//! Instructions an event, counted by valgrind if it is installed: the figure that repeats.

use super::programs::{races, NAMES};
use super::{ratios, worst, NO_PROGRAM};
use crate::failure::Outcome;
use crate::store::{edition_in_words, library};
use nekahuiro::limits::EVENTS;
use nekahuiro::Edition;
use std::fmt::Write;
use std::process;

/// Lists under valgrind.
const LISTS: u64 = 4;

pub fn text() -> Outcome<String> {
    let mut text =
        String::from("# instructions an event: list; engine; ordinary player; tuned player; floor; ratios as above\n");
    for race in races() {
        let Some(counts) = NAMES.iter().map(|program| counted(&race.name, program)).collect::<Option<Vec<f64>>>()
        else {
            return Ok("# instructions: not counted, valgrind isn't there or failed\n".to_string());
        };
        let figures: String = counts.iter().map(|count| format!(" {count:.0}")).collect();
        let _ = writeln!(text, "# {}{figures}{}", race.name, ratios(&counts));
    }
    for edition in Edition::ALL {
        let of = if edition == Edition::FIRST { String::new() } else { format!(" of {}", edition_in_words(edition)) };
        let _ = write!(text, "# instructions of the costliest event of each kind, by the engine{of}:");
        for event in worst::all(edition) {
            let with = |with| under_valgrind(&["bench", "worst", library(edition), event.name, with]);
            let (Some(with), Some(without)) = (with("with"), with("without")) else { continue };
            let _ = write!(text, " {} {},", event.name, with.saturating_sub(without));
        }
        text.pop();
        text.push('\n');
    }
    Ok(text)
}

/// What some lists take, without what making them takes.
fn counted(race: &str, program: &str) -> Option<f64> {
    let lists = LISTS.to_string();
    let with = |program| under_valgrind(&["bench", "one", race, program, &lists]);
    let more = with(program)?.checked_sub(with(NO_PROGRAM)?)?;
    Some(more as f64 / (LISTS * EVENTS as u64) as f64)
}

fn under_valgrind(words: &[&str]) -> Option<u64> {
    let mut command = process::Command::new("valgrind");
    command.args(["--tool=cachegrind", "--cache-sim=no", "--cachegrind-out-file=/dev/null"]);
    let command = command.arg(std::env::current_exe().ok()?).args(words);
    let text = String::from_utf8_lossy(&command.output().ok()?.stderr).replace(',', "");
    let line = text.lines().find(|line| line.contains("I ") && line.contains("refs:"))?.to_string();
    line.split_whitespace().last()?.parse().ok()
}
