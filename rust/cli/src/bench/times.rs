//! Times: the programs take turns on each list, so that what slows the machine slows them all.

use super::programs::{races, Bench, Race, NAMES, WAYS};
use super::ratios;
use crate::failure::Outcome;
use nekahuiro::limits::EVENTS;
use nekahuiro::Edition;
use std::fmt::Write;

/// Rounds; each has new lists of every kind.
const ROUNDS: usize = 200;
/// How often each program plays a list, one after the other.
const TURNS: usize = 3;

pub fn text() -> Outcome<String> {
    let races = races();
    let mut benches = Edition::ALL.map(Bench::new);
    let mut taken = vec![[const { Vec::new() }; NAMES.len()]; races.len()];
    for round in 0..ROUNDS {
        // One event at a time is slower, and other editions come beside: fewer rounds do.
        let raced = if round % 4 == 0 { races.len() } else { races.len() / WAYS.len() };
        for (race, taken) in races.iter().zip(&mut taken).take(raced) {
            let events = race.list(round as u64);
            let place = Edition::ALL.iter().position(|edition| *edition == race.edition).unwrap_or(0);
            let bench = &mut benches[place];
            for _ in 0..TURNS {
                for (program, taken) in race.programs.iter().zip(taken.iter_mut()) {
                    taken.push(bench.time(*program, &events)? / EVENTS as f64);
                }
            }
        }
    }
    let mut text = format!("# machine: {}\n", machine());
    let _ = writeln!(
        text,
        "# nanoseconds an event, least and median of {ROUNDS} new lists of {EVENTS} events each, fresh stores, other buffers as the run before left them:\n\
         # list; engine; ordinary player; tuned player; floor; ratios of the engine's median to the player's, the tuned player's, the floor's"
    );
    for (Race { name, .. }, taken) in races.iter().zip(&mut taken) {
        let figures: Vec<(f64, f64)> = taken.iter_mut().map(|taken| least_and_median(taken)).collect();
        let medians: Vec<f64> = figures.iter().map(|(_, median)| *median).collect();
        let figures: String = figures.iter().map(|(least, median)| format!(" {least:.1} {median:.1}")).collect();
        let _ = writeln!(text, "{name}{figures}{}", ratios(&medians));
    }
    Ok(text)
}

/// The least and the median of some times.
pub fn least_and_median(taken: &mut [f64]) -> (f64, f64) {
    taken.sort_by(f64::total_cmp);
    (taken[0], taken[taken.len() / 2])
}

/// The machine's name and its processor.
fn machine() -> String {
    let read = |path: &str| std::fs::read_to_string(path).unwrap_or_default();
    let host = read("/proc/sys/kernel/hostname").trim().to_string();
    let cpu = read("/proc/cpuinfo");
    let model = cpu.lines().find(|line| line.starts_with("model name")).and_then(|line| line.split(':').nth(1));
    let host = if host.is_empty() { "unknown".to_string() } else { host };
    format!("{host}, {}", model.map_or("unknown processor", str::trim))
}
