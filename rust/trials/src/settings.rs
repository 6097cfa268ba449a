//! Sizes of the tests, which the environment can change.

/// The seed of the random lists: NEKAHUIRO_SEED.
pub fn seed() -> u64 {
    number("NEKAHUIRO_SEED", 20_260_401)
}

/// How many random lists are played: NEKAHUIRO_LISTS.
pub fn lists() -> u64 {
    number("NEKAHUIRO_LISTS", 1_000_000)
}

/// How many random job sheets are read: NEKAHUIRO_SHEETS.
pub fn sheets() -> u64 {
    number("NEKAHUIRO_SHEETS", 500_000)
}

/// How often identities are given where two ends commit together: NEKAHUIRO_ROUNDS.
pub fn rounds() -> u64 {
    number("NEKAHUIRO_ROUNDS", 100_000)
}

/// How long the exhaustive lists are: NEKAHUIRO_LENGTH shortens or lengthens them all.
pub fn length(usual: usize) -> usize {
    let change = std::env::var("NEKAHUIRO_LENGTH").ok().and_then(|text| text.parse::<isize>().ok());
    usual.saturating_add_signed(change.unwrap_or(0))
}

/// Threads to share the work among.
pub fn threads() -> usize {
    std::thread::available_parallelism().map_or(1, |count| count.get())
}

fn number(name: &str, usual: u64) -> u64 {
    std::env::var(name).ok().and_then(|text| text.parse().ok()).unwrap_or(usual)
}
