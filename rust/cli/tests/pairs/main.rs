//! Store and state file as a pair: plays at the same moment, and plays that are killed.

mod at_once;
mod folder;
mod kills;
