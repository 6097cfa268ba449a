//! Two plays at the same moment on one store and one state file: what was told as done is there.

use crate::folder::{printed, Folder};

const ROUNDS: u8 = 200;

#[test]
fn two_plays_with_one_state_file_lose_nothing() {
    let folder = Folder::new("at-once");
    folder.run("fresh store");
    folder.write("start", "recover 63\nbegin none\nbegin none\nlock 0 3\n");
    folder.run("play store start --state state");
    // Transactions 0 and 1 stay live, so number 2 is free for the second play.
    folder.write("probe", "read 0 3 0\nbegin none\nread-lock 2 5\nread 2 5 0\n");
    for round in 1..=ROUNDS {
        // One changes only what is live, the other commits.
        folder.write("one", format!("write 0 3 0 {round:02X}\n"));
        folder.write("two", format!("begin none\nlock 2 5\nwrite 2 5 0 {round:02X}\ncommit 2 63\n"));
        let plays = ["play store one --state state --strict", "play store two --state state --strict"];
        for (words, child) in plays.map(|words| (words, folder.start(words))) {
            printed(words, child.wait_with_output().expect("an end"));
        }
        let found = folder.run("play store probe --state state --dry");
        let read: Vec<&str> = found
            .lines()
            .filter(|line| line.starts_with("40") || line.starts_with("41"))
            .map(|line| &line[9..])
            .collect();
        let due = format!("00{round:02X}");
        assert_eq!(read, [&due, &due], "round {round}: a play was told that it is done, and is lost");
    }
    println!("plays at once: {ROUNDS} rounds of two, none lost");
}
