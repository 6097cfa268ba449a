//! A play or a put that is killed leaves the old pair of store and state file, or the new one; in edition 2 the old
//! store or the new one.

use crate::folder::Folder;
use std::thread::sleep;
use std::time::{Duration, Instant};

/// Kills of each list; half of that of a put.
const KILLS: usize = 250;

/// A store and a state file.
type Pair = [Vec<u8>; 2];

fn read(folder: &Folder) -> Pair {
    [folder.read("store"), folder.read("state")]
}

fn write(folder: &Folder, [store, state]: &Pair) {
    folder.write("store", store);
    folder.write("state", state);
}

/// What plays a list.
const PLAY: &str = "play store list --state state";

/// The commands that make a store, play the start on it, and play nothing.
type Commands = [&'static str; 3];
const WITH_STATE: Commands = ["fresh store", "play store start --state state", "play store nothing --state state"];
const EDITION_2: Commands = ["fresh store --edition 2", "play store start", "play store nothing"];

/// Kills a command at random moments.
fn kill(kills: usize, name: &str, [fresh, start, nothing]: Commands, command: &str, list: &str, changes_store: bool) {
    let folder = Folder::new(&name.replace(' ', "-"));
    folder.run(fresh);
    folder.write("start", "recover\nbegin none\nbegin none\nlock 0 3\nwrite 0 3 0 A5\nlock 1 5\nwrite 1 5 0 5A\n");
    folder.write("list", list);
    folder.write("nothing", "");
    folder.run(start);
    let old = read(&folder);
    let start = Instant::now();
    folder.run(command);
    let whole = start.elapsed().as_micros() as u64;
    let new = read(&folder);
    assert_eq!(old[0] != new[0], changes_store);
    let (mut chance, mut renewed, mut halfway) = (1u64, 0, 0);
    for _ in 0..kills {
        write(&folder, &old);
        let mut child = folder.start(command);
        chance = chance.wrapping_mul(6364136223846793005).wrapping_add(1442695040888963407);
        sleep(Duration::from_micros((chance >> 33) % (whole + whole / 4)));
        child.kill().expect("a process to kill");
        let output = child.wait_with_output().expect("an end");
        let has_both = changes_store && old[1] != new[1];
        halfway += usize::from(has_both && folder.read("store") == new[0] && folder.read("state") == old[1]);
        folder.run(nothing);
        let found = read(&folder);
        assert!(found == old || found == new, "neither the old pair nor the new one");
        assert!(found == new || output.stdout.is_empty(), "told as done, and not done");
        renewed += usize::from(found == new);
    }
    println!("kills of {name}: {kills}, new pair {renewed}, of these halfway {halfway}, old pair {}", kills - renewed);
    // What kills leave over has one name for each file, and goes with the next play.
    write(&folder, &old);
    folder.run(command);
    assert_eq!(folder.names(), ["list", "nothing", "start", "state", "store"]);
}

#[test]
fn kills_of_a_play_that_leaves_the_store() {
    kill(KILLS, "a play that leaves the store", WITH_STATE, PLAY, "write 0 3 1 11\nbegin 1\nlock 2 7\n", false);
}

#[test]
fn kills_of_a_play_that_changes_the_store() {
    kill(KILLS, "a play that changes the store", WITH_STATE, PLAY, "commit 0 63\nbegin none\nlock 0 7\n", true);
}

#[test]
fn kills_of_a_put() {
    kill(KILLS / 2, "a put", WITH_STATE, "put store 7 77 --state state", "", true);
}

#[test]
fn kills_in_edition_2() {
    let list = "recover\nbegin none as top\nlock top 63\nwrite top 63 0 77\ncommit top 3\n";
    kill(KILLS / 2, "a play in edition 2", EDITION_2, "play store list", list, true);
    kill(KILLS / 4, "a put in edition 2", EDITION_2, "put store 63 77", "", true);
}
