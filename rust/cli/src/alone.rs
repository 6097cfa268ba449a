//! One command at a time in a folder.

use crate::failure::{Failure, Outcome, Status};
use crate::files::{folder_of, place_of};
use std::collections::BTreeMap;
use std::fs::{self, File, OpenOptions, TryLockError};
use std::io;
use std::os::unix::fs::MetadataExt;
use std::path::Path;
use std::thread::sleep;
use std::time::{Duration, Instant};

/// Between two looks at a folder that another command has.
const PAUSE: Duration = Duration::from_millis(2);

/// While it is kept, no other command is at work on a file of these folders. The system ends it with the process.
pub struct Alone {
    _locks: Vec<Option<File>>,
}

impl Alone {
    /// Waits until nobody else is at work in the folders of these files. They are taken in one order by
    /// all, so that two commands never wait for each other.
    pub fn with(names: &[&str], wait: Duration) -> Outcome<Alone> {
        let folder_at = |name: &&str| {
            let path = folder_of(&place_of(name)).to_path_buf();
            let found = fs::metadata(&path).ok()?;
            Some(((found.dev(), found.ino()), path))
        };
        let folders: BTreeMap<_, _> = names.iter().filter_map(folder_at).collect();
        let end = Instant::now() + wait;
        let locks: Result<Vec<_>, Busy> = folders.values().map(|folder| lock(folder, end)).collect();
        locks.map(|locks| Alone { _locks: locks }).map_err(|Busy| {
            let reason = format!("{} is busy: another command is at work in its folder", names[0]);
            let mend = "try again, or wait longer with --wait SECONDS; no file was changed";
            Failure::with(Status::Busy, &reason, mend)
        })
    }
}

/// Another command has the folder, and the time is over.
struct Busy;

/// Locks a folder; on a disk whose folders have no locks, as over a network, a file in it. Where there are
/// none at all nobody is kept out: there a change is only seen by comparing the files.
fn lock(folder: &Path, end: Instant) -> Result<Option<File>, Busy> {
    let itself = || File::open(folder);
    let in_it = || OpenOptions::new().write(true).create(true).truncate(false).open(folder.join(".nekahuiro.lock"));
    let ways: [&dyn Fn() -> io::Result<File>; 2] = [&itself, &in_it];
    for file in ways.into_iter().flat_map(|open| open()) {
        loop {
            match file.try_lock() {
                Ok(()) => return Ok(Some(file)),
                Err(TryLockError::Error(_)) => break,
                Err(TryLockError::WouldBlock) if Instant::now() >= end => return Err(Busy),
                Err(TryLockError::WouldBlock) => sleep(PAUSE),
            }
        }
    }
    Ok(None)
}
