//! Replacing plain files in one step.

use crate::failure::{Failure, Outcome, Status};
use crate::files::{folder_of, said};
use std::fs::{self, File, Metadata, OpenOptions};
use std::io::{self, ErrorKind, Write};
use std::os::unix::fs::{fchown, MetadataExt, OpenOptionsExt};
use std::path::{Path, PathBuf};

/// New content for a file, written beside it and not yet in its place. Dropped, it leaves no trace.
pub struct Staged {
    name: String,
    target: PathBuf,
    beside: PathBuf,
    /// The number of the file beside it, by which it is known again.
    inode: u64,
    /// Whether it isn't to be taken away.
    stays: bool,
}

impl Staged {
    /// Writes the content beside the file, to the disk. The caller is alone in its folder.
    pub fn new(name: &str, content: &[u8]) -> Outcome<Staged> {
        Staged::write(name, content).map_err(|failure| failure.and("no file was changed"))
    }

    fn write(name: &str, content: &[u8]) -> Outcome<Staged> {
        let fails = |error: io::Error| cant_write("write", name, &error);
        // A link is followed, so that the file it names is replaced and not the link.
        let target = fs::canonicalize(name).unwrap_or_else(|_| PathBuf::from(name));
        let found = match fs::metadata(&target) {
            Err(error) if error.kind() == ErrorKind::NotFound => None,
            found => Some(found.map_err(fails)?),
        };
        match &found {
            None if fs::symlink_metadata(&target).is_ok() => {
                let reason = format!("can't write {name}: it is a link to a file that isn't there");
                return Err(Failure::new(&reason, "remove the link, or make the file that it names"));
            }
            Some(found) if found.is_dir() => return Err(fails(ErrorKind::IsADirectory.into())),
            Some(found) if found.permissions().readonly() => {
                let reason = format!("can't write {name}: it is read-only");
                return Err(Failure::new(&reason, &format!("allow it with `chmod u+w {name}`")));
            }
            // A file may be replaced by who may write it.
            Some(_) => drop(OpenOptions::new().write(true).open(&target).map_err(fails)?),
            None => {}
        }
        let beside = beside(&target);
        let file = new_file(&beside, found.is_some()).map_err(fails)?;
        let inode = file.metadata().map_err(fails)?.ino();
        let staged = Staged { name: name.to_string(), target, beside, inode, stays: false };
        fill(file, content, found).map_err(fails)?;
        Ok(staged)
    }

    /// Puts the new content in the file's place, in one step.
    pub fn put(&mut self) -> Outcome {
        // On a disk without locks somebody else may have written beside the file too.
        if fs::symlink_metadata(&self.beside).is_ok_and(|found| found.ino() != self.inode) {
            let reason = format!("{} is being written by somebody else", self.name);
            return Err(Failure::with(Status::Busy, &reason, "try again"));
        }
        fs::rename(&self.beside, &self.target).map_err(|error| cant_write("replace", &self.name, &error))?;
        self.stays = true;
        Ok(())
    }

    /// What was done in its folder is brought to the disk.
    pub fn sync(&self) -> Outcome {
        sync(&self.name, &self.target)
    }

    /// From now on it stays beside the file even if it is dropped.
    pub fn leave(&mut self) {
        self.stays = true;
    }
}

impl Drop for Staged {
    fn drop(&mut self) {
        if !self.stays {
            let _ = fs::remove_file(&self.beside);
        }
    }
}

/// Puts what stands beside a file in its place, and that to the disk.
pub fn finish(name: &str, target: &Path) -> Outcome {
    fs::rename(beside(target), target).map_err(|error| cant_write("replace", name, &error))?;
    sync(name, target)
}

/// What was done in a file's folder is brought to the disk.
pub fn sync(name: &str, target: &Path) -> Outcome {
    File::open(folder_of(target)).and_then(|folder| folder.sync_all()).map_err(|error| {
        let reason = format!("{name} may not be on the disk yet: {}", said(&error));
        Failure::new(&reason, "check the disk, and look at the file before you play again")
    })
}

/// Where new content for a file is written first: always the same name, so that what a kill leaves is used again.
/// It is in the same folder, so that moving it is one step.
pub fn beside(target: &Path) -> PathBuf {
    let name = target.file_name().unwrap_or_default().to_string_lossy().into_owned();
    // A name has at most 255 bytes.
    let short = if name.len() > 200 { format!("{:016x}", u64::from_le_bytes(digest(name.as_bytes()))) } else { name };
    target.with_file_name(format!(".{short}.nekahuiro"))
}

/// A number that tells contents apart that differ by accident: FNV-1a, 64 bits, the least byte first.
pub fn digest(bytes: &[u8]) -> [u8; 8] {
    let step = |digest: u64, byte: &u8| (digest ^ u64::from(*byte)).wrapping_mul(0x0000_0100_0000_01B3);
    bytes.iter().fold(0xCBF2_9CE4_8422_2325, step).to_le_bytes()
}

/// A new file, in place of what a kill left over. One that replaces another is nobody else's to read until
/// it has that one's permissions.
fn new_file(path: &Path, replaces: bool) -> io::Result<File> {
    let mode = if replaces { 0o600 } else { 0o666 };
    match fs::remove_file(path) {
        Err(error) if error.kind() != ErrorKind::NotFound => return Err(error),
        _ => {}
    }
    OpenOptions::new().write(true).create_new(true).mode(mode).open(path)
}

/// Content, owner and permissions, to the disk.
fn fill(mut file: File, content: &[u8], replaced: Option<Metadata>) -> io::Result<()> {
    file.write_all(content)?;
    if let Some(replaced) = replaced {
        let made = file.metadata()?;
        if (made.uid(), made.gid()) != (replaced.uid(), replaced.gid()) {
            // Only root may give a file away; else it is the caller's, as any that they make.
            let _ = fchown(&file, Some(replaced.uid()), Some(replaced.gid()));
        }
        file.set_permissions(replaced.permissions())?;
    }
    file.sync_all()
}

/// The message for a file that can't be written.
pub fn cant_write(what: &str, name: &str, error: &io::Error) -> Failure {
    let mend = match error.kind() {
        ErrorKind::StorageFull | ErrorKind::FileTooLarge | ErrorKind::QuotaExceeded => "free some room",
        ErrorKind::PermissionDenied => "allow writing to it and in its folder",
        ErrorKind::ReadOnlyFilesystem => "write elsewhere, or allow writing on its disk",
        ErrorKind::NotFound => "make its folder first",
        ErrorKind::IsADirectory => "name a file in it",
        _ => "check the name, and the disk",
    };
    Failure::new(&format!("can't {what} {name}: {}", said(error)), mend)
}
