//! Reading files.

use crate::failure::{Failure, Outcome};
use crate::store::{edition_in_words, Store};
use nekahuiro::{Edition, Refusal};
use std::borrow::Cow;
use std::fs::{self, File};
use std::io::{self, ErrorKind, Read};
use std::path::{Path, PathBuf};

/// The bytes of the longest list that is read.
const LONGEST: usize = 256 << 20;

/// Reads a store file, of the edition that its length says.
pub fn read_store(path: &str) -> Outcome<Store> {
    let longest = Edition::SECOND.store_bytes();
    let bytes = read_up_to(path, longest + 1)
        .map_err(|error| cant_read(path, &error, "check the name; `./nekahuiro fresh STORE` makes a store"))?;
    let read = bytes.len();
    Store::of(bytes).ok_or_else(|| {
        // Of what is longer than any store and has no end, it is told that it is longer than one of edition 1.
        let found = length_in_words(path, read, if read > longest { Edition::FIRST.store_bytes() } else { longest });
        let mend = "name a store; `./nekahuiro fresh STORE` makes one";
        Failure::refused(&format!("{path} is no store: it has {found} ({})", Refusal::Store), mend)
    })
}

/// The edition of a store file by its length, before it is read. What is no store counts as edition 1: it is refused
/// where it is read.
pub fn edition_of(path: &str) -> Edition {
    let length = fs::metadata(path).ok().filter(fs::Metadata::is_file).map(|found| found.len() as usize);
    let of_length = |edition: &Edition| Some(edition.store_bytes()) == length;
    Edition::ALL.into_iter().find(of_length).unwrap_or(Edition::FIRST)
}

/// Refuses a store whose edition hasn't got something; `why` is said of the store, and `mend` what to do instead.
pub fn need(has: fn(Edition) -> bool, path: &str, why: &str, mend: &str) -> Outcome {
    match edition_of(path) {
        edition if has(edition) => Ok(()),
        edition => Err(Failure::refused(&format!("{path} is a store of {}, {why}", edition_in_words(edition)), mend)),
    }
}

/// Reads a list of events or of waiting rows, from standard input for `-`.
pub fn read_list(path: &str) -> Outcome<Vec<u8>> {
    let mut bytes = Vec::new();
    let read = match path {
        "-" => io::stdin().lock().take(LONGEST as u64 + 1).read_to_end(&mut bytes).map(|_| ()),
        _ => read_up_to(path, LONGEST + 1).map(|found| bytes = found),
    };
    let name = name_of(path);
    read.map_err(|error| cant_read(name, &error, "check the name; it should be a list of events"))?;
    if bytes.len() > LONGEST {
        let reason = format!("{name} has more than {} MiB", LONGEST >> 20);
        return Err(Failure::refused(&reason, "cut the list, and play its parts one after the other with --state"));
    }
    Ok(bytes)
}

/// The first bytes of a file; no file is read further than it has to be.
pub fn read_up_to(path: impl AsRef<Path>, limit: usize) -> io::Result<Vec<u8>> {
    let mut bytes = Vec::new();
    File::open(path)?.take(limit as u64).read_to_end(&mut bytes)?;
    Ok(bytes)
}

/// How long a file is of which so much was read, if it should have `due` bytes.
pub fn length_in_words(path: &str, read: usize, due: usize) -> String {
    let whole = fs::metadata(path).ok().filter(|found| found.is_file()).map(|found| found.len() as usize);
    match whole {
        _ if read <= due => crate::number_of(read, "byte"),
        Some(whole) if whole > due => crate::number_of(whole, "byte"),
        _ => format!("more than {due} bytes"),
    }
}

/// What a list is called in a message.
pub fn name_of(path: &str) -> &str {
    if path == "-" {
        "standard input"
    } else {
        path
    }
}

/// The message for a file that can't be read; `missing` is the mend if it isn't there.
pub fn cant_read(name: &str, error: &io::Error, missing: &str) -> Failure {
    let mend = match error.kind() {
        ErrorKind::NotFound => missing,
        ErrorKind::PermissionDenied => "ask for the right to read it",
        ErrorKind::IsADirectory => "name a file in it",
        _ => "check the name, and the disk",
    };
    Failure::new(&format!("can't read {name}: {}", said(error)), mend)
}

/// What the system says of an error, without its number.
pub fn said(error: &io::Error) -> String {
    match error.kind() {
        ErrorKind::IsADirectory => "it is a folder".to_string(),
        _ => error.to_string().split(" (os error").next().unwrap_or_default().to_string(),
    }
}

/// A file that is to be replaced in one step must be a plain one, if it is there.
pub fn need_plain(path: &str, what: &str) -> Outcome {
    match fs::metadata(path) {
        Ok(found) if found.is_dir() => {
            Err(Failure::new(&format!("{path} is a folder, and a {what} is a file"), "name a file"))
        }
        Ok(found) if !found.is_file() => {
            let reason = format!("{path} is no plain file, so it can't be replaced in one step");
            Err(Failure::new(&reason, &format!("name a plain file as the {what}")))
        }
        _ => Ok(()),
    }
}

/// No file may be written that is read or written as something else; each comes with what it is for.
pub fn need_different(files: &[(&str, &str)]) -> Outcome {
    let places: Vec<_> = files.iter().map(|(_, name)| place_of(name)).collect();
    for (at, place) in places.iter().enumerate() {
        // A device or a pipe may well be both, as a terminal is.
        let is_device = fs::metadata(place).is_ok_and(|found| !found.is_file());
        let Some(first) = places[..at].iter().position(|other| other == place).filter(|_| !is_device) else {
            continue;
        };
        let ((one, name), (other, _)) = (files[first], files[at]);
        let reason = format!("{} is named twice, for {one} and for {other}", shown(name, place));
        return Err(Failure::usage(&reason, "one use would spoil the other: give them different names"));
    }
    Ok(())
}

/// A file as the user knows it.
fn shown<'n>(name: &'n str, place: &'n Path) -> Cow<'n, str> {
    if name.starts_with("/dev/std") {
        place.to_string_lossy()
    } else {
        name.into()
    }
}

/// The file that a name leads to, also if it isn't there yet.
pub fn place_of(name: &str) -> PathBuf {
    let path = Path::new(name);
    fs::canonicalize(path).unwrap_or_else(|_| match path.file_name() {
        Some(file) => fs::canonicalize(folder_of(path)).unwrap_or_else(|_| folder_of(path).to_path_buf()).join(file),
        None => path.to_path_buf(),
    })
}

/// The folder that a file is in.
pub fn folder_of(path: &Path) -> &Path {
    path.parent().filter(|folder| !folder.as_os_str().is_empty()).unwrap_or(Path::new("."))
}
