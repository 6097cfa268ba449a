//! examples/c/flash.c and flash_pairs.c killed at random moments: after each kill the records on the medium are those of
//! one refresh, and of no earlier one than the last that it told. The same program with its pages sent in another order is
//! found out.

use nekahuiro_history::Form as History;
use nekahuiro_lists::Rng;
use nekahuiro_player::store::{CommitPage, Page};
use nekahuiro_player::{Form as _, Pairs, Plain};
use std::fs;
use std::io::Read;
use std::path::{Path, PathBuf};
use std::process::{Command, Stdio};
use std::thread::sleep;
use std::time::{Duration, Instant};

/// Kills of a device that goes on from one to the next, and of one that lays its store down.
const KILLS: u64 = 300;
const KILLS_OF_LAYING: u64 = 60;
/// The same where writes tear, which takes longer.
const KILLS_TEARING: u64 = 100;
const KILLS_OF_LAYING_TEARING: u64 = 30;

/// A folder that goes when the test is over.
struct Folder(PathBuf);

impl Folder {
    fn new(name: &str) -> Folder {
        let path = PathBuf::from(env!("CARGO_TARGET_TMPDIR")).join(format!("{name}-{}", std::process::id()));
        let _ = fs::remove_dir_all(&path);
        fs::create_dir_all(&path).expect("a folder");
        Folder(path)
    }
}

impl Drop for Folder {
    fn drop(&mut self) {
        let _ = fs::remove_dir_all(&self.0);
    }
}

/// A kind of device: its library, how its records are read, and what its page 0 says.
struct Kind {
    library: &'static str,
    history: History,
    store_bytes: usize,
    commit_page: fn(&[u8]) -> Option<CommitPage>,
    is_even: fn(&[u8]) -> bool,
}

const ATOMIC: Kind = Kind {
    library: "libnekahuiro.a",
    history: History::PLAIN,
    store_bytes: Plain::STORE_BYTES,
    commit_page: Plain::commit_page,
    is_even: Plain::is_even,
};

/// On a file that tears.
const TEARING: Kind = Kind {
    library: "libnekahuiro_pairs.a",
    history: History::PAIRS,
    store_bytes: Pairs::STORE_BYTES,
    commit_page: Pairs::commit_page,
    is_even: Pairs::is_even,
};

/// A device: its program, and the file that is its medium.
struct Flash {
    kind: Kind,
    program: PathBuf,
    medium: PathBuf,
}

/// What a medium holds.
struct Held {
    /// The refresh that all records are of.
    refresh: u32,
    page: CommitPage,
    /// Whether nothing on it is torn.
    even: bool,
}

/// What a device had told when it was killed.
struct Told {
    /// The last refresh that it told, if it told one.
    refresh: Option<u32>,
    /// Its exit status, where it ended by itself.
    status: Option<i32>,
}

impl Flash {
    /// Builds a program of the repository.
    fn new(kind: Kind, folder: &Folder, source: &str) -> Flash {
        let root = Path::new(env!("CARGO_MANIFEST_DIR")).join("../..");
        let library = std::env::var_os("NEKAHUIRO_LIB_DIR").map_or(root.join("target/staticlib"), PathBuf::from);
        let program = folder.0.join("flash");
        let built = Command::new(std::env::var_os("CC").unwrap_or("cc".into()))
            .args(["-std=c11", "-Wall", "-Wextra", "-Werror", "-pedantic", "-O2", "-I"])
            .args([root.join("include"), root.join(source), library.join(kind.library)])
            .args([Path::new("-o"), &program])
            .status();
        assert!(built.expect("a C compiler").success(), "{source} doesn't build");
        Flash { kind, program, medium: folder.0.join("medium") }
    }

    /// Runs it with so many refreshes to make, and kills it after a while.
    fn killed(&self, refreshes: u32, after: Duration) -> Told {
        let mut child = Command::new(&self.program)
            .arg(&self.medium)
            .arg(refreshes.to_string())
            .stdout(Stdio::piped())
            .stderr(Stdio::null())
            .spawn()
            .expect("the program");
        sleep(after);
        let ended = child.try_wait().expect("a status");
        child.kill().expect("a process to kill");
        child.wait().expect("an end");
        let mut text = String::new();
        child.stdout.take().expect("its output").read_to_string(&mut text).expect("text");
        let told = text.lines().rev().find_map(|line| line.strip_suffix(" is on the medium")?.strip_prefix("refresh "));
        Told { refresh: told.and_then(|number| number.parse().ok()), status: ended.and_then(|status| status.code()) }
    }

    /// How long one start and so many refreshes take.
    fn time(&self, refreshes: u32) -> Duration {
        let start = Instant::now();
        let status =
            Command::new(&self.program).arg(&self.medium).arg(refreshes.to_string()).stdout(Stdio::null()).status();
        assert!(status.expect("the program").success());
        start.elapsed()
    }

    /// A time in which it starts and makes a few refreshes, on this disk.
    fn pace(&self) -> Duration {
        let start = self.time(0);
        2 * (start + self.time(10).saturating_sub(start) / 10)
    }

    /// What the medium holds; none where there is no store yet. Errors are mixtures.
    fn held(&self) -> Result<Option<Held>, String> {
        let mut store = fs::read(&self.medium).unwrap_or_default();
        if store.len() > self.kind.store_bytes {
            return Err("the medium is too long".to_string());
        }
        store.resize(self.kind.store_bytes, 0);
        let page = (self.kind.commit_page)(&store).ok_or("the medium is no store")?;
        if page == CommitPage::Damaged {
            return Ok(None);
        }
        let pages = &self.kind.history.settled(&store)[..3];
        let refresh = number(&pages[0], 4);
        for (record, page) in (0..).zip(pages) {
            if *page != due(record, number(&pages[0], 0), refresh) {
                let numbers: Vec<u32> = pages.iter().map(|page| number(page, 4)).collect();
                return Err(format!("record {record} isn't of refresh {refresh}: they are of {numbers:?}"));
            }
        }
        Ok(Some(Held { refresh, page, even: (self.kind.is_even)(&store) }))
    }
}

fn number(page: &Page, at: usize) -> u32 {
    u32::from_be_bytes([page[at], page[at + 1], page[at + 2], page[at + 3]])
}

/// What a refresh writes to a record.
fn due(record: u32, minute: u32, refresh: u32) -> Page {
    let mut page = [0; 32];
    if refresh == 0 {
        return page;
    }
    page[..4].copy_from_slice(&minute.to_be_bytes());
    page[4..8].copy_from_slice(&refresh.to_be_bytes());
    for (i, byte) in (0..).zip(&mut page).skip(8) {
        *byte = (refresh * 31 + record * 7 + i) as u8;
    }
    page
}

/// A random time up to this one.
fn part(rng: &mut Rng, whole: Duration) -> Duration {
    Duration::from_micros(rng.below(whole.as_micros() as usize + 1) as u64)
}

#[test]
fn kills_lose_nothing_that_was_told_and_leave_no_mixture() {
    let (folder, mut rng) = (Folder::new("flash"), Rng::new(20));
    killed_often(&Flash::new(ATOMIC, &folder, "examples/c/flash.c"), "a device", KILLS, &mut rng);
    let (folder, mut rng) = (Folder::new("flash-pairs"), Rng::new(23));
    let flash = Flash::new(TEARING, &folder, "examples/c/flash_pairs.c");
    let torn = killed_often(&flash, "a device that tears", KILLS_TEARING, &mut rng);
    assert!(torn > 0, "no kill tore a page");
}

/// Kills a device again and again; how often that left something torn.
fn killed_often(flash: &Flash, what: &str, kills: u64, rng: &mut Rng) -> u64 {
    flash.time(1);
    let pace = flash.pace();
    let (mut last, mut cut, mut begun, mut torn) = (11, 0, 0, 0);
    for round in 0..kills {
        let told = flash.killed(u32::MAX, part(rng, pace));
        assert_eq!(told.status, None, "{what}, round {round}: it ended by itself");
        last = told.refresh.unwrap_or(last);
        let held = flash.held().unwrap_or_else(|text| panic!("{what}, round {round}: {text}")).expect("a store");
        let found = held.refresh;
        assert!(found == last || found == last + 1, "{what}, round {round}: told {last}, found {found}");
        cut += u64::from(matches!(held.page, CommitPage::Committed(_)));
        begun += u64::from(found > last);
        torn += u64::from(!held.even);
        last = found;
    }
    flash.time(0); // it comes up again
    println!(
        "kills of {what}: {kills}, {last} refreshes, {begun} kept that it couldn't tell, {cut} with home pages to copy, \
         {torn} with a torn page"
    );
    torn
}

#[test]
fn kills_while_a_store_is_laid_down() {
    let (folder, mut rng) = (Folder::new("flash-laying"), Rng::new(21));
    let flash = Flash::new(ATOMIC, &folder, "examples/c/flash.c");
    killed_laying(&flash, "a device that lays down", KILLS_OF_LAYING, &mut rng);
    let (folder, mut rng) = (Folder::new("flash-pairs-laying"), Rng::new(24));
    let flash = Flash::new(TEARING, &folder, "examples/c/flash_pairs.c");
    killed_laying(&flash, "a device that tears and lays down", KILLS_OF_LAYING_TEARING, &mut rng);
}

fn killed_laying(flash: &Flash, what: &str, kills: u64, rng: &mut Rng) {
    let (laying, mut unfinished) = (flash.time(0), 0);
    for round in 0..kills {
        // Over nothing, or over what the last round left.
        if rng.percent(50) {
            let _ = fs::remove_file(&flash.medium);
        }
        let told = flash.killed(1, part(rng, laying + laying / 4));
        assert!(matches!(told.status, None | Some(0)), "{what}, round {round}: {:?}", told.status);
        match flash.held().unwrap_or_else(|text| panic!("{what}, round {round}: {text}")) {
            None => unfinished += 1,
            Some(held) => assert!(held.refresh >= told.refresh.unwrap_or(0), "{what}, round {round}: told, and lost"),
        }
    }
    flash.time(1);
    assert!(matches!(flash.held(), Ok(Some(Held { refresh: 1.., .. }))));
    println!("kills of {what}: {kills}, {unfinished} before there was a store");
}

#[test]
fn pages_in_another_order_are_found_to_mix() {
    let folder = Folder::new("flash-page-order");
    let flash = Flash::new(ATOMIC, &folder, "tests/c/page_order.c");
    flash.time(1);
    let (pace, mut rng) = (flash.pace(), Rng::new(22));
    let found = (1..=KILLS).find_map(|round| {
        flash.killed(u32::MAX, part(&mut rng, pace));
        flash.held().err().map(|text| (round, text))
    });
    let (round, text) = found.expect("a mixture");
    println!("kills of a device with its pages in page order: a mixture after {round}, {text}");
}
