//! `show STORE`: the commit page in words, each record's settled value and where it stands; what is live beside it, or
//! where it differs from another store.

use crate::command::Command;
use crate::failure::{visible, Failure, Outcome};
use crate::files::cant_read;
use crate::live::Live;
use crate::pair::{need_no_state, Pair};
use crate::store::{edition_in_words, page_in_words, Store};
use crate::{files, number_of, say, state_file};
use nekahuiro::any::{CommitPage, Map, Record};
use nekahuiro::pairs::PageCopy;
use nekahuiro::{Page, Place};
use std::fmt::Write;
use std::fs;

/// The command.
pub const COMMAND: Command = Command {
    name: "show",
    names: &["STORE"],
    options: &[
        ("--diff", "OTHER", "the pages in which another store differs"),
        ("--state", "FILE", "also who is live, who holds and retains, and what is written and not committed"),
    ],
    summary: "the commit page in words, each record and where it stands",
    help: "\
Where pages can tear, a page is what its first good copy says. Pages whose copies aren't both good and alike are shown
with both copies and their status.
",
    run,
};

/// Prints a store.
fn run(words: &[String]) -> Outcome {
    let ([path], given) = COMMAND.read(words)?;
    match (given.value("--diff"), given.value("--state")) {
        (Some(_), Some(_)) => Err(COMMAND.misuse("--diff and --state don't go together")),
        (Some(other), None) => say(&difference(path, other)?),
        (None, Some(state)) => say(&with_state(path, state)?),
        (None, None) => say(&format!("{}\n{}", visible(path), records(&files::read_store(path)?))),
    }
}

/// Page 0 in words, and all records.
pub fn records(store: &Store) -> String {
    let mut text = format!("{}\n\nrecord  settled in           value\n", commit_page(store));
    for record in store.records() {
        let value = line(&store.settled(record));
        let _ = writeln!(text, "{:6}  {:19}  {value}", record.number(), place(store, record));
    }
    if store.edition.tears {
        let _ = write!(text, "\n{}", copies(store));
    }
    text
}

/// The pages that aren't two good copies that are alike, each with both of them.
fn copies(store: &Store) -> String {
    let mut text = torn(store);
    if text.is_empty() {
        return "every page is two good copies that are alike\n".to_string();
    }
    for (page, parts) in uneven(store) {
        let _ = writeln!(text, "page {page}, {}", page_in_words(store.edition, page));
        parts.iter().for_each(|(label, bytes)| text += &format!("  {label}  {}\n", line(bytes)));
    }
    text
}

/// What of the copies of pages isn't as it is while up, in a line; nothing where all is.
pub fn torn(store: &Store) -> String {
    match (store.lost(), uneven(store).count()) {
        (Some(page), _) => {
            format!("page {page} has no good copy: recover and age are refused with 4, and nothing is mended\n")
        }
        (None, 0) => String::new(),
        (None, 1) => "1 page has a copy that a recover will mend\n".to_string(),
        (None, torn) => format!("{torn} pages have a copy that a recover will mend\n"),
    }
}

/// The pages whose copies aren't both good and alike, with their parts.
fn uneven(store: &Store) -> impl Iterator<Item = (usize, Vec<(String, Page)>)> + '_ {
    let copies = (0..store.edition.pages()).filter_map(|page| store.copies(page).map(|copies| (page, copies)));
    let uneven = copies.filter(|(_, [first, second])| !first.is_good() || first != second);
    uneven.map(|(page, _)| (page, parts(store, page)))
}

/// What a page is made of: itself, or where pages can tear its two copies, each with its status.
fn parts(store: &Store, page: usize) -> Vec<(String, Page)> {
    let status = |copy: &PageCopy| match copy.status {
        _ if copy.is_good() => "good".to_string(),
        0 => "bad".to_string(),
        other => format!("bad, {other}"),
    };
    match store.copies(page) {
        Some(copies) => {
            let named = ["first", "second"].iter().zip(&copies);
            named.map(|(name, copy)| (format!("{name:6} {:8}", status(copy)), copy.bytes)).collect()
        }
        None => vec![(String::new(), store.page(page))],
    }
}

/// A store with what is live in a state file.
fn with_state(path: &str, state_name: &str) -> Outcome<String> {
    need_no_state(path, Some(state_name))?;
    fs::metadata(state_name).map_err(|error| cant_read(state_name, &error, "check the name"))?;
    let (pair, kept) = Pair::read(path, Some(state_name), true)?;
    // Whether a state is sound is told where it is lent, be it for no event.
    let sound = kept.clone().portion(&mut pair.store.clone(), &[]);
    sound.map_err(|_| state_file::unsound(state_name))?;
    Ok(format!("{}\n{}\n{}: {}", visible(path), records(&pair.store), visible(state_name), live(&kept, &pair.store)))
}

/// Who is live, locks, and versions.
fn live(kept: &Live, store: &Store) -> String {
    let (follower, versions) = (kept.follower(store.commit_page()), kept.versions());
    let mut text = format!("{}\n{}\n", follower.in_words(), follower.locks_in_words());
    for (number, parent) in &follower.live {
        let under = parent.map_or("a top transaction".to_string(), |parent| format!("a child of {parent}"));
        let _ = writeln!(text, "transaction {number}, {under}");
        for ((record, _), page) in versions.iter().filter(|((_, writer), _)| writer == number) {
            let _ = writeln!(text, "  its record {:2}  {}", record.number(), line(page));
        }
    }
    text
}

/// The pages in which two stores differ, byte over byte.
fn difference(one: &str, other: &str) -> Outcome<String> {
    let names = [one, other];
    if files::place_of(one) == files::place_of(other) {
        return Err(Failure::usage(&format!("{one} is named twice"), "name two stores"));
    }
    let stores = [files::read_store(one)?, files::read_store(other)?];
    let edition = stores[0].edition;
    if stores[1].edition != edition {
        let editions = [edition, stores[1].edition].map(edition_in_words);
        let reason = format!("{one} is a store of {}, and {other} one of {}", editions[0], editions[1]);
        return Err(Failure::refused(&reason, "name two stores of one edition"));
    }
    let all = edition.pages();
    let pages: Vec<usize> = (0..all).filter(|page| parts(&stores[0], *page) != parts(&stores[1], *page)).collect();
    if pages.is_empty() {
        return Ok(format!("{} and {} are equal\n", visible(one), visible(other)));
    }
    let width = names.iter().map(|name| visible(name).chars().count()).max().unwrap_or(0);
    let mut text = format!("{} of {all} differ\n", number_of(pages.len(), "page"));
    for page in pages {
        let _ = writeln!(text, "page {page}, {}", page_in_words(edition, page));
        for (old, new) in parts(&stores[0], page).iter().zip(&parts(&stores[1], page)).filter(|(old, new)| old != new) {
            for (name, (label, bytes)) in names.iter().zip([old, new]) {
                let _ = writeln!(text, "  {:width$}  {label}{}", visible(name), line(bytes));
            }
            let marked = format!("  {:width$}  {:2$}{3}", "", "", old.0.len(), marks(&old.1, &new.1));
            let _ = writeln!(text, "{}", marked.trim_end());
        }
    }
    Ok(text)
}

/// Carets under the bytes that differ.
fn marks(old: &Page, new: &Page) -> String {
    let marks = old.iter().zip(new).map(|(old, new)| if old == new { "  " } else { "^^" });
    let groups: Vec<String> = marks.collect::<Vec<_>>().chunks(4).map(|group| group.concat()).collect();
    groups.join(" ")
}

/// The commit page in words.
pub fn commit_page(store: &Store) -> String {
    // All but the zeros behind them, in either edition.
    let head = store.page(0)[..2 + store.edition.records / 8]
        .iter()
        .map(|byte| format!("{byte:02X}"))
        .collect::<Vec<_>>()
        .join(" ");
    let named = |map: Map| map.records().map(|record| record.to_string()).collect::<Vec<_>>();
    match store.commit_page() {
        CommitPage::Empty => format!("page 0 ({head} ..): empty, no commit is under way"),
        CommitPage::Committed(map) => {
            let named = named(map);
            let (records, pages) = match named.len() {
                1 => ("record", "its intention page"),
                _ => ("records", "their intention pages"),
            };
            let named = named.join(", ");
            format!("page 0 ({head} ..): committed, {records} {named}; a recover will copy {pages} home")
        }
        CommitPage::Prepared(map, identity) => {
            let named = named(map);
            let records = if named.len() == 1 { "record" } else { "records" };
            let named = named.join(", ");
            let head = format!("{head} {:02X}", store.page(0)[4]);
            format!(
                "page 0 ({head} ..): prepared with identity {identity}, {records} {named}; locked until its decision"
            )
        }
        CommitPage::Damaged(why) => {
            format!("page 0 ({head} ..): damaged, {why}; recover and age are refused with 4, home pages are shown")
        }
    }
}

fn place(store: &Store, record: Record) -> String {
    match store.place(record) {
        Place::Intention => format!("intention page {}", Store::intention(record)),
        Place::Home => format!("home page {}", store.home(record)),
    }
}

/// Bytes in hex.
pub fn digits(bytes: &[u8]) -> String {
    bytes.iter().map(|byte| format!("{byte:02X}")).collect()
}

/// Bytes in hex, in groups of four.
pub fn hex(bytes: &[u8]) -> String {
    bytes.chunks(4).map(digits).collect::<Vec<_>>().join(" ")
}

/// Bytes in hex, and beside them those that are letters or signs.
pub fn line(bytes: &[u8]) -> String {
    let sign = |byte: &u8| if (0x20..0x7F).contains(byte) { char::from(*byte) } else { '.' };
    format!("{}  |{}|", hex(bytes), bytes.iter().map(sign).collect::<String>())
}
