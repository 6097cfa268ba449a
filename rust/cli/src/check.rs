//! `check STORE`: what page 0 says, and what a recover would do.

use crate::command::Command;
use crate::failure::{visible, Failure, Outcome};
use crate::store::{page_in_words, Store};
use crate::{files, number_of, say, show};
use nekahuiro::any::{CommitPage, Event, Map};
use nekahuiro::limits::PAGE_BYTES;
use nekahuiro::pairs::Half;
use nekahuiro::{page_writes, Page};
use std::fmt::Write;

/// The command.
pub const COMMAND: Command = Command {
    name: "check",
    names: &["STORE"],
    options: &[],
    summary: "what page 0 says, and what a recover would do",
    help: "\
Nothing is changed: the recover is played on a copy. The status is 4 if page 0 is damaged, if a page has no good copy
where pages can tear, or if it is no store.
",
    run,
};

/// Tells it, from page 0 and from a recover that is played on a copy.
fn run(words: &[String]) -> Outcome {
    let ([path], _) = COMMAND.read(words)?;
    let store = files::read_store(path)?;
    let mut after = store.clone();
    let answers = after.play(&[Event::Recover { count: store.edition.count_limit().into() }]).map_err(|refusal| {
        Failure::refused(&format!("{path}: {refusal}"), "name a store; `./nekahuiro fresh STORE` makes one")
    })?;
    let value = answers.first().map_or(0, |answer| answer.value);
    let mut text = format!("{}\n{}\n", visible(path), show::commit_page(&store));
    if let Some(why) = store.damage() {
        say(&text)?;
        let reason = format!("{path}: refused 4: {why}; a recover is refused, and changes nothing");
        return Err(Failure::refused(&reason, "restore it from a copy, or look at its pages with `show`"));
    }
    let mended = mends(&store);
    let who = if mended.is_empty() { "a recover" } else { "then it" };
    text.push_str(&mended);
    match store.commit_page() {
        CommitPage::Empty => {
            let _ = writeln!(text, "{who} has nothing to do, and writes no page");
        }
        CommitPage::Committed(map) => {
            let _ = writeln!(text, "{who} makes {}:", page_writes(value));
            text.push_str(&home_pages(&store, &after, map));
            text.push_str("  page 0 becomes empty\n");
        }
        CommitPage::Prepared(map, identity) => {
            text.push_str("a recover has nothing to do, and writes no page\n");
            let _ = writeln!(text, "`decide commit {identity}` would change:");
            text.push_str(&home_pages(&store, &decided(&store, identity), map));
            let _ = writeln!(text, "`decide abort {identity}` would leave the records as they are");
        }
        // Told above.
        CommitPage::Damaged(_) => {}
    }
    say(&text)
}

/// What a recover mends before its first page write, where pages can tear.
fn mends(store: &Store) -> String {
    let mends = store.mends();
    let mut text = match mends.len() {
        0 => String::new(),
        number => format!("a recover mends {} first:\n", number_of(number, "page")),
    };
    for write in mends {
        let which =
            if write.half == Some(Half::First) { "first copy from its second" } else { "second copy from its first" };
        let _ =
            writeln!(text, "  page {}, {}: its {which}", write.page, page_in_words(store.edition, write.page.into()));
    }
    text
}

/// The store after the decision to commit.
fn decided(store: &Store, identity: nekahuiro::Identity) -> Store {
    let (mut after, count) = (store.clone(), store.edition.count_limit());
    // Nothing refuses it: page 0 is prepared with this identity.
    let _ = after.play(&[Event::Recover { count: count.into() }, Event::Decide { commit: true, count, identity }]);
    after
}

/// What is copied home.
fn home_pages(before: &Store, after: &Store, map: Map) -> String {
    let mut text = String::new();
    for record in map.records() {
        let (home, from) = (before.home(record), Store::intention(record));
        let changes = changes(&before.page(home), &after.page(home));
        let _ = writeln!(text, "  home page {home} from intention page {from}: record {record}, {changes}");
    }
    text
}

/// The bytes that differ.
fn changes(old: &Page, new: &Page) -> String {
    let differ: Vec<usize> = (0..PAGE_BYTES).filter(|at| old[*at] != new[*at]).collect();
    match differ[..] {
        [] => "which is as it was".to_string(),
        [at] => format!("offset {at}: {:02X} becomes {:02X}", old[at], new[at]),
        [first, .., last] => format!("{} from offset {first} to {last}", number_of(differ.len(), "changed byte")),
    }
}
