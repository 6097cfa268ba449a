//! The numbers of the rules stand in three places: the C header, the wrapper and the player.

use nekahuiro::{limits, Answer, Event, Message, Order, Reason, Refusal, Stage, State};
use nekahuiro_player::limits as player;
use nekahuiro_trials::planned::NO_SUCH_WRITE;

fn header() -> String {
    let path = concat!(env!("CARGO_MANIFEST_DIR"), "/../../include/nekahuiro.h");
    std::fs::read_to_string(path).expect("include/nekahuiro.h")
}

/// A number that the C header defines.
fn defined(name: &str) -> usize {
    defined_in(&header(), name)
}

fn defined_in(header: &str, name: &str) -> usize {
    let start = format!("#define {name} ");
    let line = header.lines().find(|line| line.starts_with(&start)).unwrap_or_else(|| panic!("{name} isn't defined"));
    let number = line[start.len()..].split("/*").next().unwrap_or_default();
    number.trim().parse().unwrap_or_else(|_| panic!("{name} isn't a number: {line}"))
}

#[test]
fn header_wrapper_and_player_have_the_same_numbers() {
    let rows = [
        ("NEKAHUIRO_PAGE_BYTES", limits::PAGE_BYTES, player::PAGE_BYTES),
        ("NEKAHUIRO_RECORDS", limits::RECORDS, player::RECORDS),
        ("NEKAHUIRO_STORE_BYTES", limits::STORE_BYTES, player::STORE_BYTES),
        ("NEKAHUIRO_WORK_BYTES", limits::WORK_BYTES, player::WORK_BYTES),
        ("NEKAHUIRO_TRANSACTIONS", limits::TRANSACTIONS, player::TRANSACTIONS),
        ("NEKAHUIRO_DEPTH_LIMIT", limits::DEPTH_LIMIT, usize::from(player::DEPTH_LIMIT)),
        ("NEKAHUIRO_EVENT_BYTES", limits::EVENT_BYTES, player::EVENT_BYTES),
        ("NEKAHUIRO_EVENTS", limits::EVENTS, player::EVENTS),
        ("NEKAHUIRO_LIST_BYTES", limits::LIST_BYTES, player::EVENTS * player::EVENT_BYTES),
        ("NEKAHUIRO_ANSWER_BYTES", limits::ANSWER_BYTES, player::ANSWER_BYTES),
        ("NEKAHUIRO_STATE_BYTES", limits::STATE_BYTES, size_of::<State>()),
        ("NEKAHUIRO_ROWS", limits::ROWS, nekahuiro_player::waiting::ROWS),
    ];
    for (name, wrapper, player) in rows {
        assert_eq!((defined(name), player), (wrapper, wrapper), "{name}");
    }
    assert_eq!(defined("NEKAHUIRO_PAGE_WRITE_BYTES"), limits::PAGE_WRITE_BYTES);
    assert_eq!(defined("NEKAHUIRO_NO_SUCH_WRITE"), usize::from(NO_SUCH_WRITE));
    assert_eq!(defined("NEKAHUIRO_NO_CUT"), usize::from(limits::COUNT_LIMIT));
}

#[test]
fn edition_2_has_the_same_numbers_in_all_three() {
    use nekahuiro::edition2::limits::{COUNT_LIMIT, EVENT_BYTES, LIST_BYTES, RECORDS, STORE_BYTES, WORK_BYTES};
    use nekahuiro_player::{Edition2, Form};
    let path = concat!(env!("CARGO_MANIFEST_DIR"), "/../../include/nekahuiro_edition2.h");
    let header = std::fs::read_to_string(path).expect("include/nekahuiro_edition2.h");
    let rows = [
        ("RECORDS", RECORDS, Edition2::RECORDS),
        ("STORE_BYTES", STORE_BYTES, Edition2::STORE_BYTES),
        ("WORK_BYTES", WORK_BYTES, Edition2::WORK_BYTES),
        ("EVENT_BYTES", EVENT_BYTES, Edition2::EVENT_BYTES),
        ("LIST_BYTES", LIST_BYTES, player::EVENTS * Edition2::EVENT_BYTES),
        ("NO_CUT", usize::from(COUNT_LIMIT), (1 << Edition2::COUNT_BITS) - 1),
    ];
    for (name, wrapper, player) in rows {
        let defined = defined_in(&header, &format!("NEKAHUIRO_EDITION2_{name}"));
        assert_eq!((defined, player), (wrapper, wrapper), "{name}");
    }
}

#[test]
fn pages_that_can_tear_have_the_same_numbers_in_all_three() {
    use nekahuiro::pairs::limits::{BAD, COPY_BYTES, COPY_WRITE_BYTES, GOOD, PAIR_BYTES, STORE_BYTES};
    use nekahuiro::pairs::Half;
    use nekahuiro::{Edition, Tear};
    use nekahuiro_player::{Form, Pairs};
    let path = concat!(env!("CARGO_MANIFEST_DIR"), "/../../include/nekahuiro_pairs.h");
    let header = std::fs::read_to_string(path).expect("include/nekahuiro_pairs.h");
    let rows = [
        ("COPY_BYTES", COPY_BYTES),
        ("PAIR_BYTES", PAIR_BYTES),
        ("STORE_BYTES", STORE_BYTES),
        ("COPY_WRITE_BYTES", COPY_WRITE_BYTES),
        ("GOOD", GOOD.into()),
        ("BAD", BAD.into()),
        ("FIRST_COPY", Half::First as usize),
        ("SECOND_COPY", Half::Second as usize),
        ("NOT_TORN", Tear::None as usize),
        ("FIRST_BAD", Tear::FirstBad as usize),
        ("SECOND_BAD", Tear::SecondBad as usize),
        ("SECOND_OLD", Tear::SecondOld as usize),
    ];
    for (name, wrapper) in rows {
        assert_eq!(defined_in(&header, &format!("NEKAHUIRO_PAIRS_{name}")), wrapper, "{name}");
    }
    assert_eq!((Edition::PAIRS.store_bytes(), Pairs::STORE_BYTES), (STORE_BYTES, STORE_BYTES));
    assert_eq!(Tear::ALL.map(|tear| tear as u8), [0, 1, 2, 3]);
}

#[test]
fn header_and_wrapper_have_the_same_kinds_and_numbers() {
    let kinds = [
        ("BEGIN", "begin none"),
        ("LOCK", "lock 0 0"),
        ("WRITE", "write 0 0 0 00"),
        ("READ", "read 0 0 0"),
        ("COMMIT", "commit 0 0"),
        ("ABORT", "abort 0"),
        ("CRASH", "crash"),
        ("RECOVER", "recover 0"),
        ("PREPARE", "prepare 0 0 0"),
        ("DECIDE", "decide abort 0 0"),
        ("QUERY", "query 0"),
    ];
    for (name, words) in kinds {
        let event: Event = words.parse().expect(words);
        assert_eq!(defined(&format!("NEKAHUIRO_{name}")), usize::from(event.fields().kind), "{name}");
    }
    let decide = |words: &str| usize::from(words.parse::<Event>().expect(words).fields().offset);
    assert_eq!(defined("NEKAHUIRO_DECIDE_COMMIT"), decide("decide commit 0 0"));
    assert_eq!(defined("NEKAHUIRO_DECIDE_ABORT"), decide("decide abort 0 0"));
    let reasons = [
        ("BAD_EVENT", Reason::BadEvent),
        ("DOWN", Reason::Down),
        ("UP", Reason::Up),
        ("DAMAGED", Reason::Damaged),
        ("NOT_LIVE", Reason::NotLive),
        ("TOO_DEEP", Reason::TooDeep),
        ("TOO_MANY", Reason::TooMany),
        ("NOT_GRANTABLE", Reason::NotGrantable),
        ("NOT_HELD", Reason::NotHeld),
        ("LIVE_CHILD", Reason::LiveChild),
        ("ONE_PREPARED", Reason::OnePrepared),
        ("CHILD_AT_WORK", Reason::ChildAtWork),
        ("NOT_TAKEN", Reason::ChildPrepares),
    ];
    for (name, reason) in reasons {
        let number = defined(&format!("NEKAHUIRO_{name}")) as u8;
        assert_eq!(Answer { number, value: 0 }.refusal(), Some(reason), "{name}");
        let text = reason.to_string();
        assert!(text.starts_with(&format!("refused {number}: ")) && !text.contains("unknown"), "{text}");
    }
    assert_eq!(defined("NEKAHUIRO_MANY_ROWS"), usize::from(Refusal::Rows.number()));
    for (name, refusal) in
        [("SHORT_LIST", Refusal::Output), ("BAD_SHEET", Refusal::Sheet), ("BAD_STATE", Refusal::State)]
    {
        assert_eq!(defined(&format!("NEKAHUIRO_{name}")), usize::from(refusal.number()), "{name}");
    }
    for stage in Stage::ALL {
        let name = format!("NEKAHUIRO_{}", stage.to_string().to_uppercase());
        assert_eq!(defined(&name), stage as usize, "{name}");
    }
    for message in Message::ALL {
        let name = format!("NEKAHUIRO_{}", message.to_string().to_uppercase().replace('-', "_"));
        assert_eq!(defined(&name), message as usize, "{name}");
    }
    for order in Order::ALL {
        let name = format!("NEKAHUIRO_ORDER_{}", order.to_string().to_uppercase());
        assert_eq!(defined(&name), order as usize, "{name}");
    }
}

#[test]
fn header_and_wrapper_lay_out_the_state_alike() {
    let header = header();
    let (_, after) = header.split_once("typedef struct nekahuiro_state {").expect("the state's struct");
    let (fields, _) = after.split_once("} nekahuiro_state;").expect("the end of the state's struct");
    let mut at = 0;
    let mut laid_out = Vec::new();
    for (declared, _) in fields.lines().filter_map(|line| line.split_once(';')) {
        let (kind, named) = declared.trim().split_once(' ').expect("a type and a name");
        let bytes = if kind == "uint32_t" { 4 } else { 1 };
        let number = |factor: &str| factor.parse().unwrap_or_else(|_| defined(factor));
        let (name, length) = match named.trim_end_matches(']').split_once('[') {
            Some((name, length)) => (name, length.split(" * ").map(number).product()),
            None => (named, 1),
        };
        laid_out.push((name, at, bytes * length));
        at += bytes * length;
    }
    assert_eq!((laid_out.as_slice(), at), (State::FIELDS, limits::STATE_BYTES));
}
