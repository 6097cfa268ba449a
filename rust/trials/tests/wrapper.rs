//! The wrapper takes anything without a panic, and its words and words of bits agree.

use nekahuiro::{describe, why_bad, Answer, CommitPage, Event, Fields, Refusal, Store, Transaction};
use nekahuiro_lists::Rng;
use nekahuiro_player::event::decode;

#[test]
fn every_word_is_taken_apart_and_put_together() {
    let mut rng = Rng::new(4);
    for round in 0..2_000_000u32 {
        // All kinds and transactions in the high bits; few low bits, so that good words come up.
        let bits = (round << 23) | (rng.bits() as u32 & rng.bits() as u32 & rng.bits() as u32 & 0x007F_FFFF);
        let word = bits.to_be_bytes();
        assert_eq!(Fields::of(word).word(), word);
        assert_eq!(Event::of(word).is_some(), decode(word).is_some(), "{bits:08X}");
        assert_eq!(why_bad(word).is_none(), Event::of(word).is_some());
        if let Some(event) = Event::of(word) {
            assert_eq!(event.word(), word);
            assert_eq!(describe(word).parse(), Ok(event));
        }
    }
}

#[test]
fn junk_text_is_an_error_with_a_reason_and_a_mend() {
    let parts = [
        "begin",
        "lock",
        "write",
        "none",
        "",
        "0",
        "31",
        "32",
        "-1",
        "+1",
        "99999999999",
        "A5",
        "ü",
        "\0",
        "63",
        "recover",
        "prepare",
        "decide",
        "query",
        "commit",
        "256",
    ];
    let mut rng = Rng::new(6);
    for _ in 0..100_000 {
        let line: Vec<&str> = (0..rng.below(7)).filter_map(|_| rng.pick(&parts).copied()).collect();
        if let Err(bad) = line.join(" ").parse::<Event>() {
            assert!(!bad.reason.is_empty() && !bad.mend.is_empty());
        }
    }
}

#[test]
fn prepare_decide_and_query_in_words() {
    let rows = [
        ("prepare 3 2 7", 0x9180_0207),
        ("decide commit 1 255", 0xA000_41FF),
        ("Decide ABORT 63 0", 0xA000_3F00),
        ("query 42", 0xB000_002A),
    ];
    for (words, bits) in rows {
        let event: Event = words.parse().unwrap();
        assert_eq!(event.word(), u32::to_be_bytes(bits), "{words}");
        assert_eq!(event.to_string(), words.to_lowercase());
    }
    let bad = [
        "prepare 3",
        "prepare 3 256",
        "prepare 3 2 256",
        "prepare 3 64 0",
        "prepare 3 2 7 1",
        "decide 1 2",
        "decide commit",
        "decide maybe 1 2",
        "query",
        "query A5",
    ];
    for bad in bad {
        assert!(bad.parse::<Event>().is_err(), "{bad}");
    }
    assert_eq!(why_bad([0xA0, 0, 0x80, 0]).unwrap(), "decide with offset 2: there are 1 to commit and 0 to abort");
}

#[test]
fn a_count_that_is_left_out_is_63() {
    let rows = [
        ("commit 1", "commit 1 63"),
        ("recover", "recover 63"),
        ("prepare 3 7", "prepare 3 63 7"),
        ("decide commit 7", "decide commit 63 7"),
        ("decide abort 0", "decide abort 63 0"),
    ];
    for (short, whole) in rows {
        let event: Event = short.parse().unwrap();
        assert_eq!(event.to_string(), whole);
        assert_eq!(whole.parse(), Ok(event));
    }
    for bad in ["commit", "commit 1 64", "commit 1 2 3", "recover 1 2", "recover x"] {
        assert!(bad.parse::<Event>().is_err(), "{bad}");
    }
}

#[test]
fn any_bytes_can_be_played() {
    let mut rng = Rng::new(8);
    for _ in 0..2_000 {
        let length = rng.below(200);
        let words: Vec<u8> = (0..length).map(|_| rng.byte()).collect();
        let mut store = Store::of(&[rng.byte(); 1056]).unwrap();
        match store.play_words(&words) {
            Ok(answers) => assert!(length % 4 == 0 && answers.len() == length / 4),
            Err(refusal) => assert!(length % 4 != 0 && refusal == Refusal::List),
        }
    }
    let long = vec![Event::Crash; 4097];
    assert_eq!(Store::fresh().play(&long), Err(Refusal::List));
}

#[test]
fn every_number_has_words() {
    for number in 0..=255 {
        let answer = Answer { number, value: 1 };
        assert!(!answer.to_string().is_empty());
        assert_eq!(answer.refusal().is_none(), answer.is_accepted());
        assert_eq!(Refusal::of(number).number(), number);
        assert!(!Refusal::of(number).to_string().is_empty());
    }
    assert_eq!(Store::of(&[0; 5]), Err(Refusal::Store));
    assert_eq!(Store::fresh().commit_page(), CommitPage::Empty);
    assert_eq!(Store::fresh().page(33), [0; 32]);
    assert_eq!(Event::Begin { parent: Transaction::NONE }.to_string(), "begin none");
}
