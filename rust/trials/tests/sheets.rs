//! Job sheets: what is taken, the place of a fault, the list, and the list played.

use nekahuiro::limits::{DEPTH_LIMIT, EVENTS, LIST_BYTES};
use nekahuiro::{raw, sheet_words, Answer, Event};
use nekahuiro_lists::{sheets, stores, Rng};
use nekahuiro_player::sheet::{read, Limits, LIMITS};
use nekahuiro_trials::portions::Board;
use nekahuiro_trials::settings;
use nekahuiro_trials::sheets::{compare, compare_all};
use std::collections::HashSet;

/// The place at which a text is bad.
fn place(text: &str) -> usize {
    compare(text.as_bytes()).unwrap();
    sheet_words(text.as_bytes()).expect_err(text).place
}

/// How many events a text becomes.
fn events(text: &str) -> usize {
    compare(text.as_bytes()).unwrap();
    sheet_words(text.as_bytes()).expect("a sheet").len() / 4
}

fn hex(words: &[u8]) -> String {
    words
        .chunks_exact(4)
        .map(|w| format!("{:08X}", u32::from_be_bytes([w[0], w[1], w[2], w[3]])))
        .collect::<Vec<_>>()
        .join(" ")
}

#[test]
fn lists_of_sheets() {
    let rows = [
        ("{}", "1F800000 50003F00"),
        ("{!", "1F800000 60000000"),
        ("{L3W302A5R302}", "1F800000 20180000 301880A5 40188000 50003F00"),
        ("{{L3}!", "1F800000 10000000 20980000 50803F00 60000000"),
        ("{LFWF1FFFRF1F}", "1F800000 20780000 307FC0FF 407FC000 50003F00"),
        ("{{}{!}", "1F800000 10000000 50803F00 10000000 60800000 50003F00"),
    ];
    for (text, words) in rows {
        assert_eq!(compare(text.as_bytes()), Ok(0));
        assert_eq!(hex(&sheet_words(text.as_bytes()).unwrap()), words, "{text}");
    }
}

#[test]
fn places_of_faults() {
    let rows = [
        ("", 0),
        ("{L", 2),
        ("{L}", 2),
        ("{W32", 3),
        ("{W320", 3),
        ("{a", 1),
        ("{La}", 2),
        ("{l3}", 1),
        ("{LG}", 2),
        ("{R3", 3),
        ("{R320", 3),
        ("{R3F", 3),
        ("{W300", 5),
        ("{W300A", 6),
        ("{W300AG", 6),
        ("{!}", 2),
        ("{}}", 2),
        ("{}{}", 2),
        ("{} ", 2),
        ("{}\n", 2),
        (" {}", 0),
        ("}", 0),
        ("!", 0),
        ("L3", 0),
        ("{ L3}", 1),
        ("{L 3}", 2),
        ("{{}", 3),
        ("{L3", 3),
        ("{\u{FC}}", 1),
    ];
    for (text, due) in rows {
        assert_eq!(place(text), due, "{text:?}");
    }
}

#[test]
fn depth_and_length_end_where_they_should() {
    let deep = |depth: usize| "{".repeat(depth) + &"}".repeat(depth);
    assert_eq!(events(&deep(DEPTH_LIMIT)), 2 * DEPTH_LIMIT);
    assert_eq!(place(&deep(DEPTH_LIMIT + 1)), DEPTH_LIMIT);
    // 4,094 locks between begin and commit; the next is bad at its letter.
    let locks = |count: usize| format!("{{{}}}", "L0".repeat(count));
    assert_eq!(events(&locks(EVENTS - 2)), EVENTS);
    assert_eq!(place(&locks(EVENTS - 1)), 8189);
    // One event is free: a lock fits, a brace doesn't, since it needs its end too.
    let one_free = format!("{{{}", "L0".repeat(EVENTS - 3));
    assert_eq!(events(&format!("{one_free}L0}}")), EVENTS);
    assert_eq!(place(&format!("{one_free}{{")), one_free.len());
    assert_eq!(events(&format!("{}{{}}}}", &one_free[..one_free.len() - 2])), EVENTS);
    // Within others each end that is due counts.
    let nested = format!("{{{{{{{}", "R000".repeat(EVENTS - 6));
    assert_eq!(events(&format!("{nested}}}!}}")), EVENTS);
    for letter in ["L0", "W00000", "R000", "{"] {
        assert_eq!(place(&format!("{nested}{letter}")), nested.len(), "{letter}");
    }
    // Where no event is free the place is the byte that can't stand there, not the missing end.
    assert_eq!(place(&nested), nested.len());
    assert_eq!(place(&format!("{nested}}}!}}}}")), nested.len() + 3);
}

#[test]
fn an_output_that_is_too_short_is_refused_first() {
    for text in ["{}", "", "{a", "{L3W302A5R302}"] {
        for length in [0, 1, 19, LIST_BYTES - 1] {
            let (mut output, mut told) = (vec![0x99; length], 77);
            assert_eq!(raw::sheet(text.as_bytes(), &mut output, &mut told), 28, "{text}, {length}");
            assert!(told == 77 && output.iter().all(|byte| *byte == 0x99), "{text}, {length}");
        }
    }
    let (mut output, mut told) = ([0x99; LIST_BYTES], 77);
    assert_eq!((raw::sheet(b"{}", &mut output, &mut told), told), (0, 8));
    assert!(output[8..].iter().all(|byte| *byte == 0x99));
    assert_eq!((raw::sheet(b"{LFF", &mut output, &mut told), told), (29, 3));
    assert_eq!(output[..8], [0x1F, 0x80, 0, 0, 0x50, 0, 0x3F, 0]);
}

#[test]
fn random_sheets_whole_and_spoilt() {
    let (seed, count) = (settings::seed(), settings::sheets());
    let tally = compare_all(count, |number| {
        let mut rng = Rng::new(seed ^ number.wrapping_mul(0xD6E8_FEB8_6659_FD93));
        let (size, depth) = (rng.below(24), 1 + rng.below(18));
        let mut text = sheets::whole(&mut rng, size, depth);
        for _ in 0..rng.below(3) {
            text = sheets::spoilt(&mut rng, &text);
        }
        text
    });
    println!("random sheets: {} taken, {} bad, no difference", tally.taken, tally.bad);
    assert!(tally.taken > count / 5 && tally.bad > count / 5);
}

#[test]
fn random_sheets_about_the_longest() {
    let seed = settings::seed();
    let tally = compare_all(settings::sheets() / 1000, |number| {
        let mut rng = Rng::new(seed.wrapping_add(number));
        let (size, depth) = (rng.below(40), 1 + rng.below(18));
        let tail = sheets::whole(&mut rng, size, depth);
        // Locks in front, so many that the whole has about 4,096 events.
        let mut text = b"{".to_vec();
        text.extend(b"L0".repeat(EVENTS - 2 * size.max(4) + rng.below(2 * size.max(4))));
        text.extend(&tail[1..]);
        if rng.percent(30) {
            text = sheets::spoilt(&mut rng, &text);
        }
        text
    });
    println!("random sheets about the longest: {} taken, {} bad, no difference", tally.taken, tally.bad);
    assert!(tally.taken > 0 && tally.bad > 0);
}

#[test]
fn every_short_text() {
    const LETTERS: &[u8] = b"{}!LWR012Aa";
    let length = settings::length(6);
    let all = |length: usize| (LETTERS.len() as u64).pow(length as u32);
    let mut texts = 0;
    for length in 0..=length {
        let tally = compare_all(all(length), |mut number| {
            let mut text = Vec::new();
            for _ in 0..length {
                text.push(LETTERS[(number % LETTERS.len() as u64) as usize]);
                number /= LETTERS.len() as u64;
            }
            text
        });
        texts += tally.taken + tally.bad;
    }
    println!("every text of up to {length} of {} letters: {texts}, no difference", LETTERS.len());
}

/// Every lock, read and write with the digits 0 and 2, which can't begin an offset.
fn steps(letters: &str) -> Vec<Vec<u8>> {
    let digits = |letter| match letter {
        'L' => "?".to_string(),
        'R' => "?0?".to_string(),
        _ => "?0???".to_string(),
    };
    let mut all = Vec::new();
    for letter in letters.chars() {
        let mut rows = vec![vec![letter as u8]];
        for digit in digits(letter).bytes() {
            let choices: &[u8] = if digit == b'?' { b"02" } else { b"0" };
            rows = rows.iter().flat_map(|row| choices.iter().map(|digit| [&row[..], &[*digit]].concat())).collect();
        }
        all.extend(rows);
    }
    all
}

/// Every transaction within the limits, with its number of events, by building all of them.
fn transactions(limits: Limits, letters: &str) -> Vec<(Vec<u8>, usize)> {
    if limits.depth == 0 || limits.events < 2 {
        return Vec::new();
    }
    let inner = transactions(Limits { depth: limits.depth - 1, events: limits.events - 2 }, letters);
    let steps: Vec<(Vec<u8>, usize)> = steps(letters).into_iter().map(|step| (step, 1)).chain(inner).collect();
    let mut rows = vec![(b"{".to_vec(), 2)];
    let mut all = Vec::new();
    while let Some((text, used)) = rows.pop() {
        for (step, more) in steps.iter().filter(|(_, more)| used + more <= limits.events) {
            rows.push(([&text[..], step].concat(), used + more));
        }
        all.extend([b'}', b'!'].map(|end| ([&text[..], &[end]].concat(), used)));
    }
    all
}

#[test]
fn the_place_by_going_through_all_sheets_of_small_limits() {
    for (depth, events, letters) in [(1, 2, "LRW"), (1, 4, "LRW"), (2, 5, "LRW"), (3, 6, "LR"), (4, 9, "L")] {
        let limits = Limits { depth, events };
        let sheets: Vec<Vec<u8>> = transactions(limits, letters).into_iter().map(|(text, _)| text).collect();
        let taken: HashSet<&[u8]> = sheets.iter().map(Vec::as_slice).collect();
        let beginnings: HashSet<&[u8]> =
            sheets.iter().flat_map(|text| (0..=text.len()).map(|end| &text[..end])).collect();
        let mut rng = Rng::new(7);
        for number in 0..60_000 {
            let mut text = rng.pick(&sheets).expect("a sheet").clone();
            for _ in 0..number % 3 {
                text = sheets::spoilt(&mut rng, &text);
            }
            // Only steps and digits that the sheets were built with.
            let other = |byte: &u8| {
                matches!(byte, b'1' | b'3'..=b'9' | b'A'..=b'F')
                    || b"LRW".contains(byte) && !letters.as_bytes().contains(byte)
            };
            if text.iter().any(other) {
                continue;
            }
            let fine = (0..=text.len()).rev().find(|end| beginnings.contains(&text[..*end])).unwrap_or(0);
            match read(&text, limits) {
                Ok(_) => assert!(taken.contains(&text[..]), "{limits:?}: {}", String::from_utf8_lossy(&text)),
                Err(place) => {
                    assert!(
                        !taken.contains(&text[..]) && place == fine,
                        "{limits:?}: {}, at {place}",
                        String::from_utf8_lossy(&text)
                    )
                }
            }
        }
    }
    assert_eq!((LIMITS.depth, LIMITS.events), (16, 4096));
}

#[test]
fn a_list_keeps_in_step() {
    let mut met = [0; 2];
    for number in 0..settings::sheets() / 20 {
        let mut rng = Rng::new(settings::seed() ^ number << 20);
        let (is_prepared, map) = (rng.percent(40), 1 << rng.below(16));
        let store = if is_prepared { stores::prepared(&mut rng, map, 7) } else { stores::used(&mut rng) };
        let mut board = Board::new(store, &mut rng);
        board.play(&[0x80, 0, 0x3F, 0]).unwrap();
        let (size, depth) = (rng.below(40), 1 + rng.below(16));
        let text = sheets::whole(&mut rng, size, depth);
        let words = sheet_words(&text).unwrap();
        let answers = board.play(&words).unwrap();
        for (word, answer) in words.chunks_exact(4).zip(answers.chunks_exact(2)) {
            let (event, answer) =
                (Event::of([word[0], word[1], word[2], word[3]]).unwrap(), Answer::of([answer[0], answer[1]]));
            match event {
                Event::Begin { parent } => {
                    let due = if parent.number() == 31 { 0 } else { parent.number() + 1 };
                    assert_eq!(answer, Answer { number: 0, value: due });
                }
                Event::Commit { transaction, .. } if transaction.number() == 0 => {
                    met[usize::from(answer.number == 13)] += 1;
                    assert!(answer.number == 0 || is_prepared && answer == Answer { number: 13, value: 0 }, "{answer}");
                }
                Event::Commit { .. } | Event::Abort { .. } => assert_eq!(answer, Answer { number: 0, value: 0 }),
                _ => {}
            }
        }
    }
    println!("sheets played: {} top commits done, {} met 13", met[0], met[1]);
    assert!(met[0] > 0 && met[1] > 0);
}
