//! Random job sheets, whole and spoilt.

use crate::Rng;

/// What a spoilt sheet may have: what sheets have, and what is near it.
const BYTES: [u8; 27] = *b"{}!LWR0123489ABEFGalwr@/: \n";

/// A sheet with about so many events, at most so deep.
pub fn whole(rng: &mut Rng, events: usize, depth: usize) -> Vec<u8> {
    let (mut text, mut open) = (vec![b'{'], 1);
    for _ in 0..events {
        match rng.below(10) {
            0 | 1 if open < depth => {
                text.push(b'{');
                open += 1;
            }
            2 if open > 1 => {
                text.push(end(rng));
                open -= 1;
            }
            3..=5 => step(rng, b'L', 1, false, &mut text),
            6 | 7 => step(rng, b'W', 5, true, &mut text),
            _ => step(rng, b'R', 3, true, &mut text),
        }
    }
    for _ in 0..open {
        text.push(end(rng));
    }
    text
}

/// The sheet with a byte changed, put in or taken out, cut short or gone on with.
pub fn spoilt(rng: &mut Rng, text: &[u8]) -> Vec<u8> {
    let mut text = text.to_vec();
    let place = rng.below(text.len() + 1);
    match rng.below(5) {
        0 if place < text.len() => text[place] = byte(rng),
        1 if place < text.len() => {
            text.remove(place);
        }
        2 => text.truncate(place),
        3 => {
            for _ in 0..=rng.below(3) {
                text.push(byte(rng));
            }
        }
        _ => text.insert(place, byte(rng)),
    }
    text
}

fn byte(rng: &mut Rng) -> u8 {
    if rng.percent(5) {
        rng.byte()
    } else {
        rng.one_of(BYTES)
    }
}

fn end(rng: &mut Rng) -> u8 {
    rng.one_of(*b"}}!")
}

fn step(rng: &mut Rng, letter: u8, digits: usize, offset: bool, text: &mut Vec<u8>) {
    text.push(letter);
    for place in 0..digits {
        let limit = if offset && place == 1 { 2 } else { 16 };
        text.push(b"0123456789ABCDEF"[rng.below(limit)]);
    }
}
