//! Job sheets, read in another way than the engine does it.
//!
//! A whole text is taken apart into a tree of jobs, which is then measured and listed. The place of a fault
//! is found by trying: the first byte after which no end that can be put to the text makes a sheet of it.

use crate::limits::{DEPTH_LIMIT, EVENTS, EVENT_BYTES, NO_PARENT};

/// Refused: the output is too short.
pub const SHORT_OUTPUT: u8 = 28;
/// Refused: the text is no sheet that is taken.
pub const BAD_SHEET: u8 = 29;
/// A commit's count.
const NO_CUT: u32 = 63;

/// How deep and how long sheets may be.
#[derive(Clone, Copy, Debug)]
pub struct Limits {
    /// Jobs within each other.
    pub depth: usize,
    /// Events of the list.
    pub events: usize,
}

/// The limits of the rules.
pub const LIMITS: Limits = Limits { depth: DEPTH_LIMIT as usize, events: EVENTS };

enum Step {
    Lock(u32),
    Write(u32, u32, u32),
    Read(u32, u32),
    Whole(Job),
}

struct Job {
    steps: Vec<Step>,
    commits: bool,
}

/// The list of a sheet, or the place of its fault.
///
/// ```
/// use nekahuiro_player::sheet::{read, LIMITS};
/// assert_eq!(read(b"{}", LIMITS), Ok(vec![0x1F, 0x80, 0, 0, 0x50, 0, 0x3F, 0]));
/// assert_eq!(read(b"{!}", LIMITS), Err(2));
/// ```
pub fn read(text: &[u8], limits: Limits) -> Result<Vec<u8>, usize> {
    taken(text, limits).map(|job| job.list()).ok_or_else(|| place(text, limits))
}

/// What a text makes of an output and of a number told: as C sees it.
pub fn sheet(text: &[u8], output: &mut [u8], told: &mut usize) -> u8 {
    if output.len() < EVENTS * EVENT_BYTES {
        return SHORT_OUTPUT;
    }
    match read(text, LIMITS) {
        Ok(list) => {
            output[..list.len()].copy_from_slice(&list);
            *told = list.len();
            0
        }
        Err(place) => {
            *told = place;
            BAD_SHEET
        }
    }
}

/// The job that a text is, if it is one within the limits.
fn taken(text: &[u8], limits: Limits) -> Option<Job> {
    whole(text).filter(|job| job.depth() <= limits.depth && job.events() <= limits.events)
}

/// The job that a text is, of any depth and length.
fn whole(text: &[u8]) -> Option<Job> {
    let mut open: Vec<Vec<Step>> = Vec::new();
    let mut rest = text;
    loop {
        let step;
        (step, rest) = match rest {
            [b'{', rest @ ..] => {
                open.push(Vec::new());
                (None, rest)
            }
            [end @ (b'}' | b'!'), rest @ ..] => {
                let job = Job { steps: open.pop()?, commits: *end == b'}' };
                if open.is_empty() {
                    return rest.is_empty().then_some(job);
                }
                (Some(Step::Whole(job)), rest)
            }
            [b'L', r, rest @ ..] => (Some(Step::Lock(hex(&[*r])?)), rest),
            [b'W', r, o, p, v, w, rest @ ..] => {
                (Some(Step::Write(hex(&[*r])?, offset(&[*o, *p])?, hex(&[*v, *w])?)), rest)
            }
            [b'R', r, o, p, rest @ ..] => (Some(Step::Read(hex(&[*r])?, offset(&[*o, *p])?)), rest),
            _ => return None,
        };
        if let Some(step) = step {
            open.last_mut()?.push(step);
        }
    }
}

/// The number that digits stand for: 0 to 9 and A to F, no others.
fn hex(digits: &[u8]) -> Option<u32> {
    digits.iter().try_fold(0, |number, digit| {
        let value = char::from(*digit).to_digit(16).filter(|_| !digit.is_ascii_lowercase())?;
        Some(16 * number + value)
    })
}

fn offset(digits: &[u8]) -> Option<u32> {
    hex(digits).filter(|offset| *offset <= 0x1F)
}

impl Job {
    fn depth(&self) -> usize {
        let inner = |step: &Step| if let Step::Whole(job) = step { job.depth() } else { 0 };
        1 + self.steps.iter().map(inner).max().unwrap_or(0)
    }

    fn events(&self) -> usize {
        let one = |step: &Step| if let Step::Whole(job) = step { job.events() } else { 1 };
        2 + self.steps.iter().map(one).sum::<usize>()
    }

    fn list(&self) -> Vec<u8> {
        let mut words = Vec::new();
        self.append(u32::from(NO_PARENT), 0, &mut words);
        words.into_iter().flat_map(u32::to_be_bytes).collect()
    }

    fn append(&self, parent: u32, number: u32, words: &mut Vec<u32>) {
        words.push(word(1, parent, 0, 0, 0, 0));
        for step in &self.steps {
            match step {
                Step::Lock(r) => words.push(word(2, number, *r, 0, 0, 0)),
                Step::Write(r, o, v) => words.push(word(3, number, *r, *o, 0, *v)),
                Step::Read(r, o) => words.push(word(4, number, *r, *o, 0, 0)),
                Step::Whole(job) => job.append(number, number + 1, words),
            }
        }
        words.push(if self.commits { word(5, number, 0, 0, NO_CUT, 0) } else { word(6, number, 0, 0, 0, 0) });
    }
}

fn word(kind: u32, transaction: u32, record: u32, offset: u32, count: u32, value: u32) -> u32 {
    kind << 28 | transaction << 23 | record << 19 | offset << 14 | count << 8 | value
}

/// The place of the first byte after which no taken sheet could follow; the length, if there is none.
fn place(text: &[u8], limits: Limits) -> usize {
    // What can't go on after some bytes can't after more, so that it can be halved.
    let (mut fine, mut bad) = (0, text.len() + 1);
    while fine + 1 < bad {
        let middle = (fine + bad) / 2;
        if follows(&text[..middle], limits) {
            fine = middle;
        } else {
            bad = middle;
        }
    }
    fine
}

/// Whether some end makes a taken sheet of a beginning: perhaps an opening brace, digits, then closing braces.
/// That no other end has to be tried is seen by going through all sheets of small limits.
fn follows(beginning: &[u8], limits: Limits) -> bool {
    let braces = beginning.iter().filter(|byte| **byte == b'{').count();
    let mut text = beginning.to_vec();
    for opening in [&b""[..], b"{"] {
        for digits in 0..=5 {
            for closings in 0..=braces.min(limits.depth) + 1 {
                text.truncate(beginning.len());
                text.extend(opening);
                text.extend(std::iter::repeat_n(b'0', digits));
                text.extend(std::iter::repeat_n(b'}', closings));
                if taken(&text, limits).is_some() {
                    return true;
                }
            }
        }
    }
    false
}
