//! `--expect FILE`: the answers that should be given, two bytes each.

use crate::failure::{Failure, Outcome, Status};
use crate::files::{cant_read, read_up_to};
use nekahuiro::limits::ANSWER_BYTES;
use nekahuiro::Answer;

/// More than the answers of any list that is read.
const LIMIT: usize = 1 << 28;

/// Reads the expected answers.
pub fn read(name: &str) -> Outcome<Vec<Answer>> {
    let missing = "check the name; it should be a file that --answers wrote";
    let bytes = read_up_to(name, LIMIT).map_err(|error| cant_read(name, &error, missing))?;
    if bytes.len() % ANSWER_BYTES != 0 {
        let reason = format!("{name} has {} bytes, which is no whole number of answers", bytes.len());
        return Err(Failure::refused(&reason, "name a file that --answers wrote, two bytes each"));
    }
    Ok(bytes.chunks_exact(ANSWER_BYTES).map(|pair| Answer::of([pair[0], pair[1]])).collect())
}

/// Fails at the first answer that isn't the expected one; `event` tells an event in words.
pub fn compare(name: &str, expected: &[Answer], answers: &[Answer], event: &dyn Fn(usize) -> String) -> Outcome {
    let mend = "look at the list, at the store before it, or at the expected answers";
    let differs = |reason: &str| Err(Failure::with(Status::OtherAnswers, reason, mend));
    let hex = |answer: &Answer| format!("{:02X}{:02X}", answer.number, answer.value);
    for (at, (found, due)) in answers.iter().zip(expected).enumerate() {
        if found != due {
            let event = event(at);
            let reason =
                format!("event {}, {event}: the answer is {}, and {name} has {}", at + 1, hex(found), hex(due));
            return Err(Failure::with(Status::OtherAnswers, &reason, &format!("{found} and not {due}; {mend}")));
        }
    }
    if answers.len() != expected.len() {
        return differs(&format!("there are {} answers, and {name} has {}", answers.len(), expected.len()));
    }
    Ok(())
}
