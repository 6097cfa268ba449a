//! The depot's table and the gateway's vote, for all bytes.

use nekahuiro::{raw, vote, Answer, Depot, Event, Message, Order, Refusal, Stage};

/// State by message: the next state and the reply, none where the message is refused.
const TABLE: [[Option<(Stage, Order)>; 4]; 4] = {
    use {Order::*, Stage::*};
    const START: Option<(Stage, Order)> = Some((Asked, Prepare));
    const COMMITTED: Option<(Stage, Order)> = Some((Stage::Committed, Commit));
    const ABORTED: Option<(Stage, Order)> = Some((Stage::Aborted, Abort));
    [
        [START, None, None, None],
        [None, COMMITTED, ABORTED, ABORTED],
        [START, COMMITTED, COMMITTED, None],
        [START, ABORTED, ABORTED, None],
    ]
};

#[test]
fn the_table() {
    for (stage, row) in Stage::ALL.into_iter().zip(TABLE) {
        for (message, due) in Message::ALL.into_iter().zip(row) {
            let mut depot = Depot::of(stage as u8).unwrap();
            assert_eq!(depot.stage(), stage);
            let reply = depot.receive(message);
            match due {
                Some((next, order)) => assert_eq!((reply, depot.stage()), (Ok(order), next), "{stage}, {message}"),
                None => assert_eq!((reply, depot.stage()), (Err(Refusal::Message), stage), "{stage}, {message}"),
            }
        }
    }
    assert_eq!(Depot::of(4), None);
    assert_eq!(Depot::default().stage(), Stage::Idle);
}

#[test]
fn any_other_byte_is_refused_and_nothing_is_written() {
    for state in 0..=255u8 {
        for message in 0..=255u8 {
            let (mut after, mut reply) = (state, 0x99);
            let number = raw::depot(&mut after, message, &mut reply);
            let row = TABLE.get(usize::from(state)).and_then(|row| row.get(usize::from(message)).copied().flatten());
            match row {
                Some((next, order)) => assert_eq!((number, after, reply), (0, next as u8, order as u8)),
                None => assert_eq!((number, after, reply), (27, state, 0x99), "state {state}, message {message}"),
            }
        }
    }
}

#[test]
fn the_vote_for_all_bytes() {
    for kind in 0..=255u8 {
        for number in 0..=255u8 {
            for value in [0, 1, 2, 3, 17, 254, 255] {
                let due = match kind {
                    9 if number == 0 => 1,
                    11 if number == 0 && value == 1 => 1,
                    9 | 11 => 2,
                    _ => 0,
                };
                assert_eq!(raw::vote(kind, number, value), due, "kind {kind}, answer {number}, {value}");
            }
        }
    }
    let events =
        ["prepare 0 63 7", "query 7", "decide commit 63 7", "commit 0 63"].map(|e| e.parse::<Event>().unwrap());
    let votes = |number, value| events.map(|event| vote(&event, Answer { number, value }));
    assert_eq!(votes(0, 1), [Some(Message::Yes), Some(Message::Yes), None, None]);
    assert_eq!(votes(0, 0), [Some(Message::Yes), Some(Message::No), None, None]);
    assert_eq!(votes(11, 1), [Some(Message::No), Some(Message::No), None, None]);
    assert_eq!(votes(2, 0), [Some(Message::No), Some(Message::No), None, None]);
}
