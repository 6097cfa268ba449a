//! The depot: the end that asks, decides once for each identity it gives, and keeps to it; and the vote by
//! which the gateway, the end with the store, answers it.

use crate::answer::{Answer, Refusal};
use crate::{raw, Event};
use std::fmt;

/// How far the depot is with an identity.
#[derive(Clone, Copy, Debug, PartialEq, Eq, Hash)]
pub enum Stage {
    /// The identity was never given.
    Idle,
    /// The gateway was asked to prepare, and nothing is decided.
    Asked,
    /// Decided: commit.
    Committed,
    /// Decided: abort.
    Aborted,
}

/// What comes to the depot for an identity: from its own board, or as a vote from the gateway.
#[derive(Clone, Copy, Debug, PartialEq, Eq, Hash)]
pub enum Message {
    /// The board gives the identity. None of its messages may be under way any more, and no transaction
    /// may be prepared with it.
    Start,
    /// The gateway votes yes.
    Yes,
    /// The gateway votes no.
    No,
    /// The board waits no longer.
    GiveUp,
}

/// What the depot replies: an order to the gateway.
#[derive(Clone, Copy, Debug, PartialEq, Eq, Hash)]
pub enum Order {
    /// Prepare a transaction with the identity.
    Prepare,
    /// The decision: commit.
    Commit,
    /// The decision: abort.
    Abort,
}

impl Stage {
    /// All of them, in the order of their bytes.
    pub const ALL: [Stage; 4] = [Stage::Idle, Stage::Asked, Stage::Committed, Stage::Aborted];
}

impl Message {
    /// All of them, in the order of their bytes.
    pub const ALL: [Message; 4] = [Message::Start, Message::Yes, Message::No, Message::GiveUp];
}

impl Order {
    /// All of them, in the order of their bytes.
    pub const ALL: [Order; 3] = [Order::Prepare, Order::Commit, Order::Abort];
}

/// The depot's state for one identity. It must outlast power cuts, as the store does.
///
/// ```
/// use nekahuiro::{Depot, Message, Order, Refusal, Stage};
/// let mut depot = Depot::new();
/// assert_eq!(depot.receive(Message::Yes), Err(Refusal::Message)); // nothing was asked
/// assert_eq!(depot.receive(Message::Start), Ok(Order::Prepare));
/// assert_eq!(depot.receive(Message::GiveUp), Ok(Order::Abort));
/// assert_eq!(depot.receive(Message::Yes), Ok(Order::Abort)); // too late: it keeps to its decision
/// assert_eq!(depot.stage(), Stage::Aborted);
/// ```
#[derive(Clone, Copy, Debug, PartialEq, Eq, Hash)]
pub struct Depot {
    stage: Stage,
}

impl Depot {
    /// The depot for an identity that was never given.
    pub const fn new() -> Depot {
        Depot { stage: Stage::Idle }
    }

    /// The depot that is so far.
    pub const fn at(stage: Stage) -> Depot {
        Depot { stage }
    }

    /// The depot in this byte, if there is one: 0 idle, 1 asked, 2 committed, 3 aborted.
    pub fn of(byte: u8) -> Option<Depot> {
        Stage::ALL.get(usize::from(byte)).map(|stage| Depot { stage: *stage })
    }

    /// Its byte, to be kept.
    pub const fn byte(self) -> u8 {
        self.stage as u8
    }

    /// How far it is.
    pub const fn stage(self) -> Stage {
        self.stage
    }

    /// Takes a message and gives the reply. A refused message has no effect.
    pub fn receive(&mut self, message: Message) -> Result<Order, Refusal> {
        let (mut state, mut reply) = (self.byte(), 0);
        let number = raw::depot(&mut state, message as u8, &mut reply);
        match (number, Depot::of(state), Order::ALL.get(usize::from(reply))) {
            (0, Some(next), Some(order)) => {
                *self = next;
                Ok(*order)
            }
            (0, _, _) => Err(Refusal::Other(0)),
            (number, _, _) => Err(Refusal::of(number)),
        }
    }
}

impl Default for Depot {
    fn default() -> Depot {
        Depot::new()
    }
}

/// The vote that the gateway sends after an event with its answer: yes if a prepare is done or a query
/// says that the identity is prepared, no for any other answer to these; none after any other event.
pub fn vote(event: &Event, answer: Answer) -> Option<Message> {
    match raw::vote(event.fields().kind, answer.number, answer.value) {
        1 => Some(Message::Yes),
        2 => Some(Message::No),
        _ => None,
    }
}

impl fmt::Display for Stage {
    fn fmt(&self, f: &mut fmt::Formatter) -> fmt::Result {
        f.write_str(match self {
            Stage::Idle => "idle",
            Stage::Asked => "asked",
            Stage::Committed => "committed",
            Stage::Aborted => "aborted",
        })
    }
}

impl fmt::Display for Message {
    fn fmt(&self, f: &mut fmt::Formatter) -> fmt::Result {
        f.write_str(match self {
            Message::Start => "start",
            Message::Yes => "yes",
            Message::No => "no",
            Message::GiveUp => "give-up",
        })
    }
}

impl fmt::Display for Order {
    fn fmt(&self, f: &mut fmt::Formatter) -> fmt::Result {
        f.write_str(match self {
            Order::Prepare => "prepare",
            Order::Commit => "commit",
            Order::Abort => "abort",
        })
    }
}
