//! Both ends in every order: all that can happen to one identity that is given a few times, with every loss,
//! repeat, delay and power cut, on the library's own depot and gateway.

use crate::ends::Premise;
use crate::lent;
use nekahuiro::limits::EVENT_BYTES;
use nekahuiro::{vote, Answer, CommitPage, Depot, Event, Identity, Message, Order, State, Store, Transaction, Work};
use std::collections::HashMap;

const IDENTITY: Identity = Identity(7);
/// How often the identity is given.
const ROUNDS: usize = 2;
/// What the gateway's board may do: change two records, commit, crash and come up, and ask.
const OWN: &str = "begin none, lock 0 0, write 0 0 0 A5, lock 0 1, write 0 1 0 5A, commit 0 2, commit 0 63, abort 0, \
    crash, recover 0, recover 1, recover 63, query 7";

/// What was found.
#[derive(Clone, Copy, Debug, Default)]
pub struct Found {
    /// Worlds.
    pub worlds: usize,
    /// States of the gateway among them.
    pub gateways: usize,
    /// Worlds in which both ends have committed in the same round.
    pub committed: usize,
    /// Worlds in which both ends have aborted in the same round.
    pub aborted: usize,
}

/// Messages that may still come, as a set: what is repeated at will need not be counted.
#[derive(Clone, Copy, Debug, PartialEq, Eq, Hash)]
enum Sent {
    ToGateway(Order),
    ToDepot(Message),
}

const SENT: [Sent; 5] = [
    Sent::ToGateway(Order::Prepare),
    Sent::ToGateway(Order::Commit),
    Sent::ToGateway(Order::Abort),
    Sent::ToDepot(Message::Yes),
    Sent::ToDepot(Message::No),
];

/// A decision: none, to commit or to abort.
type Decision = Option<bool>;

#[derive(Clone, Copy, Debug, PartialEq, Eq, Hash)]
struct World {
    gateway: usize,
    depot: Depot,
    network: [bool; SENT.len()],
    round: usize,
    /// The round in which what is prepared at the gateway was prepared.
    prepared: Option<usize>,
    /// What the depot decided in each round.
    ruled: [Decision; ROUNDS + 1],
    /// What the gateway stored.
    obeyed: [Decision; ROUNDS + 1],
}

impl World {
    fn send(mut self, sent: Sent) -> World {
        SENT.iter().zip(&mut self.network).filter(|(one, _)| **one == sent).for_each(|(_, place)| *place = true);
        self
    }

    fn agrees(&self) -> bool {
        let opposite = |(one, two): (&Decision, &Decision)| one.is_some() && two.is_some() && one != two;
        !self.ruled.iter().zip(&self.obeyed).any(opposite)
    }

    fn both(&self, commit: bool) -> bool {
        let due = Some(commit);
        self.ruled.iter().zip(&self.obeyed).any(|(one, two)| *one == due && *two == due)
    }
}

/// The gateway's states, each once, and where an event leads.
#[derive(Default)]
struct Gateways {
    all: Vec<(Store, State, Work)>,
    places: HashMap<Vec<u8>, usize>,
    moves: HashMap<(usize, [u8; EVENT_BYTES]), (usize, Answer)>,
}

impl Gateways {
    fn place(&mut self, store: Store, state: State, mut work: Work) -> usize {
        // Only versions of live transactions have a say.
        for (byte, taken) in work.bytes_mut().iter_mut().zip(lent::taken(&state)) {
            *byte = if taken { *byte } else { 0 };
        }
        let key = [&store.bytes()[..], &state.bytes(), &work.bytes()[..]].concat();
        let next = self.all.len();
        let place = *self.places.entry(key).or_insert(next);
        if place == next {
            self.all.push((store, state, work));
        }
        place
    }

    fn play(&mut self, from: usize, event: Event) -> Result<(usize, Answer), String> {
        if let Some(known) = self.moves.get(&(from, event.word())) {
            return Ok(*known);
        }
        let (mut store, mut state, mut work) = self.all[from].clone();
        let answers = store.portion(&mut state, &mut work, &[event]).map_err(|refusal| refusal.to_string())?;
        let answer = *answers.first().ok_or("an event without an answer")?;
        let to = self.place(store, state, work);
        self.moves.insert((from, event.word()), (to, answer));
        Ok((to, answer))
    }

    fn is_prepared(&self, place: usize) -> bool {
        matches!(self.all[place].0.commit_page(), CommitPage::Prepared(_, IDENTITY))
    }

    fn has_live(&self, place: usize) -> bool {
        self.all[place].1.live().next().is_some()
    }
}

/// Everything that can happen from a store with nothing in it: what was found, or the shortest way to
/// opposite decisions.
pub fn search(premise: Premise) -> Result<Found, String> {
    let mut gateways = Gateways::default();
    let first = World {
        gateway: gateways.place(Store::fresh(), State::new(), Work::new()),
        depot: Depot::new(),
        network: [false; SENT.len()],
        round: 0,
        prepared: None,
        ruled: [None; ROUNDS + 1],
        obeyed: [None; ROUNDS + 1],
    };
    let own: Vec<Event> = OWN.split(',').map(str::parse).collect::<Result<_, _>>().map_err(|bad| format!("{bad}"))?;
    // Each world with where it comes from and how.
    let mut worlds = vec![(first, 0, String::new())];
    let mut known = HashMap::from([(first, 0)]);
    let mut found = Found::default();
    let mut at = 0;
    while at < worlds.len() {
        let world = worlds[at].0;
        found.committed += usize::from(world.both(true));
        found.aborted += usize::from(world.both(false));
        for (next, how) in moves(&mut gateways, &own, premise, world)? {
            if known.contains_key(&next) {
                continue;
            }
            known.insert(next, worlds.len());
            worlds.push((next, at, how));
            if !next.agrees() {
                return Err(way(&worlds, worlds.len() - 1));
            }
        }
        at += 1;
    }
    Ok(Found { worlds: worlds.len(), gateways: gateways.all.len(), ..found })
}

/// How a world came about.
fn way(worlds: &[(World, usize, String)], to: usize) -> String {
    let back = std::iter::successors(Some(to), |at| (*at != 0).then(|| worlds[*at].1));
    let mut told: Vec<&str> = back.map(|at| worlds[at].2.as_str()).collect();
    told.reverse();
    format!("{}\n{:?}", told.join("\n"), worlds[to].0)
}

fn moves(
    gateways: &mut Gateways,
    own: &[Event],
    premise: Premise,
    world: World,
) -> Result<Vec<(World, String)>, String> {
    let mut next = Vec::new();
    let quiet = !world.network.contains(&true);
    let may_start = (quiet || !premise.quiet) && (!gateways.is_prepared(world.gateway) || !premise.unused);
    if may_start && world.round < ROUNDS {
        next.extend(depot(world, Message::Start));
    }
    next.extend(depot(world, Message::GiveUp));
    for event in own {
        // One transaction at a time is enough.
        if !(matches!(event, Event::Begin { .. }) && gateways.has_live(world.gateway)) {
            next.push(gateway(gateways, world, *event)?);
        }
    }
    for (at, sent) in SENT.into_iter().enumerate().filter(|(at, _)| world.network[*at]) {
        let mut lost = world;
        lost.network[at] = false;
        next.push((lost, format!("{sent:?} is lost")));
        match sent {
            Sent::ToDepot(message) => next.extend(depot(world, message)),
            Sent::ToGateway(order) => {
                // Two changed records make four page writes at most.
                for count in 0..=4 {
                    next.push(gateway(gateways, world, following(order, count))?);
                }
            }
        }
    }
    Ok(next)
}

/// The event by which the gateway follows an order; its transactions all bear number 0.
fn following(order: Order, count: u8) -> Event {
    let (transaction, identity) = (Transaction::new(0).unwrap_or(Transaction::NONE), IDENTITY);
    match order {
        Order::Prepare => Event::Prepare { transaction, count, identity },
        Order::Commit => Event::Decide { commit: true, count, identity },
        Order::Abort => Event::Decide { commit: false, count, identity },
    }
}

/// A message comes to the depot; a refused one has no effect.
fn depot(mut world: World, message: Message) -> Option<(World, String)> {
    let order = world.depot.receive(message).ok()?;
    match order {
        Order::Prepare => world.round += 1,
        Order::Commit | Order::Abort => world.ruled[world.round] = Some(order == Order::Commit),
    }
    let how = format!("depot: {message}, now {}, replies {order}", world.depot.stage());
    Some((world.send(Sent::ToGateway(order)), how))
}

fn gateway(gateways: &mut Gateways, mut world: World, event: Event) -> Result<(World, String), String> {
    let (to, answer) = gateways.play(world.gateway, event)?;
    world.gateway = to;
    match event {
        Event::Prepare { .. } if answer.number == 0 && answer.value > 0 => world.prepared = Some(world.round),
        Event::Decide { commit, .. } if answer.is_accepted() && answer.value > 0 => {
            if let Some(round) = world.prepared.take() {
                world.obeyed[round] = Some(commit);
            }
        }
        _ => {}
    }
    if let Some(message) = vote(&event, answer) {
        world = world.send(Sent::ToDepot(message));
    }
    Ok((world, format!("gateway: {event}: {answer}")))
}
