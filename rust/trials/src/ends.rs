//! Two ends that commit together, over a network that loses, repeats and delays: the library's depot and
//! its gateway, which crashes between any two page writes.

use nekahuiro::limits::COUNT_LIMIT;
use nekahuiro::{
    vote, Answer, CommitPage, Depot, Event, Identity, Message, Order, Record, Stage, State, Store, Transaction, Work,
};
use nekahuiro_lists::{stores, Rng};
use std::collections::BTreeMap;

/// What is asked before an identity is given.
#[derive(Clone, Copy, Debug, PartialEq, Eq)]
pub struct Premise {
    /// No message with it is under way.
    pub quiet: bool,
    /// No transaction is prepared with it.
    pub unused: bool,
}

/// Both halves, as the rules ask.
pub const FULL: Premise = Premise { quiet: true, unused: true };

/// Something that an end does wrong, to show that it is found.
#[derive(Clone, Copy, Debug, PartialEq, Eq)]
pub enum Slip {
    /// The depot aborts on a no although it has committed.
    DepotChangesItsMind,
    /// The depot gives up although it has committed.
    DepotGivesUpLate,
    /// The gateway aborts what is prepared when it comes up, without an order.
    GatewayAbortsAlone,
    /// The gateway takes an order for whatever is prepared.
    GatewayMixesIdentities,
}

impl Slip {
    /// All of them.
    pub const ALL: [Slip; 4] =
        [Slip::DepotChangesItsMind, Slip::DepotGivesUpLate, Slip::GatewayAbortsAlone, Slip::GatewayMixesIdentities];
}

/// What came of a simulation.
#[derive(Clone, Copy, Debug, Default)]
pub struct Tally {
    /// Identities given.
    pub rounds: u64,
    /// Transactions that both ends committed.
    pub committed: u64,
    /// Transactions that both ends aborted.
    pub aborted: u64,
    /// Events that a crash cut.
    pub cuts: u64,
}

impl Tally {
    /// Adds another.
    pub fn add(&mut self, other: Tally) {
        self.rounds += other.rounds;
        self.committed += other.committed;
        self.aborted += other.aborted;
        self.cuts += other.cuts;
    }
}

/// A message under way.
#[derive(Clone, Copy, Debug, PartialEq, Eq)]
enum Sent {
    ToGateway(Order),
    ToDepot(Message),
}

/// An identity and which time it is given.
type Round = (u8, u32);

/// How things go, in percent.
struct Weather {
    /// Messages that are lost.
    lost: usize,
    /// Messages that come again after they came.
    repeated: usize,
    /// Page writes that are cut.
    cuts: usize,
}

struct World<'w> {
    rng: &'w mut Rng,
    weather: Weather,
    premise: Premise,
    slip: Option<Slip>,
    tally: Tally,
    /// What happened, in words.
    log: Vec<String>,
    /// The identities in use.
    identities: &'static [u8],
    depots: BTreeMap<u8, Depot>,
    /// The last round of each identity.
    rounds: BTreeMap<u8, u32>,
    /// Messages in no order.
    network: Vec<(u8, Sent)>,
    store: Store,
    state: State,
    work: Work,
    /// Whose transaction is prepared at the gateway; none also for one that was prepared before.
    prepared: Option<Round>,
    /// What the depot decided: to commit or not.
    ruled: BTreeMap<Round, bool>,
    /// What the gateway stored.
    obeyed: BTreeMap<Round, bool>,
}

const IDENTITIES: [u8; 3] = [7, 0, 255];

/// Lets both ends work for a while: what came of it, or how they came to hold opposite decisions.
pub fn simulate(rng: &mut Rng, premise: Premise, slip: Option<Slip>, steps: usize) -> Result<Tally, String> {
    let start = match rng.below(4) {
        0 => stores::prepared(rng, 0x8000, 7),
        1 => stores::committed(rng, 0x9000),
        _ => stores::fresh(),
    };
    let weather =
        Weather { lost: rng.one_of([0, 10, 40]), repeated: rng.one_of([0, 30, 70]), cuts: rng.one_of([5, 30, 60]) };
    let identities = 1 + rng.below(IDENTITIES.len());
    let mut world = World {
        rng,
        weather,
        premise,
        slip,
        tally: Tally::default(),
        log: Vec::new(),
        identities: &IDENTITIES[..identities],
        depots: BTreeMap::new(),
        rounds: BTreeMap::new(),
        network: Vec::new(),
        store: Store::of(&start).map_err(|refusal| refusal.to_string())?,
        state: State::new(),
        work: Work::new(),
        prepared: None,
        ruled: BTreeMap::new(),
        obeyed: BTreeMap::new(),
    };
    for _ in 0..steps {
        world.step()?;
    }
    Ok(world.tally)
}

impl World<'_> {
    fn step(&mut self) -> Result<(), String> {
        let identity = self.rng.pick(self.identities).copied().unwrap_or(0);
        match self.rng.below(100) {
            0..=9 => self.start(identity)?,
            10 => self.depot(identity, Message::GiveUp)?,
            11..=44 => self.deliver()?,
            45..=49 => self.lose(),
            50..=54 => self.gateway(Event::Query { identity: Identity(identity) })?,
            55 => self.gateway(Event::Crash)?,
            _ => self.works()?,
        }
        Ok(())
    }

    /// The depot's board gives an identity, if the premise allows it.
    fn start(&mut self, identity: u8) -> Result<(), String> {
        let quiet = !self.network.iter().any(|(about, _)| *about == identity);
        let unused = self.waiting() != Some(Identity(identity));
        if (self.premise.quiet && !quiet) || (self.premise.unused && !unused) {
            return Ok(());
        }
        self.depot(identity, Message::Start)
    }

    /// A message comes to the depot; what it replies is sent.
    fn depot(&mut self, identity: u8, message: Message) -> Result<(), String> {
        let depot = self.depots.entry(identity).or_default();
        let reply = match (self.slip, depot.stage(), message) {
            (Some(Slip::DepotChangesItsMind), Stage::Committed, Message::No)
            | (Some(Slip::DepotGivesUpLate), Stage::Committed, Message::GiveUp) => {
                *depot = Depot::at(Stage::Aborted);
                Ok(Order::Abort)
            }
            _ => depot.receive(message),
        };
        let Ok(order) = reply else { return Ok(()) };
        self.log.push(format!("depot {identity}: {message}, now {}, replies {order}", depot.stage()));
        let round = self.rounds.entry(identity).or_default();
        match order {
            Order::Prepare => {
                *round += 1;
                self.tally.rounds += 1;
            }
            Order::Commit | Order::Abort => {
                let round = (identity, *round);
                self.hold(round, order == Order::Commit, true)?;
            }
        }
        self.network.push((identity, Sent::ToGateway(order)));
        Ok(())
    }

    /// One message comes, whichever; it may come again.
    fn deliver(&mut self) -> Result<(), String> {
        if self.network.is_empty() {
            return Ok(());
        }
        let at = self.rng.below(self.network.len());
        let (identity, sent) = self.network[at];
        if !self.rng.percent(self.weather.repeated) {
            self.network.swap_remove(at);
        }
        match sent {
            Sent::ToDepot(message) => self.depot(identity, message),
            Sent::ToGateway(order) => self.ordered(identity, order),
        }
    }

    fn lose(&mut self) {
        let lost = self.weather.lost;
        // Where nothing is repeated or lost, old messages must still go some time.
        let all = self.rng.percent(5);
        let rng = &mut *self.rng;
        self.network.retain(|_| !all && !rng.percent(lost));
    }

    /// The gateway follows an order: its board chooses the transaction and when the power goes.
    fn ordered(&mut self, identity: u8, order: Order) -> Result<(), String> {
        let (transaction, count) = (self.ready(), self.count(6));
        let identity = match (self.slip, self.waiting()) {
            (Some(Slip::GatewayMixesIdentities), Some(waiting)) => waiting,
            _ => Identity(identity),
        };
        self.gateway(match order {
            Order::Prepare => Event::Prepare { transaction, count, identity },
            Order::Commit => Event::Decide { commit: true, count, identity },
            Order::Abort => Event::Decide { commit: false, count, identity },
        })
    }

    /// The gateway's own work, so that there is something to prepare.
    fn works(&mut self) -> Result<(), String> {
        if !self.state.is_up() {
            let count = self.count(4);
            self.gateway(Event::Recover { count })?;
            return match (self.slip, self.waiting()) {
                (Some(Slip::GatewayAbortsAlone), Some(identity)) => {
                    self.gateway(Event::Decide { commit: false, count, identity })
                }
                _ => Ok(()),
            };
        }
        let (transaction, count) = (self.someone(), self.count(8));
        let Some(record) = Record::new(self.rng.below(3) as u8) else { return Ok(()) };
        let (offset, value) = (self.rng.below(3) as u8, self.rng.byte());
        let top = Event::Begin { parent: Transaction::NONE };
        let event = match self.rng.below(20) {
            0 => top,
            1 => Event::Begin { parent: transaction },
            2..=7 => Event::Lock { transaction, record },
            8..=16 => {
                let holders =
                    Record::all().flat_map(|record| self.state.write_holders(record).map(move |t| (t, record)));
                let holders: Vec<(Transaction, Record)> = holders.collect();
                let (transaction, record) = self.rng.pick(&holders).copied().unwrap_or((transaction, record));
                Event::Write { transaction, record, offset, value }
            }
            17 => Event::Abort { transaction, report: false },
            _ => Event::Commit { transaction, count },
        };
        let none_live = self.state.live().next().is_none();
        self.gateway(if none_live { top } else { event })
    }

    /// Plays an event at the gateway and sends its vote, if it has one.
    fn gateway(&mut self, event: Event) -> Result<(), String> {
        let answers = self.store.portion(&mut self.state, &mut self.work, &[event]);
        let answers = answers.map_err(|refusal| format!("{}\n{event}: {refusal}", self.told()))?;
        let answer = answers.first().copied().unwrap_or(Answer { number: 0, value: 0 });
        self.log.push(format!("gateway: {event}: {answer}"));
        self.tally.cuts += u64::from(answer.is_cut());
        match event {
            Event::Prepare { identity: Identity(identity), .. } if answer.number == 0 && answer.value > 0 => {
                self.prepared = self.rounds.get(&identity).map(|round| (identity, *round));
            }
            Event::Decide { commit, .. } if answer.is_accepted() && answer.value > 0 => {
                if let Some(round) = self.prepared.take() {
                    self.hold(round, commit, false)?;
                }
            }
            _ => {}
        }
        if let (Some(message), Some(identity)) = (vote(&event, answer), identity_of(event)) {
            self.network.push((identity, Sent::ToDepot(message)));
        }
        Ok(())
    }

    /// One end holds a decision; the other may not hold the opposite.
    fn hold(&mut self, round: Round, commit: bool, by_depot: bool) -> Result<(), String> {
        let (own, others) = match by_depot {
            true => (&mut self.ruled, &self.obeyed),
            false => (&mut self.obeyed, &self.ruled),
        };
        let before = own.insert(round, commit);
        let other = others.get(&round).copied();
        if before.is_some_and(|before| before != commit) || other.is_some_and(|other| other != commit) {
            let who = if by_depot { "depot" } else { "gateway" };
            return Err(format!("{}\nthe {who} holds the opposite for {round:?}", self.told()));
        }
        if before.is_none() && other.is_some() {
            self.tally.committed += u64::from(commit);
            self.tally.aborted += u64::from(!commit);
        }
        Ok(())
    }

    /// The identity that is prepared at the gateway.
    fn waiting(&self) -> Option<Identity> {
        match self.store.commit_page() {
            CommitPage::Prepared(_, identity) => Some(identity),
            _ => None,
        }
    }

    fn someone(&mut self) -> Transaction {
        let live: Vec<Transaction> = self.state.live().collect();
        let top = Transaction::new(0).unwrap_or(Transaction::NONE);
        self.rng.pick(&live).copied().unwrap_or(top)
    }

    /// Mostly a top transaction that changed a record.
    fn ready(&mut self) -> Transaction {
        let changed = |t: &Transaction| Record::all().any(|record| self.state.writers(record).any(|w| w == *t));
        let top = |t: &Transaction| self.state.parent(*t).is_none();
        let ready: Vec<Transaction> = self.state.live().filter(|t| top(t) && changed(t)).collect();
        let anyone = self.someone();
        self.rng.pick(&ready).copied().filter(|_| self.rng.percent(90)).unwrap_or(anyone)
    }

    /// Mostly large; else any count below the writes that may be due.
    fn count(&mut self, due: usize) -> u8 {
        if self.rng.percent(self.weather.cuts) {
            self.rng.below(due) as u8
        } else {
            COUNT_LIMIT
        }
    }

    fn told(&self) -> String {
        self.log.join("\n")
    }
}

fn identity_of(event: Event) -> Option<u8> {
    match event {
        Event::Prepare { identity, .. } | Event::Query { identity } => Some(identity.0),
        _ => None,
    }
}
