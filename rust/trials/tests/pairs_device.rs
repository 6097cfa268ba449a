//! A device over a medium that tears, whose power goes at every copy write: before it, within it and behind it. What the
//! medium holds is what the rules say of the list that stands for what happened; and laying down.

use nekahuiro::limits::{ANSWER_BYTES, PAGES};
use nekahuiro::pairs::{CopyWrite, Device, Half, Medium, Session, Store};
use nekahuiro::{Event, Fault, Fields, Identity, Page, Reason, Transact};
use nekahuiro_lists::stores::pairs::{all_bad, even, fresh, uneven};
use nekahuiro_lists::{stores, Rng};
use nekahuiro_trials::forms::copies::store;
use nekahuiro_trials::forms::events::{crash, words};
use nekahuiro_trials::forms::{random, run_of, Case, Form, Pairs, Program};
use nekahuiro_trials::portions::{rng, share};
use nekahuiro_trials::settings;
use std::sync::atomic::{AtomicU64, Ordering};

/// What becomes of the copy write at which the power goes.
#[derive(Clone, Copy, Debug, PartialEq, Eq)]
enum Fate {
    NotBegun,
    LeftBad,
    Made,
}

const FATES: [Fate; 3] = [Fate::NotBegun, Fate::LeftBad, Fate::Made];

/// After how many copy writes the power goes, counted from the restart before, and what becomes of the next.
type Cut = (usize, Fate);

/// A medium in memory whose power goes.
struct Tearing {
    held: Store,
    cut: Option<Cut>,
    made: usize,
}

#[derive(Clone, Copy, Debug, PartialEq, Eq)]
struct PowerGone;

impl Medium for Tearing {
    type Error = PowerGone;

    fn program(&mut self, page: u8, half: Half, bytes: &Page) -> Result<(), PowerGone> {
        let write = CopyWrite { page, half, bytes: *bytes };
        match self.cut {
            Some((left, fate)) if left == self.made => {
                match fate {
                    Fate::NotBegun => {}
                    Fate::LeftBad => self.held.spoil(&write),
                    Fate::Made => self.held.make(&write),
                }
                return Err(PowerGone);
            }
            _ => self.held.make(&write),
        }
        self.made += 1;
        Ok(())
    }
}

/// A device, and the list of events that stands for what happened to it.
struct Life {
    device: Device<Tearing>,
    start: Vec<u8>,
    cuts: Vec<Cut>,
    failures: usize,
    list: Vec<Fields>,
    /// None where the power went before it was told.
    answers: Vec<Option<[u8; ANSWER_BYTES]>>,
}

impl Life {
    fn new(start: &[u8], cuts: &[Cut]) -> Life {
        let medium = Tearing { held: store(start), cut: cuts.first().copied(), made: 0 };
        let device = Device::new(medium, store(start));
        let (list, answers) = (Vec::new(), Vec::new());
        Life { device, start: start.to_vec(), cuts: cuts.to_vec(), failures: 0, list, answers }
    }

    /// Copy writes that mend the medium before an event.
    fn mends(&self, event: Event) -> usize {
        match (event, self.device.session()) {
            (Event::Recover { .. }, Some(session)) if !session.state().is_up() => session.store().mends().len(),
            _ => 0,
        }
    }

    /// Plays an event; where the power goes it comes back, and the device recovers, cut or not.
    fn play(&mut self, event: Event) -> Result<(), String> {
        let mends = self.mends(event);
        match self.device.play(event) {
            Ok(answer) => self.note(event.uncut().fields(), Some(answer.bytes())),
            Err(Fault::Refused(reason)) => self.note(event.uncut().fields(), Some([reason.number(), 0])),
            Err(Fault::Medium { made, error: PowerGone }) => {
                if self.device.play(event) != Err(Fault::Failed) {
                    return Err("a device that failed plays on".to_string());
                }
                let fate = self.cuts[self.failures].1;
                // While it was mended, the recover hadn't begun: it is mended again at the next.
                if let Some(behind) = usize::from(made).checked_sub(mends) {
                    self.note(cut_at(event.fields(), behind, fate), None);
                }
                self.note(crash(), None);
                self.failures += 1;
                let cut = self.cuts.get(self.failures).copied();
                let medium = self.device.medium_mut();
                (medium.cut, medium.made) = (cut, 0);
                let read = medium.held.clone();
                self.device.restart(read);
                return self.play(Event::Recover { count: 0 });
            }
            Err(Fault::Failed) => return Err("a device that didn't fail says that it did".to_string()),
        }
        Ok(())
    }

    fn note(&mut self, event: Fields, answer: Option<[u8; ANSWER_BYTES]>) {
        self.list.push(event);
        self.answers.push(answer);
    }

    /// The medium must be what the rules say of that list, by the player and by demand 3; the device's copy must be the
    /// medium, and its answers the player's.
    fn check(&self) -> Result<(), String> {
        let medium = &self.device.medium().held;
        if self.device.session().map(Session::store) != Some(medium) {
            return Err("the copy isn't the medium".to_string());
        }
        let case = Case { store: self.start.clone(), events: words::<Pairs>(&self.list) };
        let due = Program::Player.play::<Pairs>(&case, 0);
        if due.store != medium.bytes() {
            return Err(format!("the medium isn't the player's store after {:?}", self.list));
        }
        for (at, (told, due)) in self.answers.iter().zip(due.answers.chunks_exact(ANSWER_BYTES)).enumerate() {
            if told.is_some_and(|told| told != due) {
                return Err(format!("event {at}: {told:02X?}, the player's {due:02X?}, in {:?}", self.list));
            }
        }
        if !Pairs::HISTORY.premise(&self.start) {
            return Ok(());
        }
        let told = Pairs::HISTORY.first_half(run_of::<Pairs>(&case, &due));
        told.map(drop).map_err(|breach| format!("{breach:?} in {:?}", self.list))
    }
}

/// The same event cut behind so many copy writes, with what became of the next.
fn cut_at(event: Fields, behind: usize, fate: Fate) -> Fields {
    let behind = behind + usize::from(fate == Fate::Made);
    let value = match (fate, behind % 2) {
        (Fate::LeftBad, 0) => 1,
        (Fate::LeftBad, _) => 2,
        (_, 0) => 0,
        (_, _) => 3,
    };
    Fields { count: (behind / 2) as u8, value, ..event }
}

fn life(start: &[u8], events: &[Event], cuts: &[Cut]) -> Result<Life, String> {
    let mut life = Life::new(start, cuts);
    events.iter().try_for_each(|event| life.play(*event))?;
    life.check().map(|()| life)
}

/// Every cut of a list, and of all that comes after it, so many times one after the other. How many lives.
fn explore(start: &[u8], events: &[Event], cuts: &mut Vec<Cut>, deeper: usize) -> Result<u64, String> {
    let whole = life(start, events, cuts).map_err(|text| format!("cut at {cuts:?}: {text}"))?;
    let mut lives = 1;
    let places = if deeper == 0 { 0 } else { whole.device.medium().made };
    for cut in (0..places).flat_map(|place| FATES.map(|fate| (place, fate))) {
        cuts.push(cut);
        lives += explore(start, events, cuts, deeper - 1)?;
        cuts.pop();
    }
    Ok(lives)
}

fn events(list: &str) -> Vec<Event> {
    list.split(',').map(|line| line.parse().unwrap_or_else(|bad| panic!("{line}: {bad}"))).collect()
}

#[test]
fn cut_at_every_copy_write() {
    let mut rng = Rng::new(3);
    let nested = "recover, begin none, begin 0, lock 1 0, write 1 0 0 11, commit 1, commit 0, begin none, lock 0 0, \
        write 0 0 0 33, commit 0";
    let two = "recover, begin none, lock 0 2, write 0 2 0 11, lock 0 5, write 0 5 1 22, commit 0, begin none, \
        read-lock 0 2, read 0 2 0";
    let torn = uneven(&mut rng, even(&stores::committed(&mut Rng::new(2), 0x9001)), 30);
    let rows = [
        (fresh(), nested, 2),
        (even(&stores::used(&mut rng)), two, 2),
        (torn.clone(), "recover, crash, recover, begin none, lock 0 15, write 0 15 0 44, commit 0", 2),
        (even(&stores::committed(&mut rng, 0x0001)), "recover", 4),
        (all_bad(&mut rng, torn, 20), "recover, begin none, recover", 2),
        (even(&stores::prepared(&mut rng, 0x4002, 7)), "recover, query 7", 2),
    ];
    let mut lives = 0;
    for (start, list, deep) in rows {
        lives += explore(&start, &events(list), &mut Vec::new(), deep).unwrap_or_else(|text| panic!("{text}"));
    }
    println!("lives of a device that tears: {lives}, cut before, within and behind every copy write up to four times");
}

#[test]
fn random_lives() {
    let (count, cut) = (settings::lists() / 100, AtomicU64::new(0));
    let failure = share(count, |number| {
        let mut rng = rng(65, number);
        let case = random::case::<Pairs>(settings::seed() + 65, number);
        let words = case.events.chunks_exact(4).take(400).map(|word| [word[0], word[1], word[2], word[3]]);
        let list: Vec<Event> = words.filter_map(Event::of).collect();
        let often = rng.one_of([2, 5, 12, 40]);
        let cuts: Vec<Cut> = (0..40).map(|_| (rng.below(often), rng.one_of(FATES))).collect();
        let lived = life(&case.store, &list, &cuts)?;
        cut.fetch_add(lived.failures as u64, Ordering::Relaxed);
        Ok(())
    });
    assert_eq!(failure, None, "seed {}", settings::seed());
    println!("random lives of a device that tears: {count}, in which the power went {cut:?} times");
}

#[test]
fn laying_down_cut_at_every_copy_write() {
    let mut rng = Rng::new(7);
    let (writes, virgin) = (2 * (PAGES + 1), vec![0xFF; fresh().len()]);
    let used = uneven(&mut rng, even(&stores::used(&mut Rng::new(1))), 30);
    let committed = even(&stores::committed(&mut rng, 0x1234));
    for start in [used, committed, virgin] {
        let settled = Pairs::HISTORY.premise(&start).then(|| Pairs::HISTORY.settled(&start));
        for (place, fate) in (0..writes).flat_map(|place| FATES.map(|fate| (place, fate))) {
            let medium = Tearing { held: store(&start), cut: Some((place, fate)), made: 0 };
            let mut device = Device::new(medium, Store::fresh());
            assert_eq!(device.lay_down(), Err(Fault::Medium { made: place as u8, error: PowerGone }));
            // As it was until the first copy of page 0 is zeros; fresh once it says empty.
            let begun = place > 0 || fate == Fate::Made;
            let done = place == writes - 1 || (place == writes - 2 && fate == Fate::Made);
            let held = device.medium().held.clone();
            let recovered = Session::new(held.clone()).recover();
            match (begun, &settled) {
                (false, Some(settled)) => assert_eq!(Pairs::HISTORY.settled(held.bytes()), *settled),
                (true, _) if done => assert_eq!(recovered, Ok(0)),
                _ => assert_eq!(recovered, Err(Reason::Damaged), "{place}, {fate:?}"),
            }
            device.medium_mut().cut = None;
            assert_eq!(device.lay_down(), Ok(()));
            assert_eq!((device.medium().held.bytes()[..] == fresh(), device.recover()), (true, Ok(0)));
        }
    }
}

/// Nothing can be prepared, and a refused recover mends nothing.
#[test]
fn what_a_device_refuses() {
    let damaged = all_bad(&mut Rng::new(1), uneven(&mut Rng::new(2), fresh(), 100), 12);
    let medium = Tearing { held: store(&damaged), cut: None, made: 0 };
    let mut device = Device::new(medium, store(&damaged));
    assert_eq!(device.recover(), Err(Fault::Refused(Reason::Damaged)));
    assert_eq!((device.medium().made, &device.medium().held.bytes()[..]), (0, &damaged[..]));
    device.lay_down().unwrap();
    device.recover().unwrap();
    let top = device.begin(None).unwrap();
    let refused = Err(Fault::Refused(Reason::BadEvent));
    assert_eq!(device.prepare(top, Identity(1)), refused);
    assert_eq!((device.decide(true, Identity(1)), device.query(Identity(1)).map(u8::from)), (refused, refused));
}
