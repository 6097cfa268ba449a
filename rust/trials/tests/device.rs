//! A device over a medium that fails at every page write: what it holds is what the rules say of the list that
//! stands for what happened; laying down; and sessions by name.

use nekahuiro::limits::{EVENT_BYTES, PAGES, STORE_BYTES};
use nekahuiro::{Device, Event, Fault, Identity, Reason, Record, Refusal, Session, State, Store, Transact, Work};
use nekahuiro_lists::stores::{self, Bytes};
use nekahuiro_lists::Rng;
use nekahuiro_trials::lives::{store, Failing, Life, PowerGone};
use nekahuiro_trials::portions::{rng, share};
use nekahuiro_trials::{listed, random, settings};
use std::sync::atomic::{AtomicU64, Ordering};

fn events(list: &str) -> Vec<Event> {
    listed::words(list)
        .chunks_exact(EVENT_BYTES)
        .filter_map(|word| Event::of([word[0], word[1], word[2], word[3]]))
        .collect()
}

fn life(start: Bytes, events: &[Event], cuts: &[usize], made_yet: bool) -> Result<Life, String> {
    let mut life = Life::new(start, cuts, made_yet);
    events.iter().try_for_each(|event| life.play(*event))?;
    life.check().map(|()| life)
}

/// Every cut of a list, and of all that comes after it, so many times one after the other. How many lives.
fn explore(
    start: Bytes,
    events: &[Event],
    cuts: &mut Vec<usize>,
    deeper: usize,
    made_yet: bool,
) -> Result<u64, String> {
    let whole = life(start, events, cuts, made_yet).map_err(|text| format!("cut after {cuts:?}: {text}"))?;
    let mut lives = 1;
    for cut in 0..if deeper == 0 { 0 } else { whole.made() } {
        cuts.push(cut);
        lives += explore(start, events, cuts, deeper - 1, made_yet)?;
        cuts.pop();
    }
    Ok(lives)
}

#[test]
fn cut_at_every_page_write() {
    let mut rng = Rng::new(3);
    let nested = "recover 63, begin none, begin 0, lock 1 0, write 1 0 0 11, commit 1 63, begin 0, lock 1 1, \
        write 1 1 31 22, commit 1 63, commit 0 63, begin none, lock 0 0, write 0 0 0 33, commit 0 63";
    let aborted = "recover 63, begin none, lock 0 2, write 0 2 0 11, begin 0, lock 1 1, write 1 1 0 22, abort 1, \
        commit 0 63, begin none, read-lock 0 2, read 0 2 0";
    let decided =
        "recover 63, begin none, lock 0 2, write 0 2 0 11, lock 0 5, write 0 5 0 22, prepare 0 63 7, query 7, \
        decide commit 63 7, begin none, lock 0 2, write 0 2 1 33, prepare 0 63 8, decide abort 63 8";
    let started = "recover 63, crash, recover 63, begin none, lock 0 15, write 0 15 0 44, commit 0 63";
    let rows = [
        (stores::fresh(), nested, 3),
        (stores::used(&mut rng), aborted, 4),
        (stores::used(&mut rng), decided, 3),
        (stores::committed(&mut rng, 0x9001), started, 3),
        (stores::committed(&mut rng, 0xFFFF), "recover 63", 3),
        (stores::prepared(&mut rng, 0x4002, 7), "recover 63, decide commit 63 7, query 7", 4),
        (stores::damaged(&mut rng, 2), started, 2),
    ];
    let mut lives = 0;
    for (start, list, deep) in rows {
        for made_yet in [false, true] {
            lives +=
                explore(start, &events(list), &mut Vec::new(), deep, made_yet).unwrap_or_else(|text| panic!("{text}"));
        }
    }
    println!("lives of a device: {lives}, cut at every page write up to four times one after the other");
}

#[test]
fn random_lives() {
    let (count, cut) = (settings::lists() / 50, AtomicU64::new(0));
    let failure = share(count, |number| {
        let mut rng = rng(43, number);
        let case = random::case(settings::seed() + 43, number);
        let words = case.events.chunks_exact(EVENT_BYTES).take(500);
        let list: Vec<Event> = words.filter_map(|word| Event::of([word[0], word[1], word[2], word[3]])).collect();
        let often = rng.one_of([2, 5, 12, 40]);
        let cuts: Vec<usize> = (0..40).map(|_| rng.below(often)).collect();
        let lived = life(case.store, &list, &cuts, rng.percent(50))?;
        cut.fetch_add(lived.failures() as u64, Ordering::Relaxed);
        Ok(())
    });
    assert_eq!(failure, None, "seed {}", settings::seed());
    println!("random lives of a device: {count}, in which the power went {cut:?} times");
}

#[test]
fn laying_down_cut_at_every_page_write() {
    let mut rng = Rng::new(7);
    let before = [
        stores::used(&mut rng),
        stores::committed(&mut rng, 0x1234),
        stores::damaged(&mut rng, 3),
        [0xFF; STORE_BYTES],
    ];
    for (start, made_yet, cut) in
        before.iter().flat_map(|start| (0..=PAGES + 1).map(move |cut| (start, cut % 2 == 0, cut)))
    {
        let mut device = Device::new(Failing::new(*start, Some(cut), made_yet), Store::fresh());
        let writes = PAGES + 1;
        let due = if cut == writes { Ok(()) } else { Err(Fault::Medium { made: cut as u8, error: PowerGone }) };
        assert_eq!(device.lay_down(), due);
        let made = if cut == writes { cut } else { cut + usize::from(made_yet) };
        let held = device.medium().bytes;
        let mut session = Session::new(store(&held));
        match made {
            0 => assert_eq!(held, *start),
            made if made == writes => assert_eq!((held, session.recover()), (stores::fresh(), Ok(0))),
            _ => assert_eq!(session.recover(), Err(Reason::Damaged)),
        }
        device.medium_mut().left = None;
        assert_eq!(device.lay_down(), Ok(()));
        assert_eq!((device.medium().bytes, device.recover()), (stores::fresh(), Ok(0)));
    }
}

#[test]
fn every_refusal_by_name() {
    let record = |number| Record::new(number).unwrap();
    let mut session = Session::new(store(&stores::damaged(&mut Rng::new(1), 2)));
    assert_eq!(session.recover(), Err(Reason::Damaged));
    let mut session = Session::new(Store::fresh());
    assert_eq!(session.begin(None), Err(Reason::Down));
    assert_eq!(session.recover(), Ok(0));
    assert_eq!(session.recover(), Err(Reason::Up));
    let top = session.begin(None).unwrap();
    let child = session.begin(Some(top)).unwrap();
    assert_eq!(session.put(top, record(3), &[1; 32]), Err(Reason::ChildAtWork));
    assert_eq!(session.commit(top), Err(Reason::LiveChild));
    assert_eq!(session.prepare(child, Identity(1)), Err(Reason::ChildPrepares));
    session.put(child, record(3), &[1; 32]).unwrap();
    let other = session.begin(None).unwrap();
    assert_eq!(session.get(other, record(3)), Err(Reason::NotGrantable));
    assert_eq!(session.play("write 2 4 0 11".parse().unwrap()), Err(Reason::NotHeld));
    session.commit(child).unwrap();
    assert_eq!(session.commit(child), Err(Reason::NotLive));
    assert_eq!(session.get(top, record(3)), Ok([1; 32]));
    assert_eq!(session.prepare(top, Identity(9)), Ok(2));
    assert_eq!((session.query(Identity(9)), session.query(Identity(8))), (Ok(true), Ok(false)));
    session.put(other, record(4), &[2; 32]).unwrap();
    assert_eq!(session.commit(other), Err(Reason::OnePrepared));
    assert_eq!((session.decide(false, Identity(8)), session.decide(true, Identity(9))), (Ok(0), Ok(3)));
    assert_eq!(session.store().settled(record(3)), [1; 32]);
    session.abort(other).unwrap();
    let mut deepest = session.begin(None).unwrap();
    for _ in 1..16 {
        deepest = session.begin(Some(deepest)).unwrap();
    }
    assert_eq!(session.begin(Some(deepest)), Err(Reason::TooDeep));
    while let Ok(_more) = session.begin(None) {}
    assert_eq!(session.begin(None), Err(Reason::TooMany));
    assert_eq!(session.state().live().count(), 24);
    for number in 0..=255 {
        assert_eq!(Reason::of(number).number(), number);
        assert!(Reason::of(number).to_string().starts_with(&format!("refused {number}: ")));
    }
}

#[test]
fn a_session_is_put_away_and_goes_on() {
    let record = Record::new(5).unwrap();
    let mut session = Session::new(Store::fresh());
    session.recover().unwrap();
    let top = session.begin(None).unwrap();
    session.put(top, record, &[7; 32]).unwrap();
    session.abort_with_report(top).unwrap();
    let top = session.begin(None).unwrap();
    session.put(top, record, &[8; 32]).unwrap();
    let commit: Event = "commit 0 3".parse().unwrap();
    assert_eq!(session.page_write(commit, 3).map(|write| write.page), Some(0));
    assert_eq!(session.page_write(commit, 4), None);
    let (store, mut state, work) = session.into_parts();
    let mut again = Session::resume(store.clone(), state.clone(), work.clone()).unwrap();
    assert!(again.play(commit).unwrap().is_cut());
    assert!(!again.state().is_up());
    assert_eq!(again.recover(), Ok(2));
    assert_eq!(again.store().settled(record), [8; 32]);
    state.depth[7] = 3;
    assert!(matches!(Session::resume(store, state, work), Err(Refusal::State)));
    assert!(Session::resume(Store::fresh(), State::new(), Work::new()).is_ok());
}

#[test]
fn a_fault_in_words() {
    let refused: Fault<&str> = Reason::Down.into();
    assert_eq!(refused.to_string(), "refused 2: the store is down: recover first");
    let failed = Fault::Medium { made: 1, error: "worn out" };
    assert_eq!(failed.to_string(), "the medium failed after 1 write: worn out");
    assert!(Fault::<&str>::Failed.to_string().contains("restart"));
}
