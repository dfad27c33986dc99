//! Seeded worlds and lists of calls.

use std::collections::BTreeSet;

use oracle::run::{self, Driver, SharedWorld};
use world::bus::Resource;
use world::calls::{self, Call};
use world::plan::Plan;
use world::results::{Closing, Given, Outcome, Stop};
use world::trace::{Event, Trace};
use world::OTHER_LIST;

/// How many seeds are run: 3,000, or what the environment variable SEEDS says.
fn seeds() -> u64 {
    std::env::var("SEEDS").map_or(3_000, |n| n.parse().expect("a number of seeds"))
}

fn session(seed: u64) -> (SharedWorld, Driver, Vec<(Call, Outcome<Given>)>) {
    let (world, mut driver) = run::in_world(Plan::seeded(seed));
    let mut given = Vec::new();
    run::list(&world, &mut driver, &calls::seeded(seed), |call, outcome| given.push((call.clone(), outcome)));
    (world, driver, given)
}

/// Every page is back, unless the session is still open or was kept.
fn assert_pages(seed: u64, world: &SharedWorld, given: &[(Call, Outcome<Given>)]) {
    let world = &world.borrow().bus;
    assert_eq!(world.misuse(), [""; 0], "seed {seed}");
    assert!(world.outside().iter().all(|why| *why == OTHER_LIST), "seed {seed}");
    let (call, outcome) = given.last().unwrap();
    let closing = match outcome {
        Ok(Given::Closed(c)) => Some(*c),
        Err(Stop::Refused(r)) if *call == Call::Open => r.closing,
        _ => None,
    };
    let back = matches!(closing, Some(Closing::Clean | Closing::Reset));
    assert_eq!(world.in_use().is_empty(), back, "seed {seed}");
}

/// Every resource list that was given out went back at once.
fn assert_lists(seed: u64, trace: &Trace) {
    let events: Vec<Event> = trace.events().filter(|e| !matches!(e, Event::Stall { .. })).collect();
    for (e, next) in events.iter().zip(events.iter().skip(1)) {
        let given = match e {
            Event::Resource { index, answer: Resource::List(_) } => Some(Event::FreePool { index: *index }),
            _ => None,
        };
        assert_eq!(given.is_some(), matches!(next, Event::FreePool { .. }), "seed {seed}");
        assert!(given.is_none_or(|g| g == *next), "seed {seed}");
    }
}

/// But for resource lists that the Rust reads otherwise.
#[test]
fn seeds_stay_inside_the_domain_and_reach_every_end() {
    let mut ends = BTreeSet::new();
    for seed in 0..seeds() {
        let (world, _, given) = session(seed);
        assert_pages(seed, &world, &given);
        assert_lists(seed, &world.borrow().trace);
        for (_, outcome) in &given {
            ends.insert(match outcome {
                Ok(Given::Opened(_)) => "opened".to_string(),
                Ok(Given::Closed(c)) => format!("{c:?}"),
                Ok(_) => "good".to_string(),
                Err(Stop::Refused(r)) => r.number.to_string(),
                Err(Stop::Outside(why)) => panic!("seed {seed}: {why}"),
            });
        }
    }
    let numbers = (1..=17).chain([23]).map(|n: u32| n.to_string());
    let all = numbers.chain(["opened", "good", "Clean", "Reset", "Kept"].map(String::from));
    assert_eq!(ends, all.collect::<BTreeSet<_>>());
}

/// On a good day nearly every opening is good, and the calls behind it end in every way that they have.
#[test]
fn lists_reach_every_end_of_every_call() {
    let mut ends = BTreeSet::new();
    let mut good = 0;
    for seed in 0..seeds() {
        let (world, mut driver) = run::in_world(Plan::seeded(seed).calm());
        run::list(&world, &mut driver, &calls::seeded(seed), |call, outcome| {
            good += u64::from(matches!(outcome, Ok(Given::Opened(_))));
            ends.insert((name(call), end(&outcome)));
        });
        let world = &world.borrow().bus;
        assert_eq!(world.misuse(), [""; 0], "seed {seed}");
        assert!(world.outside().iter().all(|why| *why == OTHER_LIST), "seed {seed}");
    }
    assert!(good * 10 > seeds() * 8, "{good} of {}", seeds());
    let of = |names: &[&'static str], ends: &[u32]| -> Vec<(String, u32)> {
        names.iter().flat_map(|name| ends.iter().map(move |e| (name.to_string(), *e))).collect()
    };
    let commands = of(&["Imm", "WithIn", "WithOut", "InImm", "InOut"], &[0, 6, 7, 8, 9]);
    let others = [of(&["Lend"], &[0, 5]), of(&["UndoTo"], &[0, 23]), of(&["PushUndo", "Quiesce", "Close"], &[0])];
    let all: BTreeSet<(String, u32)> = commands.into_iter().chain(others.concat()).collect();
    let missing: Vec<_> = all.difference(&ends).collect();
    assert!(missing.is_empty(), "{missing:?}");
}

fn name(call: &Call) -> String {
    let text = match call {
        Call::Command(c) => format!("{:?}", c.form),
        other => format!("{other:?}"),
    };
    text.split([' ', '(']).next().unwrap_or_default().to_string()
}

/// The number of the refusal; 0 where there is none.
fn end(outcome: &Outcome<Given>) -> u32 {
    match outcome {
        Ok(_) => 0,
        Err(Stop::Refused(r)) => r.number,
        Err(Stop::Outside(why)) => panic!("{why}"),
    }
}

#[test]
fn half_of_all_openings_are_good() {
    let good = (0..1_000).filter(|s| matches!(session(*s).2[0].1, Ok(Given::Opened(_)))).count();
    assert!((350..650).contains(&good), "{good} of 1000");
}

#[test]
fn a_seed_gives_the_same_run_twice() {
    for seed in 0..200 {
        let run = || {
            let (world, driver, given) = session(seed);
            let trace = world.borrow_mut().take();
            (trace.folded(), given, driver.state(), driver.mailboxes())
        };
        assert_eq!(run(), run(), "seed {seed}");
    }
}
