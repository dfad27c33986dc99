//! The long run of lists of calls beside the Rust.
//!
//! `calls [--seed FIRST] [--count COUNT] [--each]`      so many lists from that seed on; 0 and 200,000 if left out. With
//! --each every list is also run with each single bus call behind its opening failed in turn, taken and not

use std::collections::BTreeMap;
use std::process::ExitCode;

use compare::calls::beside::{same, Ran, Run};
use compare::calls::cases::{self, Case};
use compare::program;
use world::calls::Call;
use world::results::{Given, Refusal};

const USAGE: &str = "calls [--seed FIRST] [--count COUNT] [--each]";

/// How often each call ended how.
#[derive(Default)]
struct Ends(BTreeMap<(String, String), u64>);

impl Ends {
    fn note(&mut self, case: &Case, ran: &Ran) {
        for (call, step) in case.calls.iter().zip(&ran.steps) {
            *self.0.entry((name(call), end(&step.given))).or_default() += 1;
        }
    }
}

fn name(call: &Call) -> String {
    match call {
        Call::Open => "open".into(),
        Call::Command(c) => format!("{:?}", c.form),
        Call::Lend { .. } => "lend".into(),
        Call::PushUndo(_) => "push_undo".into(),
        Call::UndoTo { .. } => "undo_to".into(),
        Call::Quiesce => "quiesce".into(),
        Call::Close => "close".into(),
    }
}

fn end(given: &Result<Given, Refusal>) -> String {
    match given {
        Ok(Given::Closed(closing)) => format!("{closing:?}"),
        Ok(_) => "good".into(),
        Err(r) => format!("{:>4}", r.number),
    }
}

/// What was run so far.
#[derive(Default)]
struct Figures {
    ends: Ends,
    calls: u64,
    failed: u64,
    differ: u64,
}

impl Figures {
    /// Compares one list; nothing where it is outside the domain or differs.
    fn compare(&mut self, case: &Case) -> Result<Option<Run>, ()> {
        match same(case) {
            Ok(run) => {
                self.calls += run.as_ref().map_or(0, |r| r.ran.steps.len() as u64);
                Ok(run)
            }
            Err(difference) => {
                println!("{difference}");
                self.differ += 1;
                Err(())
            }
        }
    }

    /// Each single bus call behind the opening, failed in turn.
    fn each(&mut self, case: &Case, calls: u64) {
        for (call, taken) in (0..calls).flat_map(|c| [(c, false), (c, true)]) {
            let faulty = case.with_fault(call, taken);
            if let Ok(Some(run)) = self.compare(&faulty) {
                self.ends.note(&faulty, &run.ran);
                self.failed += 1;
            }
        }
    }
}

/// The first seed, how many lists, and whether each call fails in turn.
fn options() -> Option<(u64, u64, bool)> {
    let (mut seed, mut count, mut each) = (0, 200_000, false);
    let mut args = std::env::args().skip(1);
    while let Some(arg) = args.next() {
        match arg.as_str() {
            "--seed" => seed = args.next()?.parse().ok()?,
            "--count" => count = args.next()?.parse().ok()?,
            "--each" => each = true,
            _ => return None,
        }
    }
    Some((seed, count, each))
}

fn main() -> ExitCode {
    let Some((first, count, each)) = options() else {
        return program::misused(USAGE);
    };
    let (mut seed, mut lists, mut figures) = (first, 0, Figures::default());
    while lists < count {
        let case = cases::seeded(seed);
        seed += 1;
        match figures.compare(&case) {
            Ok(None) => continue,
            Ok(Some(run)) => {
                figures.ends.note(&case, &run.ran);
                if each {
                    figures.each(&case, run.calls);
                }
            }
            Err(()) => {}
        }
        lists += 1;
    }
    figures.ends.0.iter().for_each(|((call, end), n)| println!("{call:<10} {end:<6} {n:>9}"));
    let Figures { calls, failed, differ, .. } = figures;
    println!(
        "{lists} lists of {} seeds from {first} on, {failed} more with a call failed; {calls} calls; {differ} differ",
        seed - first
    );
    program::ended(differ)
}
