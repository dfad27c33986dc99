//! The long run of whole sessions beside the Rust.
//!
//! `sessions [FIRST [COUNT]]`      so many seeds from the first on; 0 and 200,000 if left out

use std::collections::BTreeMap;
use std::process::ExitCode;

use compare::program;
use compare::sessions::beside::{ours, same, same_read, Difference, Ran, Run};
use compare::sessions::cases::{self, Case};

const USAGE: &str = "sessions [FIRST [COUNT]]";

/// How a session ended, for the count of ends.
fn end(ran: &Ran) -> String {
    match (&ran.opened, ran.closed) {
        (Err(r), _) => format!("refused {} {:?}", r.number, r.closing.expect("a failed opening was closed")),
        (Ok(_), Some(closing)) => format!("closed {closing:?}"),
        (Ok(_), None) => "left open".into(),
    }
}

/// Beside the Rust; where it reads a list otherwise than the documents, beside the Rust that is told what these read; where a
/// list is bad, 27. Nothing outside the domain otherwise.
fn compared(case: &Case) -> Result<Option<(&'static str, Run)>, Box<Difference>> {
    if let Some(run) = same(case)? {
        return Ok(Some(("inside the domain", run)));
    }
    if let Some(run) = same_read(case)? {
        return Ok(Some(("by the documents' reading of a list", run)));
    }
    let run = ours(case);
    let bad = matches!(&run.ran.opened, Err(r) if r.number == 27);
    Ok(bad.then_some(("with a bad list", run)))
}

fn main() -> ExitCode {
    let Some([first, count]) = program::numbers([0, 200_000]) else {
        return program::misused(USAGE);
    };
    let (mut seed, mut done, mut differ) = (first, 0, 0);
    let mut ends: BTreeMap<String, u64> = BTreeMap::new();
    let mut ways: BTreeMap<&str, u64> = BTreeMap::new();
    while done < count {
        match compared(&cases::seeded(seed)) {
            Ok(None) => {}
            Ok(Some((way, run))) => {
                done += 1;
                *ways.entry(way).or_default() += 1;
                *ends.entry(end(&run.ran)).or_default() += 1;
            }
            Err(difference) => {
                println!("{difference}");
                done += 1;
                differ += 1;
            }
        }
        seed += 1;
    }
    ends.iter().for_each(|(end, n)| println!("{end}: {n}"));
    ways.iter().for_each(|(way, n)| println!("{way}: {n}"));
    println!("{done} sessions of {} seeds from {first} on, {differ} differ", seed - first);
    program::ended(differ)
}
