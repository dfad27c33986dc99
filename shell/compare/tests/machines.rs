//! The machines of a session beside the Rust. The long run is `--bin machines`.

use compare::machines::beside::{compare, run, Label, Runs};
use compare::machines::plans::{limits, waits};
use compare::machines::records::Record;
use compare::machines::script::Faults;
use compare::machines::tasks::{self, NAMES};

const SEED: u64 = 20;
const COUNT: u64 = if cfg!(debug_assertions) { 1_000 } else { 100_000 };

fn label(machine: &'static str, case: u64) -> Label {
    Label { machine, seed: 0, case, faults: Faults::None }
}

fn same(runs: &[(Label, Record)]) {
    if let Err(difference) = compare(runs) {
        panic!("{difference}");
    }
}

#[test]
fn every_machine_asks_what_the_rust_asks_and_ends_as_it_does() {
    for machine in 0..NAMES.len() {
        if let Err(difference) = run(machine, SEED, COUNT) {
            panic!("{difference}");
        }
    }
}

/// The stalls of a run, as the Rust made them, and its last line.
fn waited(record: &Record) -> (u64, String) {
    let number =
        |line: &str, name: &str| line.strip_prefix(name).map(|n| u64::from_str_radix(n, 16).expect("a number"));
    let lines: Vec<&str> = record.output.lines().collect();
    let times = |at: usize| lines.get(at + 1).and_then(|l| number(l, "times ")).unwrap_or(1);
    let stalls = (0..lines.len()).filter(|at| lines[*at].starts_with("stall ")).map(times).sum();
    (stalls, lines[lines.len() - 1].to_string())
}

#[test]
fn a_command_with_each_wait_up_to_its_timeout() {
    let mut runs = Vec::new();
    for (polls, case) in waits() {
        let (record, calls) = tasks::run(&case, Faults::None);
        let (stalls, last) = waited(&record);
        // The Rust stalls no more often than this, and has then waited 60,000,000 µs.
        assert_eq!(stalls, polls.min(600_990));
        assert_eq!(last.starts_with("ended 7 0 3938700 0 "), polls > 600_990, "{last}");
        runs.push((label("command", polls), record));
        // The last call fails: the immediate's low half, or the buffer that is read after a Timeout.
        runs.push((label("command", polls), tasks::run(&case, Faults::At(calls - 1)).0));
    }
    assert_eq!(runs.len(), 48);
    same(&runs);
}

#[test]
fn a_reset_at_its_limits() {
    let records: Vec<Record> = limits().iter().map(|case| tasks::run(case, Faults::None).0).collect();
    let ends: Vec<String> = records.iter().map(|r| waited(r).1).collect();
    let good = "ended 0 0 0 0 0";
    let away = "ended 3 4 0 0 0";
    let held = "ended 3 2 1 0 0";
    assert_eq!(ends, [good, good, good, good, held, good, good, good, good, good, good, away, away]);
    let runs: Vec<_> = records.into_iter().enumerate().map(|(i, r)| (label("reset", i as u64), r)).collect();
    same(&runs);
}

/// Every kind of end is reached by the first runs of the seed; a Timeout and a vendor that
/// stays away by the tests above.
#[test]
fn every_end_is_reached() {
    let reached = |machine: usize, ends: &[&str]| {
        let lines: Vec<String> = Runs::new(machine, SEED).take(4_000).map(|(_, r)| waited(&r).1).collect();
        for end in ends {
            assert!(lines.iter().any(|l| l.starts_with(end)), "{} never ends with {end}", NAMES[machine]);
        }
    };
    reached(0, &["ended 0 ", "ended 6 ", "ended 8 ", "ended 9 "]);
    reached(1, &["ended 0 ", "ended 3 1 ", "ended 3 2 0 ", "ended 3 3 "]);
    reached(2, &["ended 0 ", "ended 5 "]);
    reached(4, &["ended 0 ", "ended 1 "]);
    reached(5, &["ended 0 ", "ended 2 "]);
    reached(7, &["ended 0 ", "ended 4 "]);
}

/// A machine that is told something else than the Rust was is found, and so is one that asks something else.
#[test]
fn a_difference_is_found() {
    for (machine, name) in NAMES.iter().enumerate() {
        let runs: Vec<_> = Runs::new(machine, SEED).take(50).collect();
        same(&runs);
        let mut told = runs.clone();
        // A word for the last answer, which never is one: the question stays open.
        let record = &mut told[20].1;
        let lists = u16::from_be_bytes([record.input[6], record.input[7]]);
        let last = record.input.len() - usize::from(lists) - 24;
        record.input[last + 7] = 0;
        assert!(compare(&told).is_err(), "{name}: another answer");
        let mut asked = runs;
        let line = asked[20].1.output.replacen(' ', " 1", 1);
        asked[20].1.output = line;
        let difference = compare(&asked).expect_err("another question");
        assert!(difference.contains(&format!("{:?}", asked[20].0)), "{difference}");
    }
}

/// What the gate has stored is what the Rust does today.
#[test]
fn the_stored_sample_is_the_rusts() {
    let root = concat!(env!("CARGO_MANIFEST_DIR"), "/../../crates/machines");
    let (stdin, stdout) = compare::machines::sample::sample();
    assert!(std::fs::read(format!("{root}/stdin")).expect("the stored input") == stdin);
    assert!(std::fs::read(format!("{root}/stdout")).expect("the stored output") == stdout.into_bytes());
}
