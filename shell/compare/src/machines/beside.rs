//! The comparison: runs of the Rust, then the program `machines` on the same answers.

use std::collections::VecDeque;
use std::io::Write;
use std::path::{Path, PathBuf};
use std::process::{Command, Stdio};
use std::sync::OnceLock;
use std::thread;

use crate::program::proved;

use super::plans::{self, Case};
use super::records::Record;
use super::script::Faults;
use super::tasks::{self, NAMES};

/// So many runs go to the program at once.
const BATCH: u64 = 2_000;
/// Of a run with more calls only those near its beginning and its end fail in turn.
const IN_TURN: u64 = 200;

/// Which run: the machine, its seed, the case's number and the faults.
#[derive(Clone, Copy, PartialEq, Eq, Debug)]
pub struct Label {
    pub machine: &'static str,
    pub seed: u64,
    pub case: u64,
    pub faults: Faults,
}

/// The program, proved and built.
pub fn program() -> &'static Path {
    static PROGRAM: OnceLock<PathBuf> = OnceLock::new();
    PROGRAM.get_or_init(|| proved("machines"))
}

/// What the program writes for these records.
pub fn written(records: &[u8]) -> String {
    let mut child = Command::new(program())
        .stdin(Stdio::piped())
        .stdout(Stdio::piped())
        .spawn()
        .expect("the program that was built");
    let mut stdin = child.stdin.take().expect("a pipe");
    let input = records.to_vec();
    let feeder = thread::spawn(move || stdin.write_all(&input));
    let out = child.wait_with_output().expect("the program ends");
    feeder.join().expect("no panic").expect("the program reads all");
    String::from_utf8(out.stdout).expect("text")
}

/// The runs of a machine: each case without a fault, with each single call failed in turn, and with calls failed by chance.
pub struct Runs {
    machine: usize,
    seed: u64,
    number: u64,
    case: Case,
    waiting: VecDeque<Faults>,
}

impl Runs {
    pub fn new(machine: usize, seed: u64) -> Runs {
        Runs { machine, seed, number: 0, case: plans::case(machine, seed, 0), waiting: [Faults::None].into() }
    }

    /// Every fault that the case is run with, once it ran without one.
    fn faults(&mut self, calls: u64) {
        let ends = |n: &u64| calls <= IN_TURN || *n < 40 || calls - n < 30;
        self.waiting.extend((0..calls).filter(ends).map(Faults::At));
        self.waiting.extend([2, 6, 30].map(|n| Faults::OneIn(n, self.seed ^ self.number)));
    }
}

impl Iterator for Runs {
    type Item = (Label, Record);

    fn next(&mut self) -> Option<(Label, Record)> {
        if self.waiting.is_empty() {
            self.number += 1;
            self.case = plans::case(self.machine, self.seed, self.number);
            self.waiting.push_back(Faults::None);
        }
        let faults = self.waiting.pop_front()?;
        let (record, calls) = tasks::run(&self.case, faults);
        if faults == Faults::None {
            self.faults(calls);
        }
        let label = Label { machine: NAMES[self.machine], seed: self.seed, case: self.number, faults };
        Some((label, record))
    }
}

/// Compares these runs; the first difference is told with its run and its line.
pub fn compare(runs: &[(Label, Record)]) -> Result<(), String> {
    let input: Vec<u8> = runs.iter().flat_map(|(_, r)| r.input.clone()).collect();
    let written = written(&input);
    let mut lines = written.lines();
    for (label, record) in runs {
        for (number, rust) in record.output.lines().enumerate() {
            let machine = lines.next();
            if machine != Some(rust) {
                let machine = machine.unwrap_or("nothing");
                return Err(format!("{label:?}, line {}: the Rust: {rust}, the machine: {machine}", number + 1));
            }
        }
    }
    match lines.next() {
        None => Ok(()),
        Some(line) => Err(format!("behind the last run the machine writes: {line}")),
    }
}

/// Compares so many runs of a machine.
pub fn run(machine: usize, seed: u64, count: u64) -> Result<(), String> {
    let mut runs = Runs::new(machine, seed);
    let mut left = count;
    while left > 0 {
        let batch: Vec<_> = runs.by_ref().take(left.min(BATCH) as usize).collect();
        compare(&batch)?;
        left -= batch.len() as u64;
    }
    Ok(())
}
