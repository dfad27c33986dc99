//! Counts instructions with callgrind: what the openings and closes of `cases` execute, by the Rust and by the session.

use std::path::Path;
use std::process::Command;

use crate::{Case, POLLS};

/// Where counting stops and goes on: the bus of either side, and the Rust's console.
const OUTSIDE: [&str; 14] = [
    "oracle::glue::mem*",
    "oracle::glue::config*",
    "oracle::glue::map*",
    "oracle::glue::unmap*",
    "oracle::glue::allocate_buffer*",
    "oracle::glue::free_buffer*",
    "oracle::glue::attributes*",
    "oracle::glue::get_bar_attributes*",
    "oracle::glue::get_location*",
    "oracle::console::line*",
    "uefi::boot::stall*",
    "uefi::boot::free_pool*",
    "*Over*session::bus::Bus*",
    "bench_point",
];

/// What was counted within one point: all of it, what the library's functions have of it, and what zeroing has.
#[derive(Clone, Copy, Default)]
pub struct Count {
    pub all: u64,
    pub library: u64,
    pub memset: u64,
}

/// A case with its counts: the Rust's opening and close, the session's opening and close.
pub type Counted = (Case, [Count; 4]);

/// The counts of the cases, by the program that runs them when it is called with their number behind `measured`.
pub fn counted(program: &Path, cases: Vec<Case>) -> Result<Vec<Counted>, String> {
    let folder = std::env::temp_dir().join(format!("bench-{}", std::process::id()));
    std::fs::create_dir_all(&folder).map_err(|e| e.to_string())?;
    let counts = counts(program, cases.len(), &folder);
    let _ = std::fs::remove_dir_all(&folder);
    let counts = counts?;
    Ok(cases.into_iter().zip(counts.chunks(4).map(|c| [c[0], c[1], c[2], c[3]])).collect())
}

/// The counts of all points, in their order.
fn counts(program: &Path, cases: usize, folder: &Path) -> Result<Vec<Count>, String> {
    let out = folder.join("points");
    let mut valgrind = Command::new("valgrind");
    valgrind.args(["--tool=callgrind", "--quiet", "--dump-after=bench_point"]);
    valgrind.args(OUTSIDE.map(|f| format!("--toggle-collect={f}")));
    valgrind.arg(format!("--callgrind-out-file={}", out.display()));
    valgrind.arg(program).args(["measured", &cases.to_string()]);
    let status = valgrind.status().map_err(|e| format!("valgrind: {e}"))?;
    if !status.success() {
        return Err("valgrind has failed".into());
    }
    (1..=4 * cases).map(|n| count(&out.with_extension(n.to_string()))).collect()
}

/// Instructions by function, what it calls included, of one point.
fn count(dump: &Path) -> Result<Count, String> {
    let annotated = Command::new("callgrind_annotate").args(["--inclusive=yes", "--threshold=100"]).arg(dump).output();
    let text = String::from_utf8_lossy(&annotated.map_err(|e| e.to_string())?.stdout).into_owned();
    if let Some(line) = text.lines().find(|l| l.contains("world::")) {
        return Err(format!("a part of the simulation was counted, so `OUTSIDE` lacks a name: {line}"));
    }
    let of = |fits: &dyn Fn(&str) -> bool| -> u64 { text.lines().filter(|l| fits(l)).filter_map(number).sum() };
    let library = |l: &str| ["hca_call", "hca_answer"].iter().any(|f| has(l, f));
    let memset = |l: &str| l.contains(":memset") || l.contains("__memset_") || l.contains(":__memset");
    Ok(Count { all: of(&|l| l.contains("PROGRAM TOTALS")), library: of(&library), memset: of(&memset) })
}

/// The line is that of the function.
fn has(line: &str, function: &str) -> bool {
    line.split(|c: char| c.is_whitespace() || c == ':').any(|word| word == function)
}

/// The number that a line begins with.
fn number(line: &str) -> Option<u64> {
    let first = line.split_whitespace().next()?;
    first.replace(',', "").parse().ok()
}

/// Of a poll turn, a read of the status dword that shows GO and the stall behind it: by the Rust, by the session, and what
/// the library has of that. It is what the second case has more than the first, by the turns that it has more.
pub fn turn(all: &[Counted]) -> [f64; 3] {
    let turns = (POLLS[1] - POLLS[0]) as f64;
    let per = |of: &dyn Fn(&Count) -> u64, at: usize| (of(&all[1].1[at]) as f64 - of(&all[0].1[at]) as f64) / turns;
    [per(&|c| c.all, 0), per(&|c| c.all, 2), per(&|c| c.library, 2)]
}
