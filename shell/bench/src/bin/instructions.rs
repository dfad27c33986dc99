//! Counts instructions with callgrind, and prints the table of docs/BENCHMARK.md.
//!
//! instructions               runs itself under valgrind and prints the table
//! instructions measured N    what valgrind runs: each of the first N cases by the Rust and by the session

use std::process::ExitCode;

use bench::callgrind::{self, Count, Counted};
use bench::{cases, ours, rust, size, Case, Size};

fn main() -> ExitCode {
    let words: Vec<String> = std::env::args().skip(1).collect();
    if let [word, number] = &words[..] {
        let many = number.parse().unwrap_or(0);
        if word != "measured" || many == 0 {
            return ExitCode::FAILURE;
        }
        for case in cases().iter().take(many) {
            rust(&case.plan);
            ours(&case.plan);
        }
        return ExitCode::SUCCESS;
    }
    let program = std::env::current_exe().map_err(|e| e.to_string());
    match program.and_then(|p| callgrind::counted(&p, cases())) {
        Ok(all) => {
            print!("{}", printed(&all));
            ExitCode::SUCCESS
        }
        Err(why) => {
            eprintln!("{why}");
            ExitCode::FAILURE
        }
    }
}

fn printed(all: &[Counted]) -> String {
    let rows: String = all.iter().map(|(case, counts)| row(case, size(&case.plan), counts)).collect();
    let [rust, ours, library] = callgrind::turn(all);
    let turn = format!("A poll turn: the Rust {rust:.1}, the session {ours:.1}, of it the library {library:.1}.");
    format!("{HEAD}{rows}\n{turn}\n")
}

const HEAD: &str = "\
| card | pages | blocks | commands | questions | | the Rust | of it memset | the session | of it memset | of it the library |
|---|---|---|---|---|---|---|---|---|---|---|
";

fn row(case: &Case, size: Size, [rust_open, rust_close, open, close]: &[Count; 4]) -> String {
    let Size { pages, blocks, commands, questions } = size;
    let line = |what: &str, head: String, rust: &Count, ours: &Count| {
        let [a, b, c, d, e] = [rust.all, rust.memset, ours.all, ours.memset, ours.library];
        format!("| {head} | {what} | {a} | {b} | {c} | {d} | {e} |\n")
    };
    let first = format!("{} | {pages} | {blocks} | {commands} | {}", case.name, questions[0]);
    let second = format!(" | | | | {}", questions[1]);
    line("opening", first, rust_open, open) + &line("close", second, rust_close, close)
}
