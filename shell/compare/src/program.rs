//! What the programs of this package share: their arguments, what they print, how they end.

use std::fmt::Display;
use std::fs::File;
use std::path::{Path, PathBuf};
use std::process::{Command, ExitCode, Stdio};

const ROOT: &str = concat!(env!("CARGO_MANIFEST_DIR"), "/../..");

/// A program of the repository, proved and built. It is run on its stored input, which ends well.
pub fn proved(name: &str) -> PathBuf {
    let krate = Path::new(ROOT).join("crates").join(name);
    let stdin = File::open(krate.join("stdin")).map_or_else(|_| Stdio::null(), Stdio::from);
    let out = Command::new("rt").arg("run").current_dir(&krate).stdin(stdin).output();
    let out = out.expect("the Rattle kit's command 'rt'");
    assert!(out.status.success(), "rt run in crates/{name}: {}", String::from_utf8_lossy(&out.stderr));
    krate.join("out").join(name)
}

/// The numbers that the command line begins with, the usual ones where they are left out, and the words behind them.
/// Nothing where one is no number.
fn arguments<const N: usize>(usual: [u64; N]) -> Option<([u64; N], Vec<String>)> {
    let (mut args, mut numbers) = (std::env::args().skip(1), usual);
    for n in &mut numbers {
        if let Some(arg) = args.next() {
            *n = arg.parse().ok()?;
        }
    }
    Some((numbers, args.collect()))
}

/// The same where no word may stand behind them.
pub fn numbers<const N: usize>(usual: [u64; N]) -> Option<[u64; N]> {
    arguments(usual).filter(|(_, more)| more.is_empty()).map(|(numbers, _)| numbers)
}

/// The program was called otherwise than its usage says.
pub fn misused(usage: &str) -> ExitCode {
    eprintln!("{usage}");
    ExitCode::from(2)
}

/// Good where nothing differs.
pub fn ended(differ: u64) -> ExitCode {
    if differ == 0 {
        ExitCode::SUCCESS
    } else {
        ExitCode::FAILURE
    }
}

/// Takes a seed, a count and the names of those to be compared, all if none is named; prints a line for each, and how many
/// differ. `run` has the index of a name, the seed and the count.
pub fn compared<E: Display>(
    usage: &str,
    count: u64,
    names: &[&str],
    mut run: impl FnMut(usize, u64, u64) -> Result<String, E>,
) -> ExitCode {
    let Some(([seed, count], wanted)) = arguments([1, count]) else {
        return misused(usage);
    };
    if !wanted.iter().all(|w| names.contains(&w.as_str())) {
        return misused(usage);
    }
    let mut differ = 0;
    for (at, name) in names.iter().enumerate().filter(|(_, n)| wanted.is_empty() || wanted.iter().any(|w| w == *n)) {
        match run(at, seed, count) {
            Ok(more) => println!("{name} {count} 0{more}"),
            Err(difference) => {
                println!("{difference}");
                differ += 1;
            }
        }
    }
    println!("{differ} differ");
    ended(differ)
}

/// Writes the input of a program and what it must print to the two files that the command line names.
pub fn stored(usage: &str, sample: impl FnOnce() -> (Vec<u8>, String)) -> ExitCode {
    let args: Vec<String> = std::env::args().skip(1).collect();
    let [stdin, stdout] = args.as_slice() else {
        return misused(usage);
    };
    let (input, output) = sample();
    match std::fs::write(stdin, input).and_then(|()| std::fs::write(stdout, output)) {
        Ok(()) => ExitCode::SUCCESS,
        Err(e) => {
            eprintln!("{e}");
            ExitCode::FAILURE
        }
    }
}
