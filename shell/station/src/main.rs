//! Opens, uses and closes a session on the simulated card; see `options::USAGE`.

use std::io::{self, ErrorKind, Write};
use std::process::ExitCode;

use station::options::{self, Asked, USAGE};
use station::run;

/// The exit status of bad options.
const BAD: u8 = 2;

fn main() -> ExitCode {
    match options::parse(std::env::args_os().skip(1).map(|a| a.to_string_lossy().into_owned())) {
        Ok(Asked::Help) => ended(io::stdout().write_all(USAGE.as_bytes()).map(|()| true)),
        Ok(Asked::Session(options)) => ended(run::run(&options, io::stdout().lock())),
        Err(why) => {
            eprintln!("station: {why} (--help says more)");
            ExitCode::from(BAD)
        }
    }
}

/// Whether all went well, or what could not be written; a reader who has gone away is no error of ours to tell.
fn ended(result: io::Result<bool>) -> ExitCode {
    match result {
        Ok(true) => ExitCode::SUCCESS,
        Ok(false) => ExitCode::FAILURE,
        Err(e) => {
            if e.kind() != ErrorKind::BrokenPipe {
                eprintln!("station: {e}");
            }
            ExitCode::FAILURE
        }
    }
}
