//! Ranks settings in two passes and in one: `ranks [COUNT]`. The exit status is 0 only where no answer differs.
use outside::ranks::{run, LEAST};
use std::process::ExitCode;

fn main() -> ExitCode {
    let count = match std::env::args().nth(1).map(|text| text.parse()) {
        None => 1_000_000,
        Some(Ok(count)) if count >= LEAST => count,
        Some(_) => {
            eprintln!("ranks: the count of settings is a number, {LEAST} or more");
            return ExitCode::FAILURE;
        }
    };
    if run(count) {
        ExitCode::SUCCESS
    } else {
        ExitCode::FAILURE
    }
}
