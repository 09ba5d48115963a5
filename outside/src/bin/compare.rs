//! Compares the second program with the proved library: `compare [SEED]`. The exit status is 0 only where nothing differs.
use std::process::ExitCode;

fn main() -> ExitCode {
    let seed = match std::env::args().nth(1).map(|text| text.parse()) {
        None => 1,
        Some(Ok(seed)) => seed,
        Some(Err(_)) => {
            eprintln!("compare: the seed is a number");
            return ExitCode::FAILURE;
        }
    };
    if outside::compare::run(seed) {
        ExitCode::SUCCESS
    } else {
        ExitCode::FAILURE
    }
}
