//! A program `NAME [SEED] [CALLS]` that runs generated calls: this package's self-test and the
//! comparison with the product.

use std::process::ExitCode;

const DEFAULT_SEED: u64 = 1;
const MOST_CALLS: usize = 10_000_000;

/// Reads the arguments of this process and runs so many calls from the seed; `calls_pass` gives
/// back whether nothing failed. The exit status is 0 only then, and 2 for bad arguments.
pub fn run(
    name: &str,
    default_calls: usize,
    calls_pass: impl FnOnce(u64, usize) -> bool,
) -> ExitCode {
    let arguments: Vec<String> = std::env::args().skip(1).collect();
    let (seed, calls) = match read_arguments(&arguments, default_calls) {
        Ok(pair) => pair,
        Err(message) => {
            eprintln!("{name}: {message}");
            eprintln!(
                "usage: {name} [SEED] [CALLS]   (whole numbers; CALLS from 1 to {MOST_CALLS})"
            );
            return ExitCode::from(2);
        }
    };
    println!("seed {seed}, {calls} calls");
    match calls_pass(seed, calls) {
        true => ExitCode::SUCCESS,
        false => ExitCode::FAILURE,
    }
}

fn read_arguments(arguments: &[String], default_calls: usize) -> Result<(u64, usize), String> {
    if arguments.len() > 2 {
        return Err("too many arguments".to_string());
    }
    let seed = match arguments.first() {
        None => DEFAULT_SEED,
        Some(text) => text.parse().map_err(|_| format!("'{text}' is not a seed"))?,
    };
    let calls = match arguments.get(1) {
        None => default_calls,
        Some(text) => text.parse().map_err(|_| format!("'{text}' is not a number of calls"))?,
    };
    match (1..=MOST_CALLS).contains(&calls) {
        true => Ok((seed, calls)),
        false => Err(format!("{calls} calls are too few or too many")),
    }
}
