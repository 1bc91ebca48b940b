//! `verdicts`: reads lines of hexadecimal messages from standard input and prints one line for
//! each: `outcome N` (3 to 5), `cause C type T place P` (the first fault of stages 2 and 3), or `read` and
//! the rendering of the request that `request::render` describes. Spaces between the octets are
//! allowed; an empty line is a message without octets.

use std::io::{self, BufRead, Write};
use std::process::ExitCode;

use second::request::{self, header, render};

fn main() -> ExitCode {
    if std::env::args().len() > 1 {
        eprintln!("verdicts: takes no arguments; messages come from standard input");
        return ExitCode::from(2);
    }
    let mut output = io::BufWriter::new(io::stdout().lock());
    for (number, line) in io::stdin().lock().lines().enumerate() {
        let message = line.map_err(|error| error.to_string()).and_then(|line| octets(&line));
        let verdict = match message {
            Ok(message) => verdict(&message),
            Err(what) => {
                let _ = output.flush();
                eprintln!("verdicts: line {}: {what}", number + 1);
                return ExitCode::from(2);
            }
        };
        if writeln!(output, "{verdict}").is_err() {
            return ExitCode::FAILURE;
        }
    }
    match output.flush() {
        Ok(()) => ExitCode::SUCCESS,
        Err(_) => ExitCode::FAILURE,
    }
}

fn verdict(message: &[u8]) -> String {
    let header = match header::test(message) {
        Ok(header) => header,
        Err(outcome) => return format!("outcome {outcome}"),
    };
    match request::read(&header, message) {
        Err(fault) => {
            format!("cause {} type {} place {}", fault.cause, fault.offending, fault.octet)
        }
        Ok(request) => format!("read {}", render::render(&request)),
    }
}

/// The octets of a line of hexadecimal digits.
fn octets(line: &str) -> Result<Vec<u8>, String> {
    let mut digits = Vec::new();
    for character in line.chars().filter(|character| !character.is_ascii_whitespace()) {
        let digit = character.to_digit(16);
        digits.push(digit.ok_or(format!("'{character}' is not a hexadecimal digit"))? as u8);
    }
    match digits.len() % 2 {
        0 => Ok(digits.chunks_exact(2).map(|pair| pair[0] << 4 | pair[1]).collect()),
        _ => Err("an odd number of hexadecimal digits".to_string()),
    }
}
