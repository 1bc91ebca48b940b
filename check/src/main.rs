//! `pfcp-check CAPTURE TABLE`: the wire against the table.

use std::io::Write;
use std::process::ExitCode;

use check::options::{self, Asked};

/// The version is the library's, which stands in its header.
fn version() -> &'static str {
    include_str!("../../include/pfcp_session.h")
        .lines()
        .find_map(|line| line.strip_prefix("#define PFCP_VERSION \"")?.strip_suffix('"'))
        .unwrap_or("unknown")
}

fn main() -> ExitCode {
    let arguments: Vec<String> =
        std::env::args_os().skip(1).map(|word| word.to_string_lossy().into_owned()).collect();
    let done = match options::read(&arguments) {
        Ok(Asked::Help) => Ok((options::USAGE.to_string(), 0)),
        Ok(Asked::Version) => Ok((format!("pfcp-check {}\n", version()), 0)),
        Ok(Asked::Check(options)) => check::run(&options).map(|done| (done.text, done.status)),
        Err(fault) => Err(fault),
    };
    match done {
        Err(fault) => {
            eprintln!("pfcp-check: {fault}");
            ExitCode::from(2)
        }
        Ok((text, status)) => {
            let mut output = std::io::stdout().lock();
            match output.write_all(text.as_bytes()).and_then(|()| output.flush()) {
                Ok(()) => ExitCode::from(status),
                Err(error) => {
                    eprintln!("pfcp-check: standard output: {}", check::words::system(&error));
                    ExitCode::from(2)
                }
            }
        }
    }
}
