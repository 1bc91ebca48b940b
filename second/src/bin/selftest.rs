//! `selftest [SEED] [CALLS]`: drives the second implementation over generated sequences of calls
//! and checks it. The last line is `N passed, 0 failed`; the exit status is 0 only then.

use std::process::ExitCode;

use second::coverage;
use second::program;
use second::selfcheck;

const DEFAULT_CALLS: usize = 20_000;

fn main() -> ExitCode {
    program::run("selftest", DEFAULT_CALLS, selftest)
}

fn selftest(seed: u64, calls: usize) -> bool {
    let report = selfcheck::run(seed, calls);
    println!("accepted {}, restored {}", report.accepted, report.restored);
    println!(
        "longest reply {}, longest restoration {}",
        report.longest_reply, report.longest_restoration
    );
    let expected = coverage::expected().len();
    println!("coverage: {} of {expected} counters met", expected - report.coverage.unmet().len());
    for (counter, count) in report.coverage.rarest_first().into_iter().take(5) {
        println!("rarest: {counter}, {count} times");
    }
    for failure in &report.failures {
        println!("failed: {failure}");
    }
    println!("{} passed, {} failed", report.passed, report.failures.len());
    report.failures.is_empty()
}
