//! `differential [SEED] [CALLS]`: compares the linked archive with the second implementation. The
//! last line is `N passed, M failed`; the exit status is 0 only if nothing failed.

use std::process::ExitCode;

use differential::linked;
use differential::run::{run, Report, CALLS_FOR_WHOLE_COVERAGE};
use second::coverage;
use second::program;

const DEFAULT_CALLS: usize = 100_000;
const MOST_PRINTED: usize = 30;

fn main() -> ExitCode {
    program::run("differential", DEFAULT_CALLS, compare)
}

fn compare(seed: u64, calls: usize) -> bool {
    let report = run(&linked::product(), seed, calls);
    print(&report, calls);
    report.failures.is_empty()
}

fn print(report: &Report, calls: usize) {
    println!("outcomes 0 to 5: {:?}, 7: {}", &report.outcomes[..6], report.outcomes[7]);
    println!("refused by a full half, by session limit: {:?}", report.full);
    println!("restored sessions {}, requests written {}", report.restored, report.written);
    println!("SEIDs and TEIDs asked for {}, of these found {}", report.asked, report.found);
    println!("damaged tables {}, of these sound {}", report.damaged, report.still_sound);
    for (reason, count) in &report.reasons {
        println!("broken by {reason}: {count}");
    }
    println!("calls with a store {}", report.calls_with_store);
    for (kind, count) in report.met.counts() {
        println!("with a store, {kind}: {count}");
    }
    let expected = coverage::expected().len();
    let met = expected - report.coverage.unmet().len();
    let asked = match calls >= CALLS_FOR_WHOLE_COVERAGE {
        true => "all are asked for",
        false => "too few calls to ask for all",
    };
    println!("coverage: {met} of {expected} counters met; {asked}");
    for failure in report.failures.iter().take(MOST_PRINTED) {
        println!("failed: {failure}");
    }
    if report.failures.len() > MOST_PRINTED {
        println!("and {} more", report.failures.len() - MOST_PRINTED);
    }
    println!("{} passed, {} failed", report.passed, report.failures.len());
}
