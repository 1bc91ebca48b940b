//! `departed [SEED] [CALLS]`: two tables of the linked archive with different pasts and live sets
//! that are alike get the same calls (02 (xiii)). The last line is `N passed, M failed`; the exit
//! status is 0 only if nothing failed. With PFCP_PLANT=NAME the archive is made to break the claim,
//! and the run must fail.

use std::process::ExitCode;

use differential::departed::plant::Plant;
use differential::departed::report::Report;
use differential::departed::run;
use differential::linked;
use second::program;
use second::settings::PEERS;

const PROGRAM: &str = "departed";
const DEFAULT_CALLS: usize = 12_000;
const MOST_PRINTED: usize = 30;

fn main() -> ExitCode {
    let name = std::env::var_os("PFCP_PLANT").unwrap_or_default().to_string_lossy().into_owned();
    let plant = Plant::named(&name);
    if plant.is_none() && !name.is_empty() {
        let names = Plant::ALL.map(|(known, _)| known).join(", ");
        eprintln!("{PROGRAM}: '{name}' is no plant; PFCP_PLANT is one of {names}");
        return ExitCode::from(2);
    }
    program::run(PROGRAM, DEFAULT_CALLS, |seed, calls| {
        let report = run(&linked::product(), plant, seed, calls);
        print(&report);
        report.failures.is_empty()
    })
}

fn print(report: &Report) {
    println!("points at which live sets are alike: {}, by way {:?}", report.points, report.ways);
    println!(
        "with different pasts {}, with other numbers of departed sessions {}",
        report.different_pasts, report.different_departed
    );
    println!(
        "with a SEID on both peers {}; requests reworded before {}",
        report.equal_seids, report.reworded
    );
    println!("there: {:?}", report.at_points);
    println!("after the same calls: {:?}", report.after_calls);
    println!("same calls: {}, tables that differ {}", report.calls, report.tables_that_differ);
    println!("outcomes: {:?}", report.outcomes);
    println!(
        "SEIDs and TEIDs asked for {}, TEIDs found {}; requests written {}",
        report.asked, report.found, report.written
    );
    for (peer, of_peer) in PEERS.into_iter().zip(&report.peers) {
        println!(
            "peer {peer}: sessions there {}, restored before {}, found {}, answers that it holds TEIDs {}",
            of_peer.sessions, of_peer.restored, of_peer.found, of_peer.holding
        );
        println!("peer {peer}: causes: {:?}", of_peer.causes);
        println!("peer {peer}: refused TEIDs by: {:?}", of_peer.wants);
        println!("peer {peer}: accepted: {:?}", of_peer.deeds);
        println!("peer {peer}: changes of sessions that differ: {}", of_peer.on_differing);
    }
    for failure in report.failures.iter().take(MOST_PRINTED) {
        println!("failed: {failure}");
    }
    println!("{} passed, {} failed", report.passed, report.failures.len());
}
