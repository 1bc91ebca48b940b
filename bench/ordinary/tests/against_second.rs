//! The ordinary version against the second implementation: generated calls, restorations and
//! damaged tables, with every counter of the coverage met.

use differential::product::Product;
use differential::run::{run, Report};
use ordinary::export;

extern "C" fn table_length(session_limit: u32) -> usize {
    export::table_length(session_limit)
}

extern "C" fn store_length() -> usize {
    export::store_length()
}

fn compare(seed: u64, calls: usize) -> Report {
    let product = Product {
        table_length,
        make_table: export::make,
        free_count: export::free,
        free_addresses: export::free_of_addresses,
        request: export::request,
        store_length,
        make_store: export::make_a_store,
        request_once: export::request_once,
        write_restoration: None,
        reading: None,
    };
    let report = run(&product, seed, calls);
    assert!(report.failures.is_empty(), "seed {seed}: {:#?}", report.failures);
    assert!(report.passed > 5 * calls as u64, "only {} checks", report.passed);
    report
}

#[test]
fn generated_calls() {
    let report = compare(20, 20_000);
    assert_eq!(report.calls, 20_000);
    assert!(report.unmet().is_empty(), "{:?}", report.unmet());
}

#[test]
fn another_seed() {
    let report = compare(21, 4_000);
    assert!(report.outcomes[1] > 100 && report.restored > 100);
}
