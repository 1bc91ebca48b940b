//! Generated sequences of calls.

use second::coverage;
use second::generate::Generator;
use second::live::LiveSet;
use second::selfcheck;

#[test]
fn a_whole_run_passes_and_meets_every_counter() {
    let report = selfcheck::run(1, selfcheck::CALLS_FOR_WHOLE_COVERAGE);
    assert_eq!(report.failures, Vec::<String>::new());
    assert_eq!(report.coverage.unmet(), vec![]);
    assert_eq!(report.coverage.unexpected(), vec![]);
    assert_eq!(report.longest_restoration, 1742);
    assert_eq!(report.longest_reply, 1191);
}

#[test]
fn short_runs_of_other_seeds_pass() {
    for seed in 2..6 {
        let report = selfcheck::run(seed, 1_500);
        assert_eq!(report.failures, Vec::<String>::new(), "seed {seed}");
        assert!(report.passed > 10_000, "seed {seed}");
    }
}

#[test]
fn a_seed_fixes_the_calls() {
    let calls = |seed| {
        let mut generator = Generator::new(seed);
        let mut scenario = generator.scenario();
        let live = LiveSet::new();
        let mut all = Vec::new();
        for _ in 0..50 {
            all.push(generator.call(&mut scenario, &live.sessions).message);
        }
        all
    };
    assert_eq!(calls(5), calls(5));
    assert_ne!(calls(5), calls(6));
}

#[test]
fn an_empty_run_has_met_nothing() {
    let none = coverage::Coverage::new();
    assert_eq!(none.unmet().len(), coverage::expected().len());
}
