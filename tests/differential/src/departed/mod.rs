//! No memory of the departed (02 (xiii)): "Take two units with equal settings, whose histories [..]
//! differ in any way but whose live sessions agree in all but PDRs' precedences and FAR IDs. From
//! then on, any same sequence of calls to the engine, in equally long reply spaces, gets the same
//! outcomes, places, replies and free counts, and leaves tables that differ at most in these
//! fields." With 02 (xiv) it is read "over the pairs of peer and SEID, each request with its peer and
//! each restoration under its session's".
//!
//! * `side`: one of the two tables, with its past.
//! * `ways`: how two tables come to be alike.
//! * `reworded`: requests with other precedences and FAR IDs.
//! * `bare`: what is left without these fields, and how far tables differ in them.
//! * `compared`: the same calls on both, and what is compared.
//! * `report`: what a run has met, and what it should meet.
//! * `plant`: products that break the claim, for which the comparison must fail.

pub mod bare;
mod compared;
pub mod plant;
pub mod report;
mod reworded;
mod side;
pub mod ways;

use second::generate::random::Random;
use second::generate::{Generator, Scenario};
use second::settings::Settings;

use crate::product::Product;
use plant::{Engine, Plant};
use report::Report;
use side::Side;
use ways::{Script, Way};

/// How often two tables are brought to be alike, and how many same calls they get each time.
const ROUNDS: usize = 4;
const SAME_CALLS: usize = 60;
const MOST_FAILURES: usize = 20;

const ONE: usize = 0;
const OTHER: usize = 1;

/// Two tables with equal settings, and what generates their requests.
struct Pair<'a> {
    sides: [Side<'a>; 2],
    scripts: [Script; 2],
}

struct Run<'a> {
    product: &'a Product,
    plant: Option<Plant>,
    report: Report,
    random: Random,
}

/// Compares so many same calls from a seed, with a plant if there is one.
pub fn run(product: &Product, plant: Option<Plant>, seed: u64, calls: usize) -> Report {
    let mut run = Run { product, plant, report: Report::default(), random: Random::new(!seed) };
    let mut generator = Generator::new(seed);
    while run.report.calls < calls && run.report.failures.len() < MOST_FAILURES {
        let scenario = generator.scenario();
        run.pair(&scenario, calls);
    }
    run.report.ask_for_all();
    run.report
}

impl<'a> Run<'a> {
    /// Two tables. It ends at their first difference.
    fn pair(&mut self, scenario: &Scenario, calls: usize) {
        let Some(mut pair) = self.empty_pair(scenario) else { return };
        for _ in 0..ROUNDS {
            if self.report.calls >= calls {
                return;
            }
            let way = self.random.pick(&[Way::Restored, Way::Reworded]);
            pair.show(false);
            if !self.brought_alike(&mut pair, way) || !self.is_point(&pair, way) {
                return;
            }
            pair.show(true);
            let many = SAME_CALLS.min(calls - self.report.calls);
            if !(0..many).all(|_| self.same_call(&mut pair)) || !self.all_readings(&pair) {
                return;
            }
        }
    }

    fn empty_pair(&mut self, scenario: &Scenario) -> Option<Pair<'a>> {
        let engine = Engine::new(self.product, self.plant);
        let mut side = || Side::empty(engine.clone(), &scenario.settings, &mut self.random);
        let sides = side().zip(side());
        self.report.check(sides.is_some(), || format!("no table for {:?}", scenario.settings));
        let (one, other) = sides?;
        let scripts = [ONE, OTHER].map(|_| Script {
            generator: Generator::new(self.random.number()),
            scenario: scenario.clone(),
        });
        Some(Pair { sides: [one, other], scripts })
    }
}

impl Pair<'_> {
    fn show(&mut self, shows: bool) {
        self.sides.iter_mut().for_each(|side| side.engine.show(shows));
    }

    fn settings(&self) -> &Settings {
        &self.scripts[ONE].scenario.settings
    }
}

fn hexadecimal(octets: &[u8]) -> String {
    octets.iter().map(|octet| format!("{octet:02X}")).collect()
}
