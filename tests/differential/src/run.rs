//! The comparison: generated sequences of calls, restorations, and damaged tables.

use std::collections::{BTreeMap, BTreeSet};

use second::coverage::Coverage;
use second::element::fq_csid::NodeId;
use second::generate::largest;
use second::generate::random::Random;
use second::generate::{Call, Flavour, Generator};
use second::ie::LEAST_REPLY_SPACE;
use second::layout;
use second::live::LiveSet;
use second::repeats::OLD_NUMBER;
use second::restoration::{self, Envelope};
use second::session::{distinct_teids, taken_addresses, Key, Sessions};
use second::settings::{named_peer, Settings, LARGEST_LIMIT, PEERS};
use second::unit::limits::Limit;
use second::unit::{Decision, Reason, Unit, NO_PEER};

use crate::crowded;
use crate::product::Product;
use crate::repeats::Met;
use crate::site;
use crate::spoil::{self, REASONS};

/// From this many calls on, a run must have met every counter.
pub const CALLS_FOR_WHOLE_COVERAGE: usize = 20_000;

/// Generated calls on the largest tables, by session limit, before the sequences.
const CALLS_ON_LARGEST: [(u16, usize); 3] = [(5, 300), (64, 200), (LARGEST_LIMIT, 50)];

/// The octet around lent slices, and in a reply space before a call.
pub(crate) const FILLING: u8 = 0xA5;
const GUARD: usize = 64;

/// Octets to lend, with guards before and after them.
#[derive(Clone)]
pub(crate) struct Lent {
    octets: Vec<u8>,
}

impl Lent {
    pub(crate) fn new(content: &[u8]) -> Lent {
        let mut octets = vec![FILLING; GUARD];
        octets.extend(content);
        octets.extend([FILLING; GUARD]);
        Lent { octets }
    }

    pub(crate) fn filled(length: usize) -> Lent {
        Lent { octets: vec![FILLING; GUARD + length + GUARD] }
    }

    pub(crate) fn lend(&mut self) -> &mut [u8] {
        let end = self.octets.len() - GUARD;
        &mut self.octets[GUARD..end]
    }

    pub(crate) fn content(&self) -> &[u8] {
        &self.octets[GUARD..self.octets.len() - GUARD]
    }

    /// Whether nothing was written from a place on, nor around it.
    pub(crate) fn is_filled_from(&self, start: usize) -> bool {
        let content = self.content();
        content[start.min(content.len())..].iter().all(|octet| *octet == FILLING)
            && self.guards_hold()
    }

    pub(crate) fn guards_hold(&self) -> bool {
        let (first, last) = (&self.octets[..GUARD], &self.octets[self.octets.len() - GUARD..]);
        first.iter().chain(last).all(|octet| *octet == FILLING)
    }
}

/// What a call of the product gave: outcome, reply, place and the reply space after it.
pub(crate) struct Answer {
    outcome: u32,
    used: usize,
    place: usize,
    space: Lent,
}

impl Answer {
    pub(crate) fn reply(&self) -> &[u8] {
        let space = self.space.content();
        &space[..self.used.min(space.len())]
    }

    fn rest_is_unchanged(&self) -> bool {
        self.space.is_filled_from(self.used)
    }
}

/// What one sequence has brought about, on both sides.
pub(crate) struct State {
    pub(crate) unit: Unit,
    pub(crate) live: LiveSet,
    pub(crate) table: Lent,
}

impl State {
    /// A unit, and a table with the same records.
    pub(crate) fn of(unit: Unit) -> State {
        let live = LiveSet { sessions: unit.sessions().clone() };
        let table = Lent::new(&layout::encode(unit.settings(), unit.sessions()));
        State { unit, live, table }
    }
}

pub struct Report {
    pub calls: usize,
    pub restored: usize,
    /// Restoration requests that the product wrote.
    pub written: usize,
    /// SEIDs and TEIDs that were asked for in sound tables, and those of them that were found.
    pub asked: usize,
    pub found: usize,
    pub damaged: usize,
    /// Damaged tables that were sound all the same.
    pub still_sound: usize,
    pub passed: u64,
    pub failures: Vec<String>,
    pub coverage: Coverage,
    /// How often the product gave each host outcome to a request without a store; 6 is of one with it.
    pub outcomes: [u64; 8],
    /// How often a table was broken for each reason.
    pub reasons: BTreeMap<&'static str, u64>,
    /// How often an establishment was refused only because its peer's half was full, by session limit.
    pub full: BTreeMap<u16, u64>,
    /// Calls with a store of repeated requests, and what was met in them.
    pub calls_with_store: usize,
    pub met: Met,
}

impl Report {
    fn new() -> Report {
        Report {
            calls: 0,
            restored: 0,
            written: 0,
            asked: 0,
            found: 0,
            damaged: 0,
            still_sound: 0,
            passed: 0,
            failures: Vec::new(),
            coverage: Coverage::new(),
            outcomes: [0; 8],
            reasons: REASONS.iter().map(|reason| (*reason, 0)).collect(),
            full: site::LIMITS.iter().map(|limit| (*limit, 0)).collect(),
            calls_with_store: 0,
            met: Met::new(),
        }
    }

    /// Notes a check; gives back whether it held.
    pub(crate) fn check(&mut self, holds: bool, what: impl FnOnce() -> String) -> bool {
        match holds {
            true => self.passed += 1,
            false => self.failures.push(format!("call {}: {}", self.calls, what())),
        }
        holds
    }

    /// What a whole run should have met and has not.
    pub fn unmet(&self) -> Vec<String> {
        let counters = self.coverage.unmet();
        let mut unmet: Vec<String> = counters.iter().map(|counter| counter.to_string()).collect();
        for (number, count) in self.outcomes.iter().enumerate() {
            if *count == 0 && number != usize::from(OLD_NUMBER) {
                unmet.push(format!("outcome {number} of the product"));
            }
        }
        for (reason, count) in &self.reasons {
            if *count == 0 {
                unmet.push(format!("a table broken by: {reason}"));
            }
        }
        for (limit, _) in self.full.iter().filter(|(_, count)| **count == 0) {
            unmet.push(format!("a full table of session limit {limit}"));
        }
        if self.still_sound == 0 {
            unmet.push("a damaged table that is sound".to_string());
        }
        unmet.extend(self.met.rare());
        unmet
    }
}

/// Runs so many generated calls from a seed.
pub fn run(product: &Product, seed: u64, calls: usize) -> Report {
    let mut run = Run { product, report: Report::new(), random: Random::new(!seed) };
    run.made_tables();
    let mut generator = Generator::new(!seed);
    for (limit, calls) in CALLS_ON_LARGEST {
        run.largest_tables(&mut generator, limit, calls);
    }
    run.sites(&mut generator);
    run.crowded_messages();
    run.written_of_random_tables();
    run.found_in_random_tables();
    run.traffic(&mut Generator::new(seed.wrapping_add(1)), calls);
    let mut generator = Generator::new(seed);
    while run.report.calls < calls && run.report.failures.len() < 20 {
        run.sequence(&mut generator, calls);
    }
    if calls >= CALLS_FOR_WHOLE_COVERAGE {
        for what in run.report.unmet() {
            run.report.check(false, || format!("not met, or too rarely: {what}"));
        }
        let whole = run.report.unmet().is_empty();
        run.report.check(whole, || "the coverage is not whole".to_string());
    }
    run.report
}

pub(crate) struct Run<'a> {
    pub(crate) product: &'a Product,
    pub(crate) report: Report,
    pub(crate) random: Random,
}

impl Run<'_> {
    /// One generated sequence. It ends at its first difference.
    fn sequence(&mut self, generator: &mut Generator, calls: usize) {
        let mut scenario = generator.scenario();
        self.refused_making(generator, &scenario.settings);
        let Some(mut state) = self.empty_state(&scenario.settings) else { return };
        for number in 0..scenario.calls.min(calls - self.report.calls) {
            let call = generator.call(&mut scenario, &state.live.sessions);
            let same = self.one_call(&mut state, &call);
            self.report.calls += 1;
            if !same {
                return;
            }
            if number % 4 == 3 {
                self.damaged_table(&state, &call);
            }
            // The largest ones take long and are restored at the end only.
            if number % 60 == 59 && scenario.flavour != Flavour::Site {
                self.restore_all(&state);
            }
        }
        self.restore_all(&state);
        let positions = if scenario.flavour.is_crowd() { 100 } else { 25 };
        self.single_octets(state.table.content(), positions);
    }

    fn empty_table(&mut self, settings: &Settings) -> Option<Lent> {
        // Made over any content.
        let mut content = vec![0; layout::length(settings.session_limit)];
        let filling = self.random.octet();
        content.fill(filling);
        let mut table = Lent::new(&content);
        let ipv6: &[u8] = settings.ipv6.as_ref().map_or(&[], |address| address);
        let made = self.product.make_table(
            table.lend(),
            settings.ipv4,
            ipv6,
            (settings.first, settings.size),
            (settings.first_address, settings.addresses),
            (settings.session_limit.into(), settings.peers),
        );
        let right = made == 0
            && table.guards_hold()
            && table.content() == layout::encode(settings, &Sessions::new());
        self.report.check(right, || format!("an empty table for {settings:?}")).then_some(table)
    }

    pub(crate) fn empty_state(&mut self, settings: &Settings) -> Option<State> {
        let table = self.empty_table(settings)?;
        let unit = Unit::new(settings.clone()).expect("settings that are allowed");
        Some(State { table, ..State::of(unit) })
    }

    /// The product's answers to both free counts: TEIDs and addresses.
    pub(crate) fn free(&self, table: &[u8]) -> [(u32, u32); 2] {
        [self.product.free_count(table), self.product.free_addresses(table)]
    }

    pub(crate) fn ask(&mut self, table: &mut Lent, call: &Call) -> Answer {
        let mut space = Lent::filled(call.reply_space);
        let (outcome, used, place) =
            self.product.request(table.lend(), call.peer, &call.message, space.lend());
        if let Some(count) = self.report.outcomes.get_mut(outcome as usize) {
            *count += 1;
        }
        Answer { outcome, used, place, space }
    }

    /// One call on both sides; whether all was the same.
    pub(crate) fn one_call(&mut self, state: &mut State, call: &Call) -> bool {
        let before = state.unit.sessions().clone();
        let table_before = state.table.content().to_vec();
        let decision = state.unit.decide(call.peer, &call.message, call.reply_space);
        let settings = state.unit.settings().clone();
        self.report.coverage.decided(call, &decision, &settings, &before);
        if is_full(&decision) {
            *self.report.full.entry(settings.session_limit).or_insert(0) += 1;
        }
        let mut expected = vec![FILLING; call.reply_space];
        let outcome = state.unit.request(call.peer, &call.message, &mut expected);
        expected.truncate(outcome.reply_length);

        let answer = self.ask(&mut state.table, call);
        let what = |part: &str| {
            format!("{part} to peer {}'s message {}", call.peer, hexadecimal(&call.message))
        };
        let report = &mut self.report;
        let mut same = report.check(answer.outcome == u32::from(outcome.number), || {
            what(&format!("outcome {} instead of {}", answer.outcome, outcome.number))
        });
        same &= report.check(answer.used == outcome.reply_length, || what("another reply length"));
        same &= report.check(answer.place == outcome.place, || {
            what(&format!("place {} instead of {}", answer.place, outcome.place))
        });
        same &= report.check(answer.reply() == expected, || {
            what(&format!(
                "reply {} instead of {}",
                hexadecimal(answer.reply()),
                hexadecimal(&expected)
            ))
        });
        same &= report.check(answer.rest_is_unchanged(), || what("octets after the reply, "));

        // "Any cause but 1 leaves the table unchanged."
        let table = state.table.content();
        if !matches!(decision, Decision::Accepted { .. }) {
            same &= report.check(table == table_before, || what("a change by a refusal, "));
        }
        same &= report.check(state.table.guards_hold(), || what("octets around the table, "));
        let (settings, sessions) = (state.unit.settings(), state.unit.sessions());
        let read = layout::decode(table);
        let records_same = read.is_some_and(|read| read.0 == *settings && read.1 == *sessions);
        same &= report.check(records_same, || what("other records in the table, "));
        let octets = layout::encode(settings, sessions);
        same &= report.check(table == octets, || what("other octets of the table, "));

        // The live set comes from the product's replies alone.
        let followed =
            state.live.follow(call.peer, &call.message, answer.outcome as u8, answer.reply());
        same &= report.check(followed.is_ok(), || what(&format!("live set: {followed:?}")));
        same &= report.check(state.live.sessions == *sessions, || what("another live set, "));
        let free = self.product.free_count(table);
        same &= report.check(free == (0, state.unit.free_count()), || what("another free count"));
        let free = self.product.free_addresses(table);
        let right = free == (0, state.unit.free_addresses());
        report.check(right, || what("other free addresses")) && same
    }

    /// A call on a damaged copy of the table.
    fn damaged_table(&mut self, state: &State, call: &Call) {
        let mut content = state.table.content().to_vec();
        for _ in 0..self.random.pick(&[1, 1, 1, 2]) {
            spoil::spoil(&mut content, &mut self.random);
        }
        self.changed_table(content, call);
    }

    /// A call on these octets: outcome 1 exactly where they are a broken table, and the answer of a
    /// unit with the same records where they are sound.
    pub(crate) fn changed_table(&mut self, content: Vec<u8>, call: &Call) {
        let mut table = Lent::new(&content);
        let free = self.free(table.content());
        let answer = self.ask(&mut table, call);
        self.report.damaged += 1;
        match layout::sound(&content) {
            Err(reason) => {
                self.broken(&reason);
                let report = &mut self.report;
                // Without a peer the table is not looked at.
                let expected = if named_peer(call.peer).is_some() { 1 } else { NO_PEER.into() };
                let given = (answer.outcome, answer.used, answer.place);
                let right = free == BROKEN && given == (expected, 0, 0);
                report.check(right, || format!("outcome {} for {reason}", answer.outcome));
                let unchanged = table.content() == content && table.guards_hold();
                report.check(unchanged, || format!("a table with {reason} was changed"));
                report.check(answer.rest_is_unchanged(), || format!("a reply for {reason}"));
                self.nothing_written(&content);
                self.nothing_found(&content);
            }
            Ok((settings, sessions)) => {
                self.report.still_sound += 1;
                self.written_requests(&settings, &sessions);
                self.found_places(&settings, &sessions);
                let Some(mut unit) = self.unit_with(&settings, &sessions) else { return };
                let counts = free_of(&unit);
                let mut expected = vec![FILLING; call.reply_space];
                let outcome = unit.request(call.peer, &call.message, &mut expected);
                expected.truncate(outcome.reply_length);
                let report = &mut self.report;
                report.check(free == counts, || "the free counts of a changed table".into());
                let same = answer.outcome == u32::from(outcome.number)
                    && answer.place == outcome.place
                    && answer.reply() == expected
                    && answer.rest_is_unchanged();
                report.check(same, || "another answer on a changed table".into());
                let octets = layout::encode(&settings, unit.sessions());
                let same = table.content() == octets && table.guards_hold();
                report.check(same, || "other octets of a changed table".into());
            }
        }
    }

    fn broken(&mut self, reason: &str) {
        let known = REASONS.iter().find(|known| reason.contains(**known));
        match known {
            Some(known) => *self.report.reasons.entry(known).or_insert(0) += 1,
            None => drop(self.report.check(false, || format!("a new kind of damage: {reason}"))),
        }
    }

    /// A unit of the second implementation with these records.
    pub(crate) fn unit_with(&mut self, settings: &Settings, sessions: &Sessions) -> Option<Unit> {
        let mut unit = Unit::new(settings.clone())?;
        for (key, session) in sessions {
            let envelope =
                Envelope { header_seid: 0, sequence: 0, ipv4: Some([127, 0, 0, 1]), ipv6: None };
            let message = restoration::request(settings, key.seid, session, &envelope)?;
            unit.request(key.peer.into(), &message, &mut [0; LEAST_REPLY_SPACE]);
        }
        let same = unit.sessions() == sessions;
        self.report.check(same, || "a sound table that cannot be restored".into());
        same.then_some(unit)
    }

    /// Single octets of a table changed: outcome 1 exactly where that breaks it.
    pub(crate) fn single_octets(&mut self, table: &[u8], positions: usize) {
        let mut table = Lent::new(table);
        for _ in 0..positions {
            let at = spoil::an_offset(table.content(), &mut self.random);
            let flip = match self.random.percent(50) {
                true => 1 << self.random.below(8),
                false => self.random.between(1, 255) as u8,
            };
            table.lend()[at] ^= flip;
            self.report.damaged += 1;
            let free = self.free(table.content());
            let right = match layout::sound(table.content()) {
                Err(reason) => {
                    self.broken(&reason);
                    free == BROKEN
                }
                Ok((settings, sessions)) => {
                    self.report.still_sound += 1;
                    let taken = distinct_teids(&sessions).len() as u32;
                    let taken_addresses = taken_addresses(&settings, &sessions).len() as u32;
                    free == [(0, settings.size - taken), (0, settings.addresses - taken_addresses)]
                }
            };
            self.report.check(right, || format!("octet {at} changed by {flip:02X}: {free:?}"));
            table.lend()[at] ^= flip;
        }
        let guarded = table.guards_hold();
        self.report.check(guarded, || "octets around the table".into());
    }

    /// Restores every live session, in any order over both peers, each under its own, into an empty
    /// table: it becomes the same table.
    pub(crate) fn restore_all(&mut self, state: &State) {
        let (settings, live) = (state.unit.settings(), &state.live.sessions);
        let Some(mut table) = self.empty_table(settings) else { return };
        let mut keys: Vec<Key> = live.keys().copied().collect();
        self.random.shuffle(&mut keys);
        for key in keys {
            let envelope = Envelope::any(&mut self.random, key.seid);
            let reply_space = self.random.pick(&[LEAST_REPLY_SPACE, LEAST_REPLY_SPACE + 1, 3000]);
            let message = restoration::request(settings, key.seid, &live[&key], &envelope);
            let message = message.expect("a live session can be restored");
            let longest = message.len() <= restoration::LONGEST;
            self.report.check(longest, || format!("a restoration of {} octets", message.len()));
            let call = Call { peer: key.peer.into(), message, reply_space };
            let answer = self.ask(&mut table, &call);
            let expected = restored_reply(settings, key, envelope.sequence);
            let right = (answer.outcome, answer.place) == (0, 0)
                && answer.reply() == expected
                && answer.rest_is_unchanged();
            self.report.check(right, || format!("restoration of {key:?}"));
            self.report.restored += 1;
        }
        let same = table.content() == state.table.content() && table.guards_hold();
        self.report.check(same, || "the restored table differs".into());
        self.written_requests(settings, live);
        self.found_places(settings, live);
    }

    /// A table with everything that it has room for.
    fn largest_tables(&mut self, generator: &mut Generator, limit: u16, calls: usize) {
        let (settings, sessions) = (largest::settings(limit), largest::sessions(limit));
        let Some(unit) = self.unit_with(&settings, &sessions) else { return };
        self.sets_of_largest_table(&unit);
        if let Some(state) = self.largest_table(generator, unit, calls) {
            // The largest one of all takes too long.
            if limit < LARGEST_LIMIT {
                self.emptied_table(state);
            }
        }
    }

    /// Brought about by restorations, damaged, then with some generated calls.
    fn largest_table(
        &mut self,
        generator: &mut Generator,
        unit: Unit,
        calls: usize,
    ) -> Option<State> {
        let settings = unit.settings().clone();
        let mut state = State::of(unit);
        self.restore_all(&state);
        let free = self.free(state.table.content());
        self.report.check(free == [(0, 0); 2], || format!("free {free:?} of the largest table"));
        self.single_octets(state.table.content(), 300);
        let mut scenario = generator.scenario();
        scenario.settings = settings;
        scenario.flavour = Flavour::Full;
        for _ in 0..calls {
            let call = generator.call(&mut scenario, &state.live.sessions);
            if !self.one_call(&mut state, &call) {
                return None;
            }
        }
        self.restore_all(&state);
        Some(state)
    }

    /// Every session is deleted, the table stays right, and nothing is left at the end.
    fn emptied_table(&mut self, mut state: State) {
        let mut keys: Vec<Key> = state.live.sessions.keys().copied().collect();
        self.random.shuffle(&mut keys);
        for key in keys {
            let mut message = vec![0x21, 54, 0, 12];
            message.extend(key.seid.to_be_bytes());
            message.extend([0, 0, 9, 0]);
            self.one_call(&mut state, &asked(key.peer, message));
        }
        let empty = state.unit.sessions().is_empty();
        self.report.check(empty, || "sessions left after their deletion".into());
        self.every_octet(state.table.content());
    }

    /// Every octet of a table, changed by one bit.
    fn every_octet(&mut self, table: &[u8]) {
        for at in 0..table.len() {
            let mut changed = table.to_vec();
            changed[at] ^= 1 << self.random.below(8);
            let outcomes = self.free(&changed).map(|free| free.0);
            let right = outcomes == [u32::from(layout::sound(&changed).is_err()); 2];
            self.report.check(right, || format!("octet {at} of an empty table changed"));
        }
    }

    /// Set deletions of each peer on the largest table: of the numbers in its half none, the first, the
    /// last, every second, all. What the other peer has of the same cards stays.
    fn sets_of_largest_table(&mut self, unit: &Unit) {
        let limit = unit.settings().session_limit;
        let (count, half) = (largest::count(limit), limit / 2);
        let chosen: [fn(u16, u16) -> bool; 8] = [
            |_, _| false,
            |number, _| number == 0,
            |number, last| number == last,
            |number, _| number % 2 == 1,
            |number, _| number % 3 == 0,
            |number, _| number != 0,
            |number, last| number != last,
            |_, _| true,
        ];
        let by_type = chosen.into_iter().flat_map(|c| (0..6).map(move |n| (c, n)));
        for (choice, node_type, peer) in by_type.flat_map(|(c, n)| PEERS.map(|peer| (c, n, peer))) {
            let mut state = State::of(unit.clone());
            let numbers = (0..count).filter(|number| choice(*number % half, half - 1));
            let csids: BTreeSet<u16> = numbers.map(|n| largest::csid(node_type, n)).collect();
            let lists: Vec<u16> = csids.iter().copied().collect();
            let NodeId::Ipv6(address) = largest::node(node_type) else { return };
            let elements: Vec<Vec<u8>> = lists
                .chunks(15)
                .map(|csids| crowded::fq_csid_of(1, &address, csids, node_type))
                .collect();
            let message = crowded::set_deletion(&elements);
            self.one_call(&mut state, &asked(peer, message));
            let stays = |number: &u16| {
                largest::key(limit, *number).peer != peer
                    || !csids.contains(&largest::csid(node_type, *number))
            };
            let left = (0..count).filter(stays).count();
            let right = state.live.sessions.len() == left;
            self.report.check(right, || format!("{left} sessions of the largest table stay"));
        }
    }

    /// Messages with as many records as fit, each on a table with one small session.
    fn crowded_messages(&mut self) {
        let (live, new) = (1, 2);
        for message in crowded::messages(live, new) {
            let Some(mut state) = self.empty_state(&largest::settings(64)) else { return };
            self.one_call(&mut state, &asked(2, crowded::first(live)));
            self.one_call(&mut state, &asked(2, message));
            self.restore_all(&state);
        }
    }
}

/// A call of a peer with the least reply space.
pub(crate) fn asked(peer: u8, message: Vec<u8>) -> Call {
    Call { peer: peer.into(), message, reply_space: LEAST_REPLY_SPACE }
}

/// Whether an establishment is refused only because its peer's half is full.
fn is_full(decision: &Decision) -> bool {
    let full = |reasons: &[Reason]| {
        matches!(reasons, [Reason::Limit(Limit::Sessions | Limit::SessionsByRestoration)])
    };
    matches!(decision, Decision::Refused(refused) if full(&refused.reasons))
}

/// Both free counts of a broken table.
const BROKEN: [(u32, u32); 2] = [(1, 0); 2];

/// Both free counts of a unit.
fn free_of(unit: &Unit) -> [(u32, u32); 2] {
    [(0, unit.free_count()), (0, unit.free_addresses())]
}

/// The whole reply to an accepted restoration: nothing is granted.
fn restored_reply(settings: &Settings, key: Key, sequence: u32) -> Vec<u8> {
    let home = settings.peer(key.peer).address;
    let mut reply = vec![0x21, 51, 0, 43];
    reply.extend(key.seid.to_be_bytes());
    reply.extend(&sequence.to_be_bytes()[1..]);
    reply.extend([0, 0, 60, 0, 5, 0]);
    reply.extend(home);
    reply.extend([0, 19, 0, 1, 1, 0, 57, 0, 13, 2]);
    reply.extend(key.seid.to_be_bytes());
    reply.extend(home);
    reply
}

pub(crate) fn hexadecimal(octets: &[u8]) -> String {
    octets.iter().map(|octet| format!("{octet:02X}")).collect()
}
