//! Requests with a store of repeated requests: traffic of two peers that send some of them again, each
//! with its store, each call compared whole; damaged stores and tables.

use std::collections::BTreeMap;

use second::generate::random::Random;
use second::generate::traffic::Traffic;
use second::generate::{Call, Generator};
use second::ie::LEAST_REPLY_SPACE;
use second::layout;
use second::live::LiveSet;
use second::repeats::{request_once, way_of, Way};
use second::request::header;
use second::settings::named_peer;
use second::store::{self, Entry, ALL_BROKEN, LENGTH, MOST_ENTRIES};
use second::unit::{Unit, NO_PEER};

use crate::run::{hexadecimal, Lent, Run, FILLING};
use crate::spoil;
use crate::spoil_store;

/// One call with a store for so many without.
const CALLS_WITHOUT: usize = 5;

/// A whole run must have met each kind so often.
const LEAST: u64 = 10;

/// What calls with a store are counted by, beside the ways for one to be broken.
pub const KINDS: [&str; 26] = [
    "taken by an empty store",
    "taken and accepted",
    "taken and refused",
    "taken, and the oldest of eight goes",
    "taken after 8,388,607 numbers",
    "taken past the last number",
    "taken, a set deletion",
    "taken after a set deletion",
    "repeat of the newest",
    "repeat of the oldest of eight",
    "repeat of another",
    "repeat of a refused request",
    "repeat in too small a space",
    "dropped with the last number",
    "dropped after 8,388,608 numbers",
    "dropped with another number",
    "dropped, a request that has gone from the store",
    "broken table with a sound store",
    "broken table with a broken store",
    "damaged store that is sound",
    "taken, though the other peer's store holds it",
    "dropped, though the other peer's store holds it",
    "a repeat of the second peer's",
    "no peer",
    "no peer, and a broken store",
    "no peer, and a broken table",
];

/// How often each kind was met.
pub struct Met {
    counts: BTreeMap<String, u64>,
}

impl Met {
    pub(crate) fn new() -> Met {
        let kinds = KINDS.iter().map(|kind| kind.to_string());
        Met {
            counts: kinds.chain(ALL_BROKEN.iter().map(broken_by)).map(|kind| (kind, 0)).collect(),
        }
    }

    fn note(&mut self, kind: &str) {
        *self.counts.get_mut(kind).expect("a kind of the list") += 1;
    }

    pub fn counts(&self) -> impl Iterator<Item = (&String, &u64)> {
        self.counts.iter()
    }

    /// The kinds that a whole run met too rarely.
    pub fn rare(&self) -> Vec<String> {
        let rare = self.counts.iter().filter(|(_, count)| **count < LEAST);
        rare.map(|(kind, count)| format!("with a store: {kind}, {count} times")).collect()
    }
}

fn broken_by(broken: &store::Broken) -> String {
    format!("broken store: {broken}")
}

/// What a sequence has brought about, on both sides.
struct Served {
    unit: Unit,
    table: Lent,
    live: LiveSet,
    peers: [Kept; 2],
}

/// What is kept of a peer's requests.
struct Kept {
    entries: Vec<Entry>,
    store: Lent,
    traffic: Traffic,
    /// Every message that was stored.
    stored: Vec<Vec<u8>>,
}

impl Kept {
    fn new(random: &mut Random) -> Kept {
        let (entries, stored) = (vec![], vec![]);
        let store = Lent::new(&store::encode(&entries));
        Kept { entries, store, traffic: Traffic::new(random), stored }
    }

    fn holds(&self, message: &[u8]) -> bool {
        self.entries.iter().any(|entry| entry.message == message)
    }
}

/// Which of the two stores is lent; where there is no such peer it may be any.
fn lent_to(peer: u32) -> usize {
    usize::from(peer == 2)
}

/// What a call is to answer and to leave.
struct Expected {
    outcome: u32,
    used: usize,
    place: usize,
    space: Vec<u8>,
    table: Vec<u8>,
    store: Vec<u8>,
}

impl Expected {
    /// A call on broken octets, which are not looked at where there is no such peer.
    fn refusal(table: &[u8], store: &[u8], call: &Call) -> Expected {
        let outcome = if named_peer(call.peer).is_some() { 1 } else { NO_PEER.into() };
        let space = vec![FILLING; call.reply_space];
        let (table, store) = (table.to_vec(), store.to_vec());
        Expected { outcome, used: 0, place: 0, space, table, store }
    }

    /// A call on a unit and entries, which it changes.
    fn of(unit: &mut Unit, entries: &mut Vec<Entry>, call: &Call) -> Expected {
        let mut space = vec![FILLING; call.reply_space];
        let (_, outcome) = request_once(unit, call.peer, entries, &call.message, &mut space);
        Expected {
            outcome: outcome.number.into(),
            used: outcome.reply_length,
            place: outcome.place,
            space,
            table: layout::encode(unit.settings(), unit.sessions()),
            store: store::encode(entries),
        }
    }
}

impl Run<'_> {
    /// Stores that are made, then sequences of traffic: a part of the calls of the whole run.
    pub(crate) fn traffic(&mut self, generator: &mut Generator, calls: usize) {
        self.made_stores();
        let mut left = calls / CALLS_WITHOUT;
        while left > 0 && self.report.failures.len() < 20 {
            left -= self.traffic_sequence(generator, left);
        }
        self.every_octet_of_a_store();
    }

    /// Made of any octets with the right length only.
    fn made_stores(&mut self) {
        let length = self.product.store_length();
        self.report.check(length == LENGTH, || format!("stores of {length} octets"));
        for length in [0, 1, LENGTH - 1, LENGTH, LENGTH + 1, 2 * LENGTH] {
            let content = self.random.octets(length);
            let mut lent = Lent::new(&content);
            let answer = self.product.make_store(lent.lend());
            let expected = match length == LENGTH {
                true => (0, vec![0; LENGTH]),
                false => (1, content),
            };
            let right = (answer, lent.content()) == (expected.0, &expected.1) && lent.guards_hold();
            self.report.check(right, || format!("a store made of {length} octets: {answer}"));
        }
    }

    /// One sequence of at most so many calls; how many were made. It ends at its first difference.
    fn traffic_sequence(&mut self, generator: &mut Generator, most: usize) -> usize {
        let mut scenario = generator.scenario();
        let unit = Unit::new(scenario.settings.clone()).expect("generated settings are allowed");
        let table = Lent::new(&layout::encode(&scenario.settings, unit.sessions()));
        let peers = [Kept::new(&mut self.random), Kept::new(&mut self.random)];
        let mut served = Served { unit, table, live: LiveSet::new(), peers };
        let calls = scenario.calls.min(most);
        for number in 0..calls {
            let generated = generator.call(&mut scenario, &served.live.sessions);
            let call = self.next_call(&mut served, generated);
            if !self.one_request(&mut served, &call) {
                break;
            }
            if number % 2 == 1 {
                self.damaged_store(&served, &call);
            }
            if number % 16 == 7 {
                let call = self.of_any_number(call);
                self.damaged_table_with_store(&served, &call);
            }
        }
        self.report.calls_with_store += calls;
        calls
    }

    /// A generated call as one of its peer's traffic; now and then what the other peer has sent.
    fn next_call(&mut self, served: &mut Served, generated: Call) -> Call {
        let at = lent_to(generated.peer);
        let others = &served.peers[1 - at].entries;
        if !others.is_empty() && self.random.percent(6) {
            return Call { message: self.random.pick(others).message, ..generated };
        }
        served.peers[at].traffic.call(&mut self.random, generated)
    }

    /// One call on both sides; whether all was the same.
    fn one_request(&mut self, served: &mut Served, call: &Call) -> bool {
        let at = lent_to(call.peer);
        let way = way_of(call.peer, &served.peers[at].entries, &call.message, call.reply_space);
        self.note_of_peers(served, call, way);
        self.note_before(&served.peers[at], call, way);
        let kept = &mut served.peers[at];
        let expected = Expected::of(&mut served.unit, &mut kept.entries, call);
        let same = self.same_answer(&mut served.table, &mut kept.store, call, &expected);
        if way == Way::Engine {
            let reply = &expected.space[..expected.used];
            let before = served.live.sessions.clone();
            let followed = served.live.follow(call.peer, &call.message, 0, reply);
            self.report.check(followed.is_ok(), || format!("live set: {followed:?}"));
            let changed = served.live.sessions != before;
            self.report.met.note(if accepts(reply) {
                "taken and accepted"
            } else {
                "taken and refused"
            });
            self.report
                .check(accepts(reply) || !changed, || "a refusal changed the live set".into());
            kept.traffic.was_stored(&call.message);
            kept.stored.push(call.message.clone());
        }
        // The live set is that of the requests that reached the engine.
        let live = served.live.sessions == *served.unit.sessions();
        self.report.check(live, || "another live set with a store".into()) && same
    }

    /// Makes a call of the product and compares all that it answers and leaves.
    fn same_answer(
        &mut self,
        table: &mut Lent,
        store: &mut Lent,
        call: &Call,
        expected: &Expected,
    ) -> bool {
        let mut space = Lent::filled(call.reply_space);
        let (peer, message) = (call.peer, &call.message);
        let answer =
            self.product.request_once(table.lend(), peer, store.lend(), message, space.lend());
        let right = (expected.outcome, expected.used, expected.place);
        let report = &mut self.report;
        let what =
            |part: &str| format!("{part} with a store, to peer {peer}'s {}", hexadecimal(message));
        let mut same =
            report.check(answer == right, || what(&format!("{answer:?}, not {right:?},")));
        same &= report.check(space.content() == expected.space, || what("another reply space"));
        same &= report.check(table.content() == expected.table, || what("another table"));
        same &= report.check(store.content() == expected.store, || what("another store"));
        let guarded = table.guards_hold() && store.guards_hold() && space.guards_hold();
        report.check(guarded, || what("octets around a slice")) && same
    }

    /// A call on a damaged store, and where it is sound also one with a message that it holds.
    fn damaged_store(&mut self, served: &Served, call: &Call) {
        let entries = &served.peers[lent_to(call.peer)].entries;
        let content = spoil_store::spoil(entries, &mut self.random);
        let table = served.table.content();
        match store::sound(&content) {
            Err(broken) => {
                self.report.met.note(&match named_peer(call.peer) {
                    Some(_) => broken_by(&broken),
                    None => "no peer, and a broken store".to_string(),
                });
                self.changed_octets(table, &content, call, None);
            }
            Ok(entries) => {
                self.report.met.note("damaged store that is sound");
                let pair = (&served.unit, &entries[..]);
                self.changed_octets(table, &content, call, Some(pair));
                if !entries.is_empty() {
                    let message = self.random.pick(&entries).message;
                    let call = Call { message, reply_space: LEAST_REPLY_SPACE, ..*call };
                    self.changed_octets(table, &content, &call, Some(pair));
                }
            }
        }
    }

    /// The same call, sometimes with a number that is no peer's.
    fn of_any_number(&mut self, call: Call) -> Call {
        let other = self.random.pick(&[0, 3, u32::MAX]);
        let peer = if self.random.percent(20) { other } else { call.peer };
        Call { peer, ..call }
    }

    /// A call on a damaged table, with the store as it is or damaged too.
    fn damaged_table_with_store(&mut self, served: &Served, call: &Call) {
        let mut table = served.table.content().to_vec();
        spoil::spoil(&mut table, &mut self.random);
        let kept = &served.peers[lent_to(call.peer)];
        let content = match self.random.percent(50) {
            true => kept.store.content().to_vec(),
            false => spoil_store::spoil(&kept.entries, &mut self.random),
        };
        let entries = store::sound(&content);
        let unit = match layout::sound(&table) {
            Err(_) => {
                self.report.met.note(match (named_peer(call.peer), entries.is_ok()) {
                    (None, _) => "no peer, and a broken table",
                    (_, true) => "broken table with a sound store",
                    (_, false) => "broken table with a broken store",
                });
                None
            }
            Ok((settings, sessions)) => self.unit_with(&settings, &sessions),
        };
        let pair = unit.as_ref().zip(entries.as_deref().ok());
        self.changed_octets(&table, &content, call, pair);
    }

    /// A call on copies of these octets, which are sound where they have a unit and entries.
    fn changed_octets(
        &mut self,
        table: &[u8],
        store: &[u8],
        call: &Call,
        sound: Option<(&Unit, &[Entry])>,
    ) {
        let expected = match sound {
            None => Expected::refusal(table, store, call),
            Some((unit, entries)) => Expected::of(&mut unit.clone(), &mut entries.to_vec(), call),
        };
        self.same_answer(&mut Lent::new(table), &mut Lent::new(store), call, &expected);
    }

    /// Every octet of a full store, changed by one bit: outcome 1 exactly where that breaks it. The
    /// message is none, so another outcome is 4.
    fn every_octet_of_a_store(&mut self) {
        let (mut scenario, mut generator) = (Generator::new(1).scenario(), Generator::new(2));
        scenario.settings.session_limit = 2;
        let mut unit = Unit::new(scenario.settings.clone()).expect("settings that are allowed");
        let mut entries = vec![];
        let mut traffic = Traffic::new(&mut self.random);
        while entries.len() < MOST_ENTRIES {
            let generated = generator.call(&mut scenario, unit.sessions());
            let call = Call { peer: 2, ..traffic.call(&mut self.random, generated) };
            if way_of(2, &entries, &call.message, call.reply_space) == Way::Engine {
                traffic.was_stored(&call.message);
            }
            Expected::of(&mut unit, &mut entries, &call);
        }
        let mut table = Lent::new(&layout::encode(unit.settings(), unit.sessions()));
        let mut lent = Lent::new(&store::encode(&entries));
        for at in 0..LENGTH {
            let flip = 1 << self.random.below(8);
            lent.lend()[at] ^= flip;
            let mut space = Lent::filled(LEAST_REPLY_SPACE);
            let answer = self.product.request_once(table.lend(), 2, lent.lend(), &[], space.lend());
            let outcome = if store::sound(lent.content()).is_ok() { 4 } else { 1 };
            let right = answer == (outcome, 0, 0) && space.is_filled_from(0) && lent.guards_hold();
            self.report.check(right, || format!("octet {at} of a store changed: {answer:?}"));
            lent.lend()[at] ^= flip;
        }
        let kept = lent.content() == store::encode(&entries);
        self.report.check(kept, || "a store that was only tested is written to".into());
    }

    /// Counts what a call is beside the other peer's store, before it is made.
    fn note_of_peers(&mut self, served: &Served, call: &Call, way: Way) {
        let met = &mut self.report.met;
        let held_by_other = served.peers[1 - lent_to(call.peer)].holds(&call.message);
        match way {
            Way::NoPeer => met.note("no peer"),
            Way::Engine if held_by_other => {
                met.note("taken, though the other peer's store holds it")
            }
            Way::Dropped if held_by_other => {
                met.note("dropped, though the other peer's store holds it")
            }
            Way::Repeat if call.peer == 2 => met.note("a repeat of the second peer's"),
            _ => {}
        }
    }

    /// Counts what a call is by its own store, before it is made.
    fn note_before(&mut self, kept: &Kept, call: &Call, way: Way) {
        let met = &mut self.report.met;
        let full = kept.entries.len() == MOST_ENTRIES;
        let place = kept.entries.iter().position(|entry| entry.message == call.message);
        let Ok(own) = header::test(&call.message) else { return };
        let newest = kept.entries.last().and_then(|entry| header::test(&entry.message).ok());
        let past = newest.map(|last| own.sequence.wrapping_sub(last.sequence) % (1 << 24));
        match way {
            Way::Unread if place.is_some() => met.note("repeat in too small a space"),
            Way::Unread | Way::NoPeer => {}
            Way::Repeat => {
                let place = place.expect("a repeat is stored");
                met.note(match place + 1 == kept.entries.len() {
                    true => "repeat of the newest",
                    false if full && place == 0 => "repeat of the oldest of eight",
                    false => "repeat of another",
                });
                if !accepts(&kept.entries[place].reply) {
                    met.note("repeat of a refused request");
                }
            }
            Way::Dropped => met.note(match past {
                _ if kept.stored.contains(&call.message) => {
                    "dropped, a request that has gone from the store"
                }
                Some(0) => "dropped with the last number",
                Some(8_388_608) => "dropped after 8,388,608 numbers",
                _ => "dropped with another number",
            }),
            Way::Engine => {
                let Some(newest) = newest else { return met.note("taken by an empty store") };
                let kinds = [
                    (full, "taken, and the oldest of eight goes"),
                    (past == Some(8_388_607), "taken after 8,388,607 numbers"),
                    (own.sequence < newest.sequence, "taken past the last number"),
                    (call.message[1] == 14, "taken, a set deletion"),
                    (newest.kind.reply_type() == 15, "taken after a set deletion"),
                ];
                kinds.iter().filter(|(is, _)| *is).for_each(|(_, kind)| met.note(kind));
            }
        }
    }
}

/// Whether a reply's cause is 1.
fn accepts(reply: &[u8]) -> bool {
    let at = match reply[1] {
        15 => 21,
        51 => 29,
        _ => 20,
    };
    reply[at] == 1
}
