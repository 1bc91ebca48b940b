//! Sites of all sizes: tables that are filled to their session limit, tables whose limit and length do
//! not go together, and TEIDs all over the largest pool.

use std::collections::BTreeSet;

use second::generate::largest;
use second::generate::random::Random;
use second::generate::tables::{self, Filling};
use second::generate::{Flavour, Generator};
use second::layout::{self, COUNT, SLOT, SLOTS};
use second::session::{Key, Local, Sessions};
use second::settings::{Peer, Settings, LARGEST_LIMIT, LARGEST_POOL, PEERS};

use crate::crowded;
use crate::run::{asked, Lent, Run, State};
use crate::spoil::write_limit;

/// The session limits that every run fills tables of.
pub(crate) const LIMITS: [u16; 5] = [2, 3, 5, 64, LARGEST_LIMIT];

/// Generated calls on a full table with TEIDs all over the largest pool.
const CALLS_ON_SPREAD: usize = 30;

/// The cause of a reply to an establishment, and to a modification or deletion.
const CAUSE_OF_51: usize = 29;
const CAUSE_OF_53: usize = 20;

/// The same settings with the largest pool, of which each peer may have all.
fn with_largest_pool(settings: Settings) -> Settings {
    let peers = settings.peers.map(|peer| Peer { guarantee: 0, limit: LARGEST_POOL, ..peer });
    Settings { size: LARGEST_POOL, peers, ..settings }
}

impl Run<'_> {
    pub(crate) fn sites(&mut self, generator: &mut Generator) {
        for limit in LIMITS {
            self.full_table(limit);
            self.other_limits(limit);
        }
        self.past_full_words();
        self.spread_teids(generator);
    }

    /// Both sides agree on a message of a peer, and the product's reply has this cause.
    fn caused(&mut self, state: &mut State, peer: u8, message: Vec<u8>, (at, cause): (usize, u8)) {
        let limit = state.unit.settings().session_limit;
        let mut table = Lent::new(state.table.content());
        let call = asked(peer, message);
        let answer = self.ask(&mut table, &call);
        let given = answer.reply().get(at).copied();
        self.report.check(given == Some(cause), || {
            format!("cause {given:?} instead of {cause} on a table of session limit {limit}")
        });
        self.one_call(state, &call);
    }

    /// Up to its half every establishment of a peer is accepted; past it none is, a restoration no more
    /// than another, though the other peer has room. What takes no further place is.
    fn full_table(&mut self, limit: u16) {
        let settings = Settings { addresses: 1, ..largest::settings(limit) };
        let Some(mut state) = self.empty_state(&settings) else { return };
        for peer in PEERS {
            self.full_half(&mut state, peer, u64::from(limit / 2));
        }
        self.restore_all(&state);
        let count = state.live.sessions.len();
        let right = count == usize::from(largest::count(limit));
        self.report.check(right, || format!("{count} sessions of {limit}"));
    }

    fn full_half(&mut self, state: &mut State, peer: u8, last: u64) {
        let (of_51, of_53) = (|cause| (CAUSE_OF_51, cause), |cause| (CAUSE_OF_53, cause));
        for seid in 1..=last {
            self.caused(state, peer, crowded::first(seid), of_51(1));
        }
        let new = last + 1;
        self.caused(state, peer, crowded::first(new), of_51(75));
        self.caused(state, peer, crowded::restoration(new), of_51(75));
        self.caused(state, peer, crowded::first(last), of_51(64));
        self.caused(state, peer, crowded::modification(last), of_53(1));
        self.restore_all(state);
        self.caused(state, peer, crowded::deletion(1), of_53(1));
        self.caused(state, peer, crowded::restoration(new), of_51(1));
        self.caused(state, peer, crowded::restoration(1), of_51(75));
    }

    /// A table whose limit or length is another: all limits near by and far off with the length kept,
    /// other lengths with the limit kept, and both changed together.
    fn other_limits(&mut self, limit: u16) {
        let settings = tables::settings(&mut self.random, true, limit);
        for filling in [Filling::Some, Filling::Full] {
            // All of a full table; otherwise a few are enough, and quicker.
            let most = if filling == Filling::Full { usize::MAX } else { 7 };
            let sessions = tables::sessions(&mut self.random, &settings, filling);
            let table = layout::encode(&settings, &sessions.into_iter().take(most).collect());
            let ask = asked(1, crowded::first(u64::MAX / 3));
            for changed in with_other_limits(&table, limit, &mut self.random) {
                self.changed_table(changed, &ask);
            }
            self.single_octets(&table, 50);
        }
    }

    /// 6,144 TEIDs are taken from the pool's first on: a CHOOSE finds the next one, past 96 full words.
    fn past_full_words(&mut self) {
        let settings = with_largest_pool(largest::settings(LARGEST_LIMIT));
        let sessions = largest::sessions(LARGEST_LIMIT);
        let Some(unit) = self.unit_with(&settings, &sessions) else { return };
        let mut state = State::of(unit);
        let taken = largest::TEIDS * u32::from(LARGEST_LIMIT);
        let free = self.free(state.table.content())[0];
        self.report.check(free == (0, LARGEST_POOL - taken), || format!("free {free:?}"));
        let last = *state.live.sessions.keys().next_back().expect("the table is full");
        let Key { peer, seid } = last;
        self.one_call(&mut state, &asked(peer, crowded::exchanged_pdr(seid, 0, 1000)));
        let next = settings.first + taken;
        let found = state.live.sessions.get(&last).is_some_and(|s| s.teids().any(|t| t == next));
        self.report.check(found, || format!("TEID {next} was not taken"));
        // The exchanged one is free since.
        self.one_call(&mut state, &asked(peer, crowded::exchanged_pdr(seid, 1000, 0)));
        let held = state.live.sessions.get(&last);
        let same = held.is_some_and(|session| session.teids().eq(sessions[&last].teids()));
        self.report.check(same, || "the lowest free TEID was not taken".into());
    }

    /// A full table whose TEIDs lie all over the largest pool, in every word of the map, with its first
    /// and last: restored, damaged, and with some generated calls.
    fn spread_teids(&mut self, generator: &mut Generator) {
        let first = u32::MAX - (LARGEST_POOL - 1);
        let settings = Settings { first, ..with_largest_pool(largest::settings(LARGEST_LIMIT)) };
        let sessions = spread(&settings);
        let words: BTreeSet<u32> =
            sessions.values().flat_map(|s| s.teids()).map(|teid| (teid - first) / 64).collect();
        let all = words.len() as u32 == LARGEST_POOL / 64;
        self.report.check(all, || format!("TEIDs in {} words only", words.len()));
        let Some(unit) = self.unit_with(&settings, &sessions) else { return };
        let mut state = State::of(unit);
        self.restore_all(&state);
        self.single_octets(state.table.content(), 100);
        let mut scenario = generator.scenario();
        scenario.settings = settings;
        scenario.flavour = Flavour::Full;
        for _ in 0..CALLS_ON_SPREAD {
            let call = generator.call(&mut scenario, &state.live.sessions);
            if !self.one_call(&mut state, &call) {
                return;
            }
        }
    }
}

/// The largest table's sessions with other TEIDs: from the pool's first to its last, evenly.
fn spread(settings: &Settings) -> Sessions {
    let before = largest::settings(settings.session_limit);
    let last = before.size - 1;
    let most = u64::from(LARGEST_POOL - 1);
    let place = |teid: u32| (u64::from(teid - before.first) * most / u64::from(last)) as u32;
    let mut sessions = largest::sessions(settings.session_limit);
    for session in sessions.values_mut() {
        for pdr in session.pdrs.values_mut() {
            if let Local::Tunnel(tunnel) = &mut pdr.local {
                tunnel.teid = settings.first + place(tunnel.teid);
            }
        }
        for endpoint in session.endpoints.values_mut() {
            endpoint.tunnel.teid = settings.first + place(endpoint.tunnel.teid);
        }
    }
    sessions
}

/// Copies of a table with its limit, its length or both changed, and one with a session too many.
fn with_other_limits(table: &[u8], limit: u16, random: &mut Random) -> Vec<Vec<u8>> {
    let (any, length) = (random.number() as u16, table.len());
    let limits = [0, 1, 2, 64, 255, LARGEST_LIMIT, LARGEST_LIMIT + 1, 512, u16::MAX];
    let near = [limit - 1, limit + 1, limit.swap_bytes(), limit | 0x100, any];
    let lengths = [0, 1, COUNT, SLOTS - 1, SLOTS, length - 1, length + 1];
    let by_slots = [length - SLOT, length + SLOT, 2 * length - SLOTS];
    // With the slot that the limit asks for, or without the one that it leaves out.
    let both = [(limit - 1, 0), (limit + 1, 0), (limit + 1, 1)];
    let of_limits = limits.into_iter().chain(near).map(|other| with_limit(table, other));
    let of_lengths = lengths.into_iter().chain(by_slots).map(|other| with_length(table, other, 0));
    let of_both = both.into_iter().map(|(other, filling)| {
        with_limit(&with_length(table, SLOTS + SLOT * usize::from(other), filling), other)
    });
    let mut crowded = table.to_vec();
    crowded[COUNT..SLOTS].copy_from_slice(&(limit + 1).to_be_bytes());
    of_limits.chain(of_lengths).chain(of_both).chain([crowded]).collect()
}

fn with_limit(table: &[u8], limit: u16) -> Vec<u8> {
    let mut changed = table.to_vec();
    write_limit(&mut changed, limit);
    changed
}

fn with_length(table: &[u8], length: usize, filling: u8) -> Vec<u8> {
    let mut changed = table.to_vec();
    changed.resize(length, filling);
    changed
}
