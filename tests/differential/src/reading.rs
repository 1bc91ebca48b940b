//! The calls that read a table: how many sessions, the place of a peer's SEID, the place of a TEID's
//! holder, what a peer has, all counts, each compared with the second implementation's answer.

use std::collections::BTreeMap;

use second::generate::tables::{self, Filling};
use second::layout;
use second::session::{self, Key, Sessions};
use second::settings::{named_peer, Settings};
use second::unit::NO_PEER;

use crate::product::Reading;
use crate::run::{Lent, Run};

/// Tables drawn at random, before the sequences, and their session limits.
const TABLES: usize = 40;
const LIMITS: [u16; 7] = [64, 5, 40, 256, 2, 64, 20];

/// Numbers that are no peer's.
pub(crate) const NO_PEERS: [u32; 5] = [0, 3, 257, 1 << 24, u32::MAX];

/// A pool of more TEIDs is asked for the ends of each word of its map only.
const MOST_ASKED: u32 = 10_000;

/// The outcomes for a number and for none.
fn told(place: Option<usize>) -> (u32, usize) {
    place.map_or((2, 0), |place| (0, place))
}

impl Run<'_> {
    /// Tables drawn at random: each SEID and its neighbours, the TEIDs of the pool and around it.
    pub(crate) fn found_in_random_tables(&mut self) {
        for number in 0..TABLES {
            let limit = LIMITS[number % LIMITS.len()];
            let settings = tables::settings(&mut self.random, number % 3 > 0, limit);
            let filling = if number % 20 == 0 { Filling::Full } else { Filling::Some };
            let sessions = tables::sessions(&mut self.random, &settings, filling);
            self.found_places(&settings, &sessions);
            let Some(reading) = self.product.reading else { return };
            let table = Lent::new(&layout::encode(&settings, &sessions));
            let before = settings.first.saturating_sub(3);
            let after = settings.first.saturating_add(settings.size).saturating_add(2);
            let holders = session::holders(&sessions);
            let at_an_end = |teid: u32| matches!(teid.wrapping_sub(settings.first) % 64, 0 | 63);
            for teid in before..=after {
                if settings.size <= MOST_ASKED || at_an_end(teid) {
                    self.one_teid(reading, &table, &holders, teid);
                }
            }
        }
    }

    /// The number of sessions of a sound table; each SEID and TEID in it and its neighbours, and
    /// numbers at the edges.
    pub(crate) fn found_places(&mut self, settings: &Settings, sessions: &Sessions) {
        let Some(reading) = self.product.reading else { return };
        let table = Lent::new(&layout::encode(settings, sessions));
        let count = reading.session_count(table.content());
        let right = count == (0, sessions.len());
        self.report.check(right, || format!("{count:?} for {} sessions", sessions.len()));
        let near = |seid: u64| [seid, seid.wrapping_add(1), seid ^ 1 << 32];
        let edges = [0, 1, u64::from(settings.first), u64::MAX];
        for seid in sessions.keys().flat_map(|key| near(key.seid)).chain(edges) {
            let other = self.random.pick(&NO_PEERS);
            for peer in [1, 2, other] {
                self.one_seid(reading, &table, sessions, (peer, seid));
            }
        }
        self.counts_of_peers(reading, &table, sessions);
        self.all_counts(reading, &table, settings, sessions);
        let holders = session::holders(sessions);
        for teid in holders.keys() {
            self.one_teid(reading, &table, &holders, *teid);
            self.one_teid(reading, &table, &holders, teid.wrapping_add(1));
        }
        let any = settings.first.wrapping_add(self.random.below(settings.size as usize) as u32);
        for teid in [0, 1, settings.first, any, settings.first.wrapping_sub(1), u32::MAX] {
            self.one_teid(reading, &table, &holders, teid);
        }
        let guarded = table.guards_hold() && table.content() == layout::encode(settings, sessions);
        self.report.check(guarded, || "a table that was read is written to".into());
    }

    /// Any numbers in a broken table.
    pub(crate) fn nothing_found(&mut self, content: &[u8]) {
        let Some(reading) = self.product.reading else { return };
        let table = Lent::new(content);
        let count = reading.session_count(table.content());
        let seid = self.random.number();
        let peer = self.random.pick(&[1, 2, 3]);
        let by_seid = reading.find_session(table.content(), peer, self.random.pick(&[0, 1, seid]));
        let teid = self.random.number() as u32;
        let by_teid = reading.find_teid(table.content(), self.random.pick(&[0, 1, 4096, teid]));
        let right = [count, by_seid, by_teid] == [(1, 0); 3];
        self.report.check(right, || format!("{count:?} {by_seid:?} {by_teid:?}: a broken table"));
        // Without a peer the table is not looked at.
        let other = self.random.pick(&NO_PEERS);
        let of_peers = [1, 2, other].map(|peer| reading.peer_count(table.content(), peer));
        let right = of_peers == [(1, 0, 0), (1, 0, 0), (7, 0, 0)];
        self.report.check(right, || format!("{of_peers:?}: the peers of a broken table"));
        let all = reading.counts(table.content());
        self.report.check(all == (1, [0; 6]), || format!("{all:?}: all counts of a broken table"));
    }

    /// All counts at once: the second implementation's, and those that the calls for one each give.
    fn all_counts(
        &mut self,
        reading: Reading,
        table: &Lent,
        settings: &Settings,
        sessions: &Sessions,
    ) {
        let of = |peer| {
            let peer = named_peer(peer).expect("a peer");
            [session::count_of(sessions, peer) as u32, session::holdings(sessions, peer) as u32]
        };
        let ([sessions1, teids1], [sessions2, teids2]) = (of(1), of(2));
        let teids = settings.size - session::holders(sessions).len() as u32;
        let (_, addresses) = self.product.free_addresses(table.content());
        let expected = (0, [sessions1, teids1, sessions2, teids2, teids, addresses]);
        let given = reading.counts(table.content());
        self.report.check(given == expected, || format!("all counts {given:?}, not {expected:?}"));
    }

    /// What each peer has, and that there is no other.
    fn counts_of_peers(&mut self, reading: Reading, table: &Lent, sessions: &Sessions) {
        let other = self.random.pick(&NO_PEERS);
        for peer in [1, 2, other] {
            let expected = match named_peer(peer) {
                Some(peer) => {
                    let (count, teids) =
                        (session::count_of(sessions, peer), session::holdings(sessions, peer));
                    (0, count as u32, teids as u32)
                }
                None => (NO_PEER.into(), 0, 0),
            };
            let given = reading.peer_count(table.content(), peer);
            self.report
                .check(given == expected, || format!("peer {peer}: {given:?}, not {expected:?}"));
        }
    }

    fn one_seid(
        &mut self,
        reading: Reading,
        table: &Lent,
        sessions: &Sessions,
        (peer, seid): (u32, u64),
    ) {
        let key = named_peer(peer).map(|peer| Key { peer, seid });
        let expected = told(key.and_then(|key| session::place_of(sessions, key)));
        let given = reading.find_session(table.content(), peer, seid);
        self.report.asked += 1;
        self.report.found += usize::from(expected.0 == 0);
        self.report.check(given == expected, || {
            format!("SEID {seid} of peer {peer}: {given:?} instead of {expected:?}")
        });
    }

    fn one_teid(
        &mut self,
        reading: Reading,
        table: &Lent,
        holders: &BTreeMap<u32, usize>,
        teid: u32,
    ) {
        let expected = told(holders.get(&teid).copied());
        let given = reading.find_teid(table.content(), teid);
        self.report.asked += 1;
        self.report.found += usize::from(expected.0 == 0);
        self.report
            .check(given == expected, || format!("TEID {teid}: {given:?} instead of {expected:?}"));
    }
}
