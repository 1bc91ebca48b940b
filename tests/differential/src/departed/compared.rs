//! The point at which two tables are alike, the same calls from then on, and what is compared.

use second::generate::Call;
use second::layout::{PDR, PDRS, SLOT, SLOTS};
use second::restoration::LONGEST;
use second::session::{count_of, Key, Sessions};
use second::settings::{named_peer, other_peer, PEERS};
use second::unit::AtEntry;

use super::bare::{bare_request, bare_sessions, blank_table, Differences};
use super::side::{Heard, Side};
use super::ways::Way;
use super::{hexadecimal, Pair, Run, ONE, OTHER};
use crate::reading::NO_PEERS;

impl Run<'_> {
    /// Whether the live sets are alike now, in tables that hold them.
    pub(crate) fn is_point(&mut self, pair: &Pair, way: Way) -> bool {
        let [one, other] = &pair.sides;
        let (live, twin) = (&one.live.sessions, &other.live.sessions);
        let alike = bare_sessions(live) == bare_sessions(twin);
        let held = pair.sides.iter().all(|side| side.holds_live_set());
        let report = &mut self.report;
        report.points += 1;
        *report.ways.entry(format!("{way:?}")).or_insert(0) += 1;
        report.different_pasts += usize::from(one.past != other.past);
        report.different_departed += usize::from(one.engine.departed() != other.engine.departed());
        report.equal_seids += usize::from(live.keys().any(|key| live.contains_key(&twin_of(key))));
        for peer in PEERS {
            report.of(peer).sessions += count_of(live, peer);
        }
        report.at_points += Differences::between_all(live, twin);
        report.check(held, || format!("{way:?}: a table does not hold its live set"))
            && report.check(alike, || format!("{way:?}: the live sets are not alike"))
            && self.same_tables(pair, &format!("{way:?}"))
            && self.same_counts(pair, &format!("{way:?}"))
            && self.same_peers(pair, &format!("{way:?}"))
    }

    /// One same call on both; whether all was the same.
    pub(crate) fn same_call(&mut self, pair: &mut Pair) -> bool {
        let chosen = self.random.pick(&[ONE, OTHER]);
        let call = pair.scripts[chosen].next(&pair.sides[chosen].live.sessions);
        let before = pair.sides.each_ref().map(|side| side.live.sessions.clone());
        let heard = pair.sides.each_mut().map(|side| side.ask(&call, &mut self.random));
        self.report.calls += 1;
        let after = format!("after peer {}'s {}", call.peer, hexadecimal(&call.message));
        let [one, other] = match heard {
            [Ok(one), Ok(other)] => [one, other],
            [one, other] => {
                let what =
                    || format!("a reply that cannot be followed: {one:?}, {other:?} {after}");
                return self.report.check(false, what);
            }
        };
        let same = self.same_heard(&one, &other, &after)
            && self.same_tables(pair, &after)
            && self.same_counts(pair, &after)
            && self.same_peers(pair, &after)
            && self.same_places(pair, &after)
            && self.same_live_sets(pair, &after);
        if same {
            self.count(&call, &one, &before, pair);
        }
        same
    }

    fn same_heard(&mut self, one: &Heard, other: &Heard, after: &str) -> bool {
        let report = &mut self.report;
        let numbers = [
            ("outcome", one.outcome as usize, other.outcome as usize),
            ("reply length", one.used, other.used),
            ("place", one.place, other.place),
        ];
        numbers.iter().all(|(what, number, twin)| {
            report.check(number == twin, || format!("{what} {number} and {twin} {after}"))
        }) && report.check(one.reply == other.reply, || {
            let replies = [&one.reply, &other.reply].map(|reply| hexadecimal(reply));
            format!("reply {} and {} {after}", replies[0], replies[1])
        }) && report.check(one.rest_stays && other.rest_stays, || {
            format!("octets behind the reply or around the space or the table {after}")
        })
    }

    /// The tables' octets but for the fields; where they differ.
    fn same_tables(&mut self, pair: &Pair, after: &str) -> bool {
        let [one, other] = pair.sides.each_ref().map(|side| blank_table(side.table.content()));
        let lengths = one.len() == other.len();
        let first = one.iter().zip(&other).position(|(octet, twin)| octet != twin);
        self.report.check(lengths && first.is_none(), || {
            let at = first.unwrap_or(one.len().min(other.len()));
            format!("table: octet {at}, {}, {after}", place_in_table(at))
        })
    }

    fn same_counts(&mut self, pair: &Pair, after: &str) -> bool {
        let counts = |side: &Side| {
            let (engine, table) = (&side.engine, side.table.content());
            let sessions = engine.session_count(table).map(|count| ("sessions", count));
            let free = [
                ("free TEIDs", engine.free_teids(table)),
                ("free addresses", engine.free_addresses(table)),
            ];
            free.into_iter().chain(sessions).collect::<Vec<_>>()
        };
        let [one, other] = pair.sides.each_ref().map(counts);
        one.iter().zip(&other).all(|((what, count), (_, twin))| {
            self.report.check(count == twin, || format!("{what} {count:?} and {twin:?} {after}"))
        })
    }

    /// What each peer has, and that there is no other; nothing where the product has no such call.
    fn same_peers(&mut self, pair: &Pair, after: &str) -> bool {
        let other = self.random.pick(&NO_PEERS);
        [1, 2, other].into_iter().all(|peer| {
            let counts = |side: &Side| side.engine.peer_count(side.table.content(), peer);
            let [Some(one), Some(twin)] = pair.sides.each_ref().map(counts) else { return true };
            if let (Some(peer), (0, _, 1..)) = (named_peer(peer), one) {
                self.report.of(peer).holding += 1;
            }
            self.report.check(one == twin, || format!("peer {peer}: {one:?} and {twin:?} {after}"))
        })
    }

    /// The places of some SEIDs and TEIDs that are live, and of some that are not.
    fn same_places(&mut self, pair: &Pair, after: &str) -> bool {
        let sessions = &pair.sides[ONE].live.sessions;
        let any = self.random.number();
        let mut seids = vec![any, any % 10];
        let mut teids = vec![pair.settings().first.wrapping_add(any as u32 % 100), any as u32];
        if !sessions.is_empty() {
            let chosen = self.random.below(sessions.len());
            let (key, session) = sessions.iter().nth(chosen).expect("a live session");
            seids.push(key.seid);
            teids.extend(session.teids().take(3));
        }
        self.found_alike(pair, &seids, &teids, after)
    }

    /// The places of SEIDs, of each peer and of none, and of TEIDs.
    fn found_alike(&mut self, pair: &Pair, seids: &[u64], teids: &[u32], after: &str) -> bool {
        let other = self.random.pick(&NO_PEERS);
        let of_peers = |seid: &u64| [1, 2, other].map(|peer| (peer, *seid));
        seids.iter().flat_map(of_peers).all(|(peer, seid)| {
            let find = |side: &Side| side.engine.find_session(side.table.content(), peer, seid);
            let found = pair.sides.each_ref().map(find);
            if let (Some(peer), Some((0, _))) = (named_peer(peer), found[ONE]) {
                self.report.of(peer).found += 1;
            }
            self.same_place(found, || format!("peer {peer}'s SEID {seid}"), after)
        }) && teids.iter().all(|teid| {
            let find = |side: &Side| side.engine.find_teid(side.table.content(), *teid);
            let found = pair.sides.each_ref().map(find);
            self.report.found += usize::from(found[ONE].is_some_and(|found| found.0 == 0));
            self.same_place(found, || format!("TEID {teid}"), after)
        })
    }

    /// One place that both were asked for; nothing where the product has no such call.
    fn same_place(
        &mut self,
        found: [Option<(u32, usize)>; 2],
        what: impl FnOnce() -> String,
        after: &str,
    ) -> bool {
        let [Some(one), Some(twin)] = found else { return true };
        self.report.asked += 1;
        self.report.check(one == twin, || format!("{}: {one:?} and {twin:?} {after}", what()))
    }

    /// The live sets, folded from the replies alone: alike, and held by their tables.
    fn same_live_sets(&mut self, pair: &Pair, after: &str) -> bool {
        let [one, other] = pair.sides.each_ref().map(|side| bare_sessions(&side.live.sessions));
        let held = pair.sides.iter().all(|side| side.holds_live_set());
        self.report.check(one == other, || format!("the live sets are not alike {after}"))
            && self.report.check(held, || format!("a table does not hold its live set {after}"))
    }

    /// The places of all SEIDs and TEIDs, and the restoration requests of all sessions.
    pub(crate) fn all_readings(&mut self, pair: &Pair) -> bool {
        let sessions = &pair.sides[ONE].live.sessions;
        let seids: Vec<u64> = sessions.keys().flat_map(|key| [key.seid, key.seid ^ 1]).collect();
        let teids: Vec<u32> = sessions.values().flat_map(|session| session.teids()).collect();
        self.found_alike(pair, &seids, &teids, "at the end")
            && (0..=sessions.len()).all(|place| self.same_restoration(pair, place))
    }

    /// The writer's requests, which have these fields, are alike without them, and are to run under
    /// their session's peer.
    fn same_restoration(&mut self, pair: &Pair, place: usize) -> bool {
        if self.product.write_restoration.is_none() {
            return true;
        }
        let written = pair.sides.each_ref().map(|side| {
            let mut space = vec![0; LONGEST];
            let table = side.table.content();
            let (outcome, used, peer) =
                self.product.write_restoration(table, place, &[127, 0, 0, 1], &[], &mut space);
            (outcome, peer, bare_request(&space[..used.min(LONGEST)]))
        });
        self.report.written += usize::from(written[ONE].0 == 0);
        let live = pair.sides[ONE].live.sessions.keys().nth(place);
        let right = written[ONE] == written[OTHER]
            && written[ONE].2.is_some() == live.is_some()
            && written[ONE].1 == live.map_or(0, |key| key.peer.into());
        self.report.check(right, || format!("the requests written of place {place}: {written:?}"))
    }

    /// Counts what a call has met.
    fn count(&mut self, call: &Call, heard: &Heard, before: &[Sessions; 2], pair: &Pair) {
        let [one, other] = pair.sides.each_ref().map(|side| &side.live.sessions);
        let between = Differences::between_all(one, other);
        self.report.tables_that_differ += usize::from(between.any());
        self.report.after_calls += between;
        self.report.met(call, heard, before, one);
        if let (Some(peer), Some(75)) = (named_peer(call.peer), heard.cause()) {
            let entry = AtEntry { settings: pair.settings(), sessions: &before[ONE], peer };
            self.report.met_limit(entry, &call.message);
        }
    }
}

/// The same SEID on the other peer.
fn twin_of(key: &Key) -> Key {
    Key { peer: other_peer(key.peer), ..*key }
}

/// Where an octet stands, by docs/layout.md.
fn place_in_table(at: usize) -> String {
    let Some(within) = at.checked_sub(SLOTS) else { return "in the settings and count".into() };
    let (session, octet) = (within / SLOT, within % SLOT);
    match octet.checked_sub(PDRS).filter(|octet| octet / PDR < 16) {
        Some(octet) => {
            format!("session slot {session}, PDR slot {}, octet {}", octet / PDR, octet % PDR)
        }
        None => format!("session slot {session}, octet {octet}"),
    }
}
