//! What a run has met, and what it should meet.

use std::collections::BTreeMap;
use std::fmt::Display;

use second::generate::Call;
use second::request::{header, read, Kind, Record};
use second::session::{Key, Sessions};
use second::settings::{named_peer, PEERS};
use second::unit::limits::{self, Limit, TeidTest};
use second::unit::{AtEntry, Reason};

use super::bare::Differences;
use super::side::Heard;

/// From this many same calls on, a run must have met enough of everything.
pub const CALLS_FOR_ALL: usize = 6000;

/// The accepted requests, by what they do.
const DEEDS: [&str; 11] = [
    "establishment",
    "restoration",
    "new PDR",
    "new endpoint",
    "updated PDR",
    "removed PDR",
    "removed endpoint",
    "FQ-CSIDs of a live session",
    "deletion",
    "set deletion without a match",
    "set deletion with matches",
];

/// The causes of refusals, and the outcomes of requests on sound tables.
const CAUSES: [u8; 11] = [64, 65, 66, 67, 68, 69, 71, 73, 75, 76, 79];
const OUTCOMES: [u32; 6] = [0, 2, 3, 4, 5, 7];

/// What was met of one peer.
#[derive(Default, Debug)]
pub struct OfPeer {
    /// Its sessions at the points, and those restored on the way to them.
    pub sessions: usize,
    pub restored: usize,
    /// Its accepted requests by what they do; those that change a session with fields that differ.
    pub deeds: BTreeMap<&'static str, usize>,
    pub on_differing: usize,
    pub causes: BTreeMap<u8, usize>,
    /// Refusals for want of TEIDs by one test alone.
    pub wants: BTreeMap<&'static str, usize>,
    /// Answers that it holds TEIDs, and its SEIDs found.
    pub holding: usize,
    pub found: usize,
}

/// The tests of TEIDs that a request may not pass, 75.
const TEID_TESTS: [&str; 3] = ["its limit", "the pool", "the other's guarantee"];

#[derive(Default)]
pub struct Report {
    /// Same calls, after the points.
    pub calls: usize,
    pub passed: u64,
    pub failures: Vec<String>,
    /// Points at which live sets were alike, by way; those at which a SEID lived on both peers; and
    /// those at which the pasts differed, and the numbers of sessions that have gone.
    pub points: usize,
    pub ways: BTreeMap<String, usize>,
    pub equal_seids: usize,
    pub different_pasts: usize,
    pub different_departed: usize,
    /// Requests with other precedences and FAR IDs, on the way to them.
    pub reworded: usize,
    /// How far the tables differed at the points, and after the same calls.
    pub at_points: Differences,
    pub after_calls: Differences,
    pub tables_that_differ: usize,
    pub outcomes: BTreeMap<u32, usize>,
    /// SEIDs and TEIDs asked for; TEIDs found; restoration requests written.
    pub asked: usize,
    pub found: usize,
    pub written: usize,
    /// Of peer 1 and of peer 2.
    pub peers: [OfPeer; 2],
}

impl Report {
    /// Notes a check; gives back whether it held.
    pub(crate) fn check(&mut self, holds: bool, what: impl FnOnce() -> String) -> bool {
        match holds {
            true => self.passed += 1,
            false => self.failures.push(format!("call {}: {}", self.calls, what())),
        }
        holds
    }

    /// What was met of a peer. It is 1 or 2.
    pub(crate) fn of(&mut self, peer: u8) -> &mut OfPeer {
        &mut self.peers[usize::from(peer) - 1]
    }

    /// Counts what a same call has met, from the live sets before it and one of those after it.
    pub(crate) fn met(
        &mut self,
        call: &Call,
        heard: &Heard,
        before: &[Sessions; 2],
        after: &Sessions,
    ) {
        *self.outcomes.entry(heard.outcome).or_insert(0) += 1;
        let (Some(peer), Some(cause)) = (named_peer(call.peer), heard.cause()) else { return };
        let of_peer = self.of(peer);
        *of_peer.causes.entry(cause).or_insert(0) += 1;
        if heard.is_accepted() {
            for deed in deeds(&call.message, before[0].len() - after.len().min(before[0].len())) {
                *of_peer.deeds.entry(deed).or_insert(0) += 1;
            }
            let changed = |key: &Key| before[0].get(key) != after.get(key);
            let differs = |key: &Key| {
                Differences::between(&before[0][key], &before[1][key]).any() && changed(key)
            };
            of_peer.on_differing += usize::from(before[0].keys().any(differs));
        }
    }

    /// Counts by what test of TEIDs alone a request is refused with 75, if so.
    pub(crate) fn met_limit(&mut self, entry: AtEntry, message: &[u8]) {
        let Some(request) = header::test(message).ok().and_then(|h| read(&h, message).ok()) else {
            return;
        };
        if let [Reason::Limit(Limit::Teids(test, _))] = limits::passed(entry, &request)[..] {
            let place = match test {
                TeidTest::PeersLimit => 0,
                TeidTest::Pool => 1,
                TeidTest::OthersGuarantee => 2,
            };
            *self.of(entry.peer).wants.entry(TEID_TESTS[place]).or_insert(0) += 1;
        }
    }

    /// What there should be enough of, how much there was, and how much there should be.
    fn wanted(&self) -> Vec<(String, usize, usize)> {
        let (calls, points) = (self.calls, self.points);
        let Differences { pdrs, precedences, presences, far_ids } = self.after_calls;
        let mut wanted = vec![
            ("points with different pasts".to_string(), self.different_pasts, points * 9 / 10),
            ("points with other numbers of departed".into(), self.different_departed, points / 2),
            ("points with a SEID on both peers".into(), self.equal_seids, points / 4),
            ("reworded requests".into(), self.reworded, points),
            ("calls after which the tables differ".into(), self.tables_that_differ, calls / 2),
            ("precedences that differ".into(), precedences, pdrs / 4),
            ("FAR IDs against none".into(), presences, pdrs / 10),
            ("FAR IDs that differ".into(), far_ids, pdrs / 20),
            ("TEIDs found".into(), self.found, calls / 2),
            ("restoration requests".into(), self.written, points),
        ];
        wanted.extend(enough("outcome", &OUTCOMES, &self.outcomes, calls / 2000));
        for (peer, of_peer) in PEERS.into_iter().zip(&self.peers) {
            let of_peer = of_peer.wanted(calls, points).into_iter();
            wanted.extend(
                of_peer.map(|(what, count, least)| (format!("peer {peer}: {what}"), count, least)),
            );
        }
        wanted
    }

    /// Fails for everything that was met too rarely, in a run that is long enough.
    pub(crate) fn ask_for_all(&mut self) {
        if self.calls >= CALLS_FOR_ALL {
            for (what, count, least) in self.wanted() {
                self.check(count >= least, || format!("{what}: {count}, fewer than {least}"));
            }
        }
    }
}

impl OfPeer {
    /// As for the whole.
    fn wanted(&self, calls: usize, points: usize) -> Vec<(String, usize, usize)> {
        let mut wanted = vec![
            ("sessions at points".to_string(), self.sessions, points),
            ("restored sessions".into(), self.restored, points / 2),
            ("changes of sessions that differ".into(), self.on_differing, calls / 100),
            ("answers that it holds TEIDs".into(), self.holding, calls / 2),
            ("its SEIDs found".into(), self.found, calls / 4),
        ];
        wanted.extend(enough("accepted", &DEEDS, &self.deeds, calls / 600));
        wanted.extend(enough("cause", &CAUSES, &self.causes, calls / 4000));
        wanted.extend(enough("refused TEIDs by", &TEID_TESTS, &self.wants, calls / 2000));
        wanted
    }
}

/// So many at least of each of these keys.
fn enough<K: Ord + Display>(
    what: &str,
    keys: &[K],
    counts: &BTreeMap<K, usize>,
    least: usize,
) -> Vec<(String, usize, usize)> {
    let count = |key| counts.get(key).copied().unwrap_or(0);
    keys.iter().map(|key| (format!("{what} {key}"), count(key), least)).collect()
}

/// What an accepted request does; a set deletion has lost so many sessions.
fn deeds(message: &[u8], lost: usize) -> Vec<&'static str> {
    let Ok(header) = header::test(message) else { return vec![] };
    let Ok(request) = read(&header, message) else { return vec![] };
    match header.kind {
        Kind::Establishment if request.restoration => vec!["restoration"],
        Kind::Establishment => vec!["establishment"],
        Kind::Deletion => vec!["deletion"],
        Kind::SetDeletion if lost == 0 => vec!["set deletion without a match"],
        Kind::SetDeletion => vec!["set deletion with matches"],
        Kind::Modification => {
            let mut deeds: Vec<&str> = request.records.iter().filter_map(deed).collect();
            deeds.sort();
            deeds.dedup();
            deeds
        }
    }
}

/// What a record of a modification does.
fn deed(record: &Record) -> Option<&'static str> {
    match record {
        Record::CreatePdr { .. } => Some("new PDR"),
        Record::CreateEndpoint { .. } => Some("new endpoint"),
        Record::UpdatePdr { .. } => Some("updated PDR"),
        Record::RemovePdr { .. } => Some("removed PDR"),
        Record::RemoveEndpoint { .. } => Some("removed endpoint"),
        Record::FqCsid(_) | Record::RemoveAllFqCsids => Some("FQ-CSIDs of a live session"),
        Record::UpdateEndpoint => None,
    }
}
