//! Drives the unit over generated sequences and checks what document 01 promises of every call.

use std::collections::BTreeSet;

use crate::coverage::Coverage;
use crate::generate::random::Random;
use crate::generate::{Call, Generator};
use crate::ie;
use crate::live::LiveSet;
use crate::request;
use crate::request::framing::{elements, Part};
use crate::restoration::{self, Envelope, LONGEST};
use crate::session::{holdings, of_peer, records_hold, Key, Sessions};
use crate::settings::{Settings, PEERS};
use crate::unit::grants::needed;
use crate::unit::limits::Limit;
use crate::unit::{Decision, Reason, Refused, Unit};

/// From this many calls on, a run must have met every counter of the coverage.
pub const CALLS_FOR_WHOLE_COVERAGE: usize = 20_000;

/// The octet that a reply space is filled with before a call.
const FILLING: u8 = 0xA5;

#[derive(Debug, Default)]
pub struct Report {
    pub calls: usize,
    pub accepted: usize,
    pub restored: usize,
    pub longest_restoration: usize,
    pub longest_reply: usize,
    pub passed: u64,
    pub failures: Vec<String>,
    pub coverage: Coverage,
}

impl Report {
    fn check(&mut self, holds: bool, what: impl FnOnce() -> String) {
        match holds {
            true => self.passed += 1,
            false => {
                let call = self.calls;
                self.failures.push(format!("call {call}: {}", what()));
            }
        }
    }
}

/// Runs so many calls from a seed.
pub fn run(seed: u64, calls: usize) -> Report {
    let mut report = Report::default();
    let mut generator = Generator::new(seed);
    let mut random = Random::new(!seed);
    while report.calls < calls {
        let mut scenario = generator.scenario();
        refused_settings(&mut report, &mut generator, &scenario.settings);
        let mut unit =
            Unit::new(scenario.settings.clone()).expect("generated settings are allowed");
        let mut live = LiveSet::new();
        for number in 0..scenario.calls.min(calls - report.calls) {
            let call = generator.call(&mut scenario, &live.sessions);
            one_call(&mut report, &mut unit, &mut live, &call);
            report.calls += 1;
            if number % 60 == 59 {
                restore_all(&mut report, &mut random, &scenario.settings, &live.sessions);
            }
        }
        restore_all(&mut report, &mut random, &scenario.settings, &live.sessions);
    }
    if calls >= CALLS_FOR_WHOLE_COVERAGE {
        for counter in report.coverage.unmet() {
            report.check(false, || format!("never met: {counter}"));
        }
        let unmet = report.coverage.unmet().is_empty();
        report.check(unmet, || "the coverage is not whole".to_string());
    }
    report
}

/// Settings that are not allowed by one number alone.
fn refused_settings(report: &mut Report, generator: &mut Generator, allowed: &Settings) {
    let (other, limit) = generator.refused(allowed);
    let ipv6 = other.ipv6.map_or(vec![], |address| address.to_vec());
    let teids = (other.first, other.size);
    let addresses = (other.first_address, other.addresses);
    let made = Settings::make(other.ipv4, &ipv6, teids, addresses, limit, other.peers);
    report.check(made.is_none(), || format!("{other:?} and the limit {limit} are allowed"));
}

fn one_call(report: &mut Report, unit: &mut Unit, live: &mut LiveSet, call: &Call) {
    let before = unit.sessions().clone();
    let decision = unit.decide(call.peer, &call.message, call.reply_space);
    let settings = unit.settings().clone();
    report.coverage.decided(call, &decision, &settings, &before);
    let mut space = vec![FILLING; call.reply_space];
    let outcome = unit.request(call.peer, &call.message, &mut space);
    let (reply, rest) = space.split_at(outcome.reply_length);
    report.longest_reply = report.longest_reply.max(reply.len());
    report.check(rest.iter().all(|octet| *octet == FILLING), || "space after the reply".into());
    report.check(reply.len() <= ie::LEAST_REPLY_SPACE, || "a reply over 1,280 octets".into());
    match &decision {
        Decision::Outcome(number) => {
            report.check(outcome.number == *number, || "another outcome than decided".into());
            report.check(reply.is_empty(), || "a reply to a refused message".into());
        }
        Decision::Refused(refused) => {
            let cause = cause_of(&call.message, reply);
            report.check(cause == Ok(refused.cause()), || format!("reply of {cause:?}"));
            guarantee_is_kept(report, &settings, &before, refused, call);
        }
        Decision::Accepted { .. } => {
            let cause = cause_of(&call.message, reply);
            report.check(cause == Ok(1), || format!("reply of {cause:?}"));
            report.accepted += 1;
        }
    }
    // "Any cause but 1 leaves the table unchanged."
    if !matches!(decision, Decision::Accepted { .. }) {
        report.check(*unit.sessions() == before, || "a refusal changed the sessions".into());
    }
    // The live set comes from the replies alone.
    let followed = live.follow(call.peer, &call.message, outcome.number, reply);
    report.check(followed.is_ok(), || format!("the live set: {followed:?}"));
    report.check(live.sessions == *unit.sessions(), || "the live set differs".into());
    // The free count is counted from the live set.
    let distinct: BTreeSet<u32> = live.sessions.values().flat_map(|s| s.teids()).collect();
    let free = unit.settings().size as usize - distinct.len();
    report.check(unit.free_count() as usize == free, || "the free count differs".into());
    let ones: u32 = unit.taken_map().iter().map(|word| word.count_ones()).sum();
    report.check(ones as usize == distinct.len(), || "the map differs".into());
    let held = live.sessions.values().flat_map(|session| session.addresses());
    let mut places: Vec<u32> = held.filter_map(|a| unit.settings().address_place(a)).collect();
    places.sort();
    places.dedup();
    let free = unit.settings().addresses as usize - places.len();
    report.check(unit.free_addresses() as usize == free, || "the free addresses differ".into());
    let map = unit.address_map();
    let in_map = |place: &u32| map[*place as usize / 64] >> (place % 64) & 1 == 1;
    let ones: u32 = map.iter().map(|word| word.count_ones()).sum();
    let right = places.iter().all(in_map) && ones as usize == places.len();
    report.check(right, || "the map of addresses differs".into());
    let rules = records_hold(unit.settings(), unit.sessions());
    report.check(rules.is_ok(), || format!("the records: {rules:?}"));
    for peer in PEERS {
        let of_one: BTreeSet<u32> =
            of_peer(&live.sessions, peer).flat_map(|(_, session)| session.teids()).collect();
        let limited = of_one.len() <= unit.settings().peer(peer).limit as usize;
        report.check(limited, || format!("peer {peer} holds more than its limit"));
        let counted = (of_peer(&live.sessions, peer).count() as u32, of_one.len() as u32);
        let right = unit.peer_count(peer.into()) == Some(counted);
        report.check(right, || format!("other counts of peer {peer}"));
    }
}

/// "a need that with the peer's holdings at entry is within its guarantee is never refused for want of
/// TEIDs"
fn guarantee_is_kept(
    report: &mut Report,
    settings: &Settings,
    before: &Sessions,
    refused: &Refused,
    call: &Call,
) {
    let Ok(request) = request::read(&refused.header, &call.message) else { return };
    let held = holdings(before, refused.peer);
    let within = held + needed(&request) <= settings.peer(refused.peer).guarantee as usize;
    let wanting = |reason: &Reason| matches!(reason, Reason::Limit(Limit::Teids(..)));
    let kept = !within || !refused.reasons.iter().any(wanting);
    report.check(kept, || "a need within the guarantee is refused".into());
}

/// The cause of a well-formed reply to this message.
fn cause_of(message: &[u8], reply: &[u8]) -> Result<u8, String> {
    let (first, octets) = match message[1] {
        14 => (0x20, ie::PLAIN_HEADER_OCTETS),
        _ => (0x21, ie::HEADER_OCTETS),
    };
    let (header, body) = reply.split_at_checked(octets).ok_or("no header")?;
    if header[0] != first || header[1] != message[1] + 1 {
        return Err("first octets of the header".into());
    }
    if usize::from(u16::from_be_bytes([header[2], header[3]])) != reply.len() - 4 {
        return Err("length".into());
    }
    let sequence = octets - 4..octets - 1;
    if header[sequence.clone()] != message[sequence] || header[octets - 1] != 0 {
        return Err("sequence or spare".into());
    }
    let types: Vec<u16> = elements(Part::of(body)).map(|element| element.ie_type).collect();
    let octets: usize = elements(Part::of(body)).map(|element| 4 + element.value.len()).sum();
    if octets != body.len() {
        return Err("elements".into());
    }
    let cause = elements(Part::of(body)).find(|e| e.ie_type == ie::CAUSE && e.value.len() == 1);
    let cause = cause.ok_or("no cause")?.value[0];
    // The order of the reply's elements.
    let mut expected = vec![];
    if [14, 50].contains(&message[1]) {
        expected.push(ie::NODE_ID);
    }
    expected.push(ie::CAUSE);
    if (66..=69).contains(&cause) {
        expected.push(ie::OFFENDING_IE);
    }
    if cause == 1 && message[1] == 50 {
        expected.push(ie::F_SEID);
    }
    let count = |ie_type| types.iter().filter(|other| **other == ie_type).count();
    expected.extend(vec![ie::CREATED_PDR; count(ie::CREATED_PDR)]);
    expected.extend(vec![ie::CREATED_ENDPOINT; count(ie::CREATED_ENDPOINT)]);
    if types != expected || (cause != 1 && count(ie::CREATED_PDR) + count(ie::CREATED_ENDPOINT) > 0)
    {
        return Err(format!("elements {types:?}"));
    }
    Ok(cause)
}

/// Restores every live session, in any order over both peers, each under its own, into a fresh unit.
fn restore_all(report: &mut Report, random: &mut Random, settings: &Settings, live: &Sessions) {
    let mut unit = Unit::new(settings.clone()).expect("generated settings are allowed");
    let mut restored = LiveSet::new();
    let mut keys: Vec<Key> = live.keys().copied().collect();
    random.shuffle(&mut keys);
    for key in keys {
        let (peer, seid) = (u32::from(key.peer), key.seid);
        let envelope = Envelope::any(random, seid);
        let message = restoration::request(settings, seid, &live[&key], &envelope);
        let message = message.expect("a live session can be restored");
        report.check(message.len() <= LONGEST, || format!("{} octets", message.len()));
        report.longest_restoration = report.longest_restoration.max(message.len());
        let mut space = vec![FILLING; random.pick(&[ie::LEAST_REPLY_SPACE, 1281, 3000])];
        let outcome = unit.request(peer, &message, &mut space);
        let reply = &space[..outcome.reply_length];
        let cause = cause_of(&message, reply);
        report.check(outcome.number == 0 && cause == Ok(1), || format!("restoration: {cause:?}"));
        let followed = restored.follow(peer, &message, outcome.number, reply);
        report.check(followed.is_ok(), || format!("the restored live set: {followed:?}"));
        report.restored += 1;
    }
    report.check(unit.sessions() == live, || "the restored sessions differ".into());
    report.check(restored.sessions == *live, || "the restored live set differs".into());
}
