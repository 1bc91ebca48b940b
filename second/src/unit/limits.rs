//! Stage 5, cause 75: more sessions than the peer's half, "16 PDRs or 8 endpoints would result", or the
//! peer has too few TEIDs; then cause 79: "A CHOOSE with no free address".

use std::collections::BTreeSet;

use super::{grants, AtEntry, Reason};
use crate::request::{Kind, Record, Request};
use crate::session::{count_of, holdings, taken_addresses, Session};
use crate::session::{MOST_ENDPOINTS, MOST_PDRS};
use crate::settings::other_peer;

#[derive(Clone, Copy, PartialEq, Eq, PartialOrd, Ord, Debug)]
pub enum Limit {
    Sessions,
    SessionsByRestoration,
    Pdrs,
    PdrsByRestoration,
    Endpoints,
    EndpointsByRestoration,
    /// Too few TEIDs: by which test, and for what need.
    Teids(TeidTest, Need),
}

/// "A request needing TEIDs is 75 if the peer's holdings at entry plus its need pass its limit, or if
/// all holdings at entry, the need, and the other peer's unused guarantee together pass the pool."
#[derive(Clone, Copy, PartialEq, Eq, PartialOrd, Ord, Debug)]
pub enum TeidTest {
    PeersLimit,
    /// The pool, also without what is kept for the other peer.
    Pool,
    /// The pool, only by what is kept for the other peer.
    OthersGuarantee,
}

#[derive(Clone, Copy, PartialEq, Eq, PartialOrd, Ord, Debug)]
pub enum Need {
    Chosen,
    /// There would be enough if the request's own removals freed their TEIDs at once: "A TEID freed
    /// by a request is free from the next call on (H)."
    ChosenButForRemovals,
    Restored,
}

/// 79, and whether the request's own removals would leave an address free, which they do "from the
/// call after the last holder goes".
#[derive(Clone, Copy, PartialEq, Eq, PartialOrd, Ord, Debug)]
pub enum NoAddress {
    AtAll,
    ButForRemovals,
}

pub fn passed(entry: AtEntry, request: &Request) -> Vec<Reason> {
    let mut found = Vec::new();
    let own = entry.own(request);
    // The limits count live minus removed plus created; a PDR that goes with its endpoint is
    // removed.
    let mut pdrs: BTreeSet<u16> = own.map_or(BTreeSet::new(), |s| s.pdrs.keys().copied().collect());
    for id in own.map_or(BTreeSet::new(), |s| s.removed_by(request)) {
        pdrs.remove(&id);
    }
    let mut endpoints: BTreeSet<u8> =
        own.map_or(BTreeSet::new(), |s| s.endpoints.keys().copied().collect());
    for record in &request.records {
        if let Record::RemoveEndpoint { id } = record {
            endpoints.remove(id);
        }
    }
    for record in &request.records {
        match record {
            Record::CreatePdr { id, .. } => pdrs.insert(*id),
            Record::CreateEndpoint { id, .. } => endpoints.insert(*id),
            _ => false,
        };
    }
    let by = |restoration, otherwise| if request.restoration { restoration } else { otherwise };
    let sessions = count_of(entry.sessions, entry.peer);
    if request.header.kind == Kind::Establishment && entry.settings.is_full(sessions) {
        found.push(by(Limit::SessionsByRestoration, Limit::Sessions));
    }
    if pdrs.len() > MOST_PDRS {
        found.push(by(Limit::PdrsByRestoration, Limit::Pdrs));
    }
    if endpoints.len() > MOST_ENDPOINTS {
        found.push(by(Limit::EndpointsByRestoration, Limit::Endpoints));
    }
    let freed = own.map_or(0, |own| freed_by_removals(own, &pdrs, &endpoints));
    found.extend(too_few_teids(entry, request, freed));
    found.into_iter().map(Reason::Limit).collect()
}

/// The tests of TEIDs that a request does not pass. How many its removals free only names the kind.
fn too_few_teids(entry: AtEntry, request: &Request, freed: usize) -> Vec<Limit> {
    let AtEntry { settings, sessions, peer } = entry;
    let need = grants::needed(request);
    if need == 0 {
        return vec![];
    }
    let other = other_peer(peer);
    let (held, held_by_other) = (holdings(sessions, peer), holdings(sessions, other));
    let kept = (settings.peer(other).guarantee as usize).saturating_sub(held_by_other);
    let (limit, size) = (settings.peer(peer).limit as usize, settings.size as usize);
    let taken = held + held_by_other + need;
    let mut found = Vec::new();
    let mut pass = |test, total: usize, most: usize| {
        let why = match (request.restoration, total - freed <= most) {
            (true, _) => Need::Restored,
            (false, true) => Need::ChosenButForRemovals,
            (false, false) => Need::Chosen,
        };
        if total > most {
            found.push(Limit::Teids(test, why));
        }
    };
    pass(TeidTest::PeersLimit, held + need, limit);
    match taken > size {
        true => pass(TeidTest::Pool, taken + kept, size),
        false => pass(TeidTest::OthersGuarantee, taken + kept, size),
    }
    found
}

/// How many TEIDs the request's removals free, for naming the kind of 75 only.
fn freed_by_removals(own: &Session, pdrs: &BTreeSet<u16>, endpoints: &BTreeSet<u8>) -> usize {
    let before: BTreeSet<u32> = own.teids().collect();
    let mut after = own.clone();
    after.pdrs.retain(|id, _| pdrs.contains(id));
    after.endpoints.retain(|id, _| endpoints.contains(id));
    let after: BTreeSet<u32> = after.teids().collect();
    before.len() - after.len()
}

/// Cause 79. All CHOOSE flags of a request share one address, so one that is free is enough.
pub fn no_address(entry: AtEntry, request: &Request) -> Option<Reason> {
    let AtEntry { settings, sessions, .. } = entry;
    let taken = taken_addresses(settings, sessions);
    if request.restoration
        || !request.chooses_address()
        || taken.len() < settings.addresses as usize
    {
        return None;
    }
    let nothing = Session::default();
    let own = entry.own(request).unwrap_or(&nothing);
    let mut after = own.clone();
    let removed = own.removed_by(request);
    after.pdrs.retain(|id, _| !removed.contains(id));
    for record in &request.records {
        if let Record::RemoveEndpoint { id } = record {
            after.endpoints.remove(id);
        }
    }
    // A pool address is held by one session only.
    let freed = own.pool_addresses(settings).len() > after.pool_addresses(settings).len();
    Some(Reason::NoAddress(if freed { NoAddress::ButForRemovals } else { NoAddress::AtAll }))
}
