//! What a request is granted: "a list of at most 24 entries, pairing a record's kind and ID with its
//! TEID, from which the reply is written", with the address where one was chosen.

use std::collections::{BTreeMap, BTreeSet};
use std::net::Ipv4Addr;

use crate::element::f_teid::FTeid;
use crate::element::ue_ip::UeIp;
use crate::request::{Record, Request};
use crate::session::{distinct_teids, taken_addresses, Sessions};
use crate::settings::Settings;

/// A record's kind and ID.
#[derive(Clone, Copy, PartialEq, Eq, Debug)]
pub enum Owner {
    Endpoint(u8),
    Pdr(u16),
}

#[derive(Clone, Copy, PartialEq, Eq, Debug)]
pub struct Grant {
    pub owner: Owner,
    pub teid: Option<u32>,
    pub address: Option<Ipv4Addr>,
}

/// How many TEIDs the request needs: "Each CHOOSE without an ID takes a TEID of its own; CHOOSE IDs
/// that are equal within one request share one." Restorations have "the different TEIDs they name as
/// their need".
pub fn needed(request: &Request) -> usize {
    let mut own = 0;
    let mut ids = BTreeSet::new();
    let mut restored = BTreeSet::new();
    for (f_teid, _) in request.f_teids() {
        match f_teid {
            FTeid::Choose { choose_id: Some(id), .. } => drop(ids.insert(*id)),
            FTeid::Choose { choose_id: None, .. } => own += 1,
            FTeid::Given { teid, .. } => drop(restored.insert(*teid)),
        }
    }
    match request.restoration {
        true => restored.len(),
        false => own + ids.len(),
    }
}

/// "TEIDs are the lowest free at entry, to endpoints in request order and then to PDRs at first
/// use." "All CHOOSE IPV4 flags in one request share one address, the lowest free at entry." Only
/// for a request that has passed all stages.
pub fn allot(settings: &Settings, sessions: &Sessions, request: &Request) -> Vec<Grant> {
    let taken = distinct_teids(sessions);
    let mut free = settings.pool().filter(|teid| !taken.contains(teid));
    let mut lowest = || free.next().expect("stage 5 has counted the free TEIDs");
    let shared_address = lowest_address(settings, sessions);
    let address = |ue_ip: &Option<UeIp>| match ue_ip {
        Some(UeIp::Choose) => Some(shared_address.expect("79 has asked for a free address")),
        _ => None,
    };
    let mut grants = Vec::new();
    for record in &request.records {
        if let Record::CreateEndpoint { id, f_teid, ue_ip } = record {
            let teid = matches!(f_teid, FTeid::Choose { .. }).then(&mut lowest);
            grants.push(Grant { owner: Owner::Endpoint(*id), teid, address: address(ue_ip) });
        }
    }
    // The shared ones live for this request only.
    let mut shared: BTreeMap<u8, u32> = BTreeMap::new();
    for record in &request.records {
        let Record::CreatePdr { id, pdi, .. } = record else { continue };
        let teid = match &pdi.f_teid {
            Some(FTeid::Choose { choose_id: None, .. }) => Some(lowest()),
            Some(FTeid::Choose { choose_id: Some(choose_id), .. }) => {
                Some(*shared.entry(*choose_id).or_insert_with(&mut lowest))
            }
            _ => None,
        };
        grants.push(Grant { owner: Owner::Pdr(*id), teid, address: address(&pdi.ue_ip) });
    }
    grants.retain(|grant| grant.teid.is_some() || grant.address.is_some());
    grants
}

fn lowest_address(settings: &Settings, sessions: &Sessions) -> Option<Ipv4Addr> {
    let taken = taken_addresses(settings, sessions);
    settings.address_pool().find(|address| !taken.contains(address))
}

/// What was granted to a record.
pub fn of(grants: &[Grant], owner: Owner) -> Option<Grant> {
    grants.iter().find(|grant| grant.owner == owner).copied()
}
