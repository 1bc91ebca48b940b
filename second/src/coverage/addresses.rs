//! What an accepted request has done with addresses, for the counters.

use std::collections::BTreeSet;
use std::net::Ipv4Addr;

use super::deeds::Done;
use crate::element::f_teid::FTeid;
use crate::element::ue_ip::UeIp;
use crate::request::{Kind, Record, Request};
use crate::session::{of_peer, taken_addresses, Session, Sessions};
use crate::settings::Settings;
use crate::unit::AtEntry;

/// Each thing once.
pub fn deeds_of_addresses(entry: AtEntry, request: &Request) -> BTreeSet<Done> {
    let AtEntry { settings, sessions: before, peer } = entry;
    let mut done = BTreeSet::new();
    let holds = |session: &Session| !session.pool_addresses(settings).is_empty();
    let own = entry.own(request);
    match (request.header.kind, request.restoration) {
        (Kind::Establishment, true) => restored(settings, request, before, &mut done),
        (Kind::Establishment, false) => {
            created(request, &mut done);
            chosen(settings, request, None, before, &mut done);
        }
        (Kind::Modification, _) => {
            created(request, &mut done);
            chosen(settings, request, own, before, &mut done);
            own.iter().for_each(|own| removed(settings, request, own, &mut done));
        }
        (Kind::Deletion, _) if own.is_some_and(holds) => {
            done.insert(Done::AddressFreedByDeletion);
        }
        (Kind::SetDeletion, _)
            if of_peer(before, peer).any(|(_, s)| s.is_lost_by(request) && holds(s)) =>
        {
            done.insert(Done::SetFreeingAddresses);
        }
        _ => {}
    }
    done
}

/// What a record asks for, and what stands beside its address.
fn created(request: &Request, done: &mut BTreeSet<Done>) {
    let is_choose = |f_teid: &FTeid| matches!(f_teid, FTeid::Choose { .. });
    for record in &request.records {
        let (of_pdr, chooses_teid, ue_ip) = match record {
            Record::CreatePdr { pdi, .. } => {
                (true, pdi.f_teid.as_ref().is_some_and(is_choose), pdi.ue_ip)
            }
            Record::CreateEndpoint { f_teid, ue_ip, .. } => (false, is_choose(f_teid), *ue_ip),
            _ => continue,
        };
        match (ue_ip, of_pdr) {
            (Some(UeIp::Given(_)), true) => drop(done.insert(Done::PdrAddressGiven)),
            (Some(UeIp::Given(_)), false) => drop(done.insert(Done::EndpointAddressGiven)),
            (Some(UeIp::Choose), true) => drop(done.insert(Done::PdrAddressChosen)),
            (Some(UeIp::Choose), false) => drop(done.insert(Done::EndpointAddressChosen)),
            _ => {}
        }
        match (chooses_teid, ue_ip == Some(UeIp::Choose)) {
            (true, true) => drop(done.insert(Done::TeidAndAddressChosen)),
            (true, false) => drop(done.insert(Done::OnlyTeidChosen)),
            (false, true) => drop(done.insert(Done::OnlyAddressChosen)),
            (false, false) => {}
        }
        if let (Record::CreatePdr { pdi, .. }, Some(_)) = (record, ue_ip) {
            match (&pdi.f_teid, pdi.endpoint) {
                (None, Some(_)) => drop(done.insert(Done::AddressBesideEndpointId)),
                (None, None) => drop(done.insert(Done::AddressOfPdrWithNeither)),
                _ => {}
            }
        }
    }
    let choosers: Vec<bool> = request
        .ue_ips()
        .filter(|(ue_ip, _)| *ue_ip == UeIp::Choose)
        .map(|(_, of_pdr)| of_pdr)
        .collect();
    if choosers.iter().filter(|of_pdr| **of_pdr).count() > 1 {
        done.insert(Done::AddressSharedByPdrs);
    }
    if choosers.contains(&true) && choosers.contains(&false) {
        done.insert(Done::AddressSharedByPdrAndEndpoint);
    }
}

/// Whether another session holds this address.
fn is_elsewhere(address: Ipv4Addr, own: Option<&Session>, before: &Sessions) -> bool {
    let others = before.values().filter(|session| own.is_none_or(|own| *session != own));
    others.flat_map(|session| session.addresses()).any(|held| held == address)
}

/// By what lives at entry.
fn chosen(
    settings: &Settings,
    request: &Request,
    own: Option<&Session>,
    before: &Sessions,
    done: &mut BTreeSet<Done>,
) {
    for (ue_ip, _) in request.ue_ips() {
        if let UeIp::Given(address) = ue_ip {
            if is_elsewhere(address, own, before) {
                done.insert(Done::OutsideAddressOfTwoSessions);
            }
        }
    }
    if !request.chooses_address() {
        return;
    }
    if own.is_some_and(|own| !own.pool_addresses(settings).is_empty()) {
        done.insert(Done::SecondAddressChosen);
    }
    let taken = taken_addresses(settings, before);
    let lowest = settings.address_pool().find(|address| !taken.contains(address));
    if lowest.is_some_and(|lowest| taken.iter().any(|address| *address > lowest)) {
        done.insert(Done::AddressBelowTakenOnes);
    }
    if taken.len() + 1 == settings.addresses as usize {
        done.insert(Done::LastAddressChosen);
    }
}

/// What the removals of a modification leave of the session's addresses.
fn removed(settings: &Settings, request: &Request, own: &Session, done: &mut BTreeSet<Done>) {
    let gone = own.removed_by(request);
    let mut after = own.clone();
    after.pdrs.retain(|id, _| !gone.contains(id));
    let mut of_gone: Vec<Ipv4Addr> = gone.iter().filter_map(|id| own.pdrs[id].address).collect();
    let mut of_endpoints = Vec::new();
    for record in &request.records {
        if let Record::RemoveEndpoint { id } = record {
            of_endpoints.extend(after.endpoints.remove(id).and_then(|endpoint| endpoint.address));
        }
    }
    let left = after.pool_addresses(settings);
    let freed =
        |address: &Ipv4Addr| settings.address_place(*address).is_some() && !left.contains(address);
    if of_endpoints.iter().any(freed) {
        done.insert(Done::AddressFreedWithEndpoint);
    }
    of_gone.extend(of_endpoints);
    if of_gone.iter().any(freed) {
        done.insert(Done::AddressFreed);
    }
    if of_gone.iter().any(|address| left.contains(address)) {
        done.insert(Done::AddressKeptBySharing);
    }
}

fn restored(settings: &Settings, request: &Request, before: &Sessions, done: &mut BTreeSet<Done>) {
    let mut met = BTreeSet::new();
    for (ue_ip, _) in request.ue_ips() {
        let UeIp::Given(address) = ue_ip else { continue };
        done.insert(match settings.address_place(address) {
            Some(_) => Done::RestoredPoolAddress,
            None => Done::RestoredOutsideAddress,
        });
        if !met.insert(address) && settings.address_place(address).is_some() {
            done.insert(Done::RestoredAddressShared);
        }
        if is_elsewhere(address, None, before) {
            done.insert(Done::RestoredOutsideAddressOfTwoSessions);
        }
    }
}
