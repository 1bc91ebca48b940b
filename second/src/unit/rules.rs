//! Stage 4: causes 64, 71, 76 and 73, "one cause after the other". Every reason that holds is
//! given, in the order of the causes, so that the tests can see which rules stood alone.

use std::collections::{BTreeMap, BTreeSet};
use std::net::Ipv4Addr;

use super::{AtEntry, Reason};
use crate::element::f_teid::FTeid;
use crate::element::ue_ip::UeIp;
use crate::request::{Pdi, Record, Request};
use crate::session::{distinct_teids, of_peer, taken_addresses, Families, Session};
use crate::settings::Settings;

/// 71: "F-TEID without CH outside restoration, or with CH inside it".
#[derive(Clone, Copy, PartialEq, Eq, PartialOrd, Ord, Debug)]
pub enum Allocation {
    PdrGivenOutsideRestoration,
    EndpointGivenOutsideRestoration,
    PdrChooseInRestoration,
    EndpointChooseInRestoration,
}

/// 76: "PDI in Update PDR [..], or element 129 (not opened) in a modification", and "V6, CHV6, IPv6D
/// or IP6PL" in a UE IP Address.
#[derive(Clone, Copy, PartialEq, Eq, PartialOrd, Ord, Debug)]
pub enum Unsupported {
    PdiInUpdatePdr,
    UpdateEndpoint,
    AddressOfPdr,
    AddressOfEndpoint,
}

/// 73: every clause of its sentence by name.
#[derive(Clone, Copy, PartialEq, Eq, PartialOrd, Ord, Debug)]
pub enum Rule {
    // "an ID removed, created or updated twice"
    PdrRemovedTwice,
    PdrCreatedTwice,
    PdrUpdatedTwice,
    EndpointRemovedTwice,
    EndpointCreatedTwice,
    // "a created ID live at entry"; also where the same request removes it, or its endpoint
    CreatedPdrLive,
    CreatedPdrLiveButRemoved,
    CreatedPdrLiveButGoesAlong,
    CreatedEndpointLive,
    CreatedEndpointLiveButRemoved,
    // "a removed or updated ID not live at entry"
    RemovedPdrNotLive,
    RemovedEndpointNotLive,
    UpdatedPdrNotLive,
    // "an update of a removed PDR"; of one that goes with its endpoint too
    UpdateOfRemovedPdr,
    UpdateOfPdrThatGoesAlong,
    // "F-TEID and endpoint ID in one PDI"
    TunnelAndEndpointInPdi,
    // "an endpoint ID not there afterwards"; "creating a PDR that names the endpoint"
    EndpointNotThere,
    EndpointNotThereForItIsRemoved,
    // "equal CHOOSE IDs with other families or source interface"
    ChooseIdWithOtherFamilies,
    ChooseIdWithOtherSourceInterface,
    // "a family the unit lacks"
    PdrFamilyLacking,
    EndpointFamilyLacking,
    // "a restored F-TEID outside the pool,
    RestoredPdrOutsidePool,
    RestoredEndpointOutsidePool,
    // with another address,
    RestoredWithOtherIpv4,
    RestoredWithOtherIpv6,
    // held by another session, of this peer or of the other,
    RestoredHeldByAnotherSession,
    RestoredHeldByOtherPeer,
    // or shared against the table's rule"
    SharedByEndpoints,
    SharedByEndpointAndPdr,
    SharedWithOtherFamilies,
    SharedWithOtherSourceInterface,
    // "The control plane may give addresses outside our pool; one inside it is 73 unless restoring";
    // also where the session holds it
    PdrAddressInsidePool,
    EndpointAddressInsidePool,
    OwnAddressInsidePool,
    // "a restored pool address held by another session is 73", of this peer or of the other
    RestoredAddressOfAnotherSession,
    RestoredAddressOfOtherPeer,
    // "CHOOSE inside one is 73"
    PdrAddressChooseInRestoration,
    EndpointAddressChooseInRestoration,
}

/// Every reason of stage 4 that holds for a request.
pub fn broken(entry: AtEntry, request: &Request) -> Vec<Reason> {
    let mut reasons = Vec::new();
    if let Some(f_seid) = &request.f_seid {
        // 64: "establishment of a live SEID", of this peer's
        if entry.session(f_seid.seid).is_some() {
            reasons.push(Reason::LiveSeid);
        }
    }
    reasons.extend(allocations(request).into_iter().map(Reason::Allocation));
    reasons.extend(unsupported(request).into_iter().map(Reason::Unsupported));
    reasons.extend(conflicts(entry, request).into_iter().map(Reason::Rule));
    reasons
}

/// Every F-TEID of the request is looked at, also in a PDI that names an endpoint as well.
fn allocations(request: &Request) -> BTreeSet<Allocation> {
    let mut found = BTreeSet::new();
    for (f_teid, source_interface) in request.f_teids() {
        let of_pdr = source_interface.is_some();
        let given = matches!(f_teid, FTeid::Given { .. });
        match (given, request.restoration) {
            (true, false) if of_pdr => found.insert(Allocation::PdrGivenOutsideRestoration),
            (true, false) => found.insert(Allocation::EndpointGivenOutsideRestoration),
            (false, true) if of_pdr => found.insert(Allocation::PdrChooseInRestoration),
            (false, true) => found.insert(Allocation::EndpointChooseInRestoration),
            _ => false,
        };
    }
    found
}

/// Every element of the request is looked at; an establishment has only addresses among them.
fn unsupported(request: &Request) -> BTreeSet<Unsupported> {
    let of = |record: &Record| match record {
        Record::UpdatePdr { with_pdi: true, .. } => Some(Unsupported::PdiInUpdatePdr),
        Record::UpdateEndpoint => Some(Unsupported::UpdateEndpoint),
        _ => None,
    };
    let addresses = request.ue_ips().filter(|(ue_ip, _)| *ue_ip == UeIp::NotServed);
    let of_address = |(_, of_pdr)| match of_pdr {
        true => Unsupported::AddressOfPdr,
        false => Unsupported::AddressOfEndpoint,
    };
    request.records.iter().filter_map(of).chain(addresses.map(of_address)).collect()
}

/// The IDs that a request names, by verb, in request order.
#[derive(Default)]
struct Named {
    pdrs_removed: Vec<u16>,
    pdrs_created: Vec<u16>,
    pdrs_updated: Vec<u16>,
    endpoints_removed: Vec<u8>,
    endpoints_created: Vec<u8>,
}

impl Named {
    fn of(request: &Request) -> Named {
        let mut named = Named::default();
        for record in &request.records {
            match record {
                Record::CreatePdr { id, .. } => named.pdrs_created.push(*id),
                Record::CreateEndpoint { id, .. } => named.endpoints_created.push(*id),
                Record::UpdatePdr { id, .. } => named.pdrs_updated.push(*id),
                Record::RemovePdr { id } => named.pdrs_removed.push(*id),
                Record::RemoveEndpoint { id } => named.endpoints_removed.push(*id),
                _ => {}
            }
        }
        named
    }
}

fn has_repeat<T: Ord>(ids: &[T]) -> bool {
    ids.iter().collect::<BTreeSet<_>>().len() < ids.len()
}

/// The broken rules of 73.
fn conflicts(entry: AtEntry, request: &Request) -> BTreeSet<Rule> {
    let settings = entry.settings;
    let nothing = Session::default();
    // What the request changes, as it stands at entry.
    let own = entry.own(request).unwrap_or(&nothing);
    let named = Named::of(request);
    let mut found = BTreeSet::new();
    found.extend(verbs(own, &named, &own.removed_by(request)));
    found.extend(names_of_endpoints(own, &named, request));
    found.extend(choose_ids(request));
    found.extend(families(settings, request));
    found.extend(match request.restoration {
        true => restored_addresses(entry, request),
        false => given_addresses(settings, own, request),
    });
    if request.restoration {
        found.extend(restored(entry, request));
    }
    found
}

/// What is removed, created and updated, against what is live at entry. `removed` are the PDRs
/// that go, by name or with their endpoint.
fn verbs(own: &Session, named: &Named, removed: &BTreeSet<u16>) -> Vec<Rule> {
    let mut found = Vec::new();
    let twice = [
        (has_repeat(&named.pdrs_removed), Rule::PdrRemovedTwice),
        (has_repeat(&named.pdrs_created), Rule::PdrCreatedTwice),
        (has_repeat(&named.pdrs_updated), Rule::PdrUpdatedTwice),
        (has_repeat(&named.endpoints_removed), Rule::EndpointRemovedTwice),
        (has_repeat(&named.endpoints_created), Rule::EndpointCreatedTwice),
    ];
    found.extend(twice.iter().filter(|(holds, _)| *holds).map(|(_, rule)| *rule));
    for id in named.pdrs_created.iter().filter(|id| own.pdrs.contains_key(id)) {
        found.push(match (named.pdrs_removed.contains(id), removed.contains(id)) {
            (true, _) => Rule::CreatedPdrLiveButRemoved,
            (false, true) => Rule::CreatedPdrLiveButGoesAlong,
            (false, false) => Rule::CreatedPdrLive,
        });
    }
    for id in named.endpoints_created.iter().filter(|id| own.endpoints.contains_key(id)) {
        found.push(match named.endpoints_removed.contains(id) {
            true => Rule::CreatedEndpointLiveButRemoved,
            false => Rule::CreatedEndpointLive,
        });
    }
    if named.pdrs_removed.iter().any(|id| !own.pdrs.contains_key(id)) {
        found.push(Rule::RemovedPdrNotLive);
    }
    if named.endpoints_removed.iter().any(|id| !own.endpoints.contains_key(id)) {
        found.push(Rule::RemovedEndpointNotLive);
    }
    if named.pdrs_updated.iter().any(|id| !own.pdrs.contains_key(id)) {
        found.push(Rule::UpdatedPdrNotLive);
    }
    for id in named.pdrs_updated.iter().filter(|id| removed.contains(id)) {
        found.push(match named.pdrs_removed.contains(id) {
            true => Rule::UpdateOfRemovedPdr,
            false => Rule::UpdateOfPdrThatGoesAlong,
        });
    }
    found
}

fn created_pdis(request: &Request) -> impl Iterator<Item = &Pdi> {
    request.records.iter().filter_map(|record| match record {
        Record::CreatePdr { pdi, .. } => Some(pdi),
        _ => None,
    })
}

/// The endpoints that created PDRs name.
fn names_of_endpoints(own: &Session, named: &Named, request: &Request) -> Vec<Rule> {
    let mut found = Vec::new();
    for pdi in created_pdis(request) {
        let Some(id) = pdi.endpoint else { continue };
        if pdi.f_teid.is_some() {
            found.push(Rule::TunnelAndEndpointInPdi);
        }
        let removed = named.endpoints_removed.contains(&id);
        let stays = own.endpoints.contains_key(&id) && !removed;
        if !stays && !named.endpoints_created.contains(&id) {
            found.push(match own.endpoints.contains_key(&id) {
                true => Rule::EndpointNotThereForItIsRemoved,
                false => Rule::EndpointNotThere,
            });
        }
    }
    found
}

/// CHOOSE IDs are a space of the request's Create PDRs.
fn choose_ids(request: &Request) -> Vec<Rule> {
    let mut found = Vec::new();
    let mut first_uses: BTreeMap<u8, (Families, u8)> = BTreeMap::new();
    for pdi in created_pdis(request) {
        if let Some(FTeid::Choose { families, choose_id: Some(id) }) = pdi.f_teid {
            let first = *first_uses.entry(id).or_insert((families, pdi.source_interface));
            if first.0 != families {
                found.push(Rule::ChooseIdWithOtherFamilies);
            }
            if first.1 != pdi.source_interface {
                found.push(Rule::ChooseIdWithOtherSourceInterface);
            }
        }
    }
    found
}

fn families(settings: &Settings, request: &Request) -> Vec<Rule> {
    let lacking = request.f_teids().filter(|(f_teid, _)| !settings.has(f_teid.families()));
    lacking
        .map(|(_, source_interface)| match source_interface {
            Some(_) => Rule::PdrFamilyLacking,
            None => Rule::EndpointFamilyLacking,
        })
        .collect()
}

/// The addresses that the control plane gives, outside a restoration.
fn given_addresses(settings: &Settings, own: &Session, request: &Request) -> Vec<Rule> {
    let mut found = Vec::new();
    for (ue_ip, of_pdr) in request.ue_ips() {
        let UeIp::Given(address) = ue_ip else { continue };
        if settings.address_place(address).is_some() {
            found.push(match (own.addresses().any(|held| held == address), of_pdr) {
                (true, _) => Rule::OwnAddressInsidePool,
                (false, true) => Rule::PdrAddressInsidePool,
                (false, false) => Rule::EndpointAddressInsidePool,
            });
        }
    }
    found
}

/// The addresses that a restoration carries. One outside the pool may be anyone's; one inside it may
/// be no session's of either peer.
fn restored_addresses(entry: AtEntry, request: &Request) -> Vec<Rule> {
    let elsewhere = taken_addresses(entry.settings, entry.sessions);
    let holds = |address: Ipv4Addr| {
        of_peer(entry.sessions, entry.peer).any(|(_, s)| s.addresses().any(|a| a == address))
    };
    let mut found = Vec::new();
    for (ue_ip, of_pdr) in request.ue_ips() {
        match ue_ip {
            UeIp::Given(address) if elsewhere.contains(&address) => {
                found.push(match holds(address) {
                    true => Rule::RestoredAddressOfAnotherSession,
                    false => Rule::RestoredAddressOfOtherPeer,
                });
            }
            UeIp::Choose if of_pdr => found.push(Rule::PdrAddressChooseInRestoration),
            UeIp::Choose => found.push(Rule::EndpointAddressChooseInRestoration),
            _ => {}
        }
    }
    found
}

/// The F-TEIDs that a restoration carries. A TEID is one session's over both peers.
fn restored(entry: AtEntry, request: &Request) -> Vec<Rule> {
    let AtEntry { settings, sessions, peer } = entry;
    let mut found = Vec::new();
    let elsewhere = distinct_teids(sessions);
    let holds = |teid: u32| of_peer(sessions, peer).any(|(_, s)| s.teids().any(|t| t == teid));
    let mut of_endpoints: BTreeSet<u32> = BTreeSet::new();
    let mut of_pdrs: BTreeMap<u32, (Families, u8)> = BTreeMap::new();
    for (f_teid, source_interface) in request.f_teids() {
        let FTeid::Given { teid, ipv4, ipv6 } = f_teid else { continue };
        if !settings.holds(*teid) {
            found.push(match source_interface {
                Some(_) => Rule::RestoredPdrOutsidePool,
                None => Rule::RestoredEndpointOutsidePool,
            });
        }
        if ipv4.is_some_and(|address| address != settings.ipv4) {
            found.push(Rule::RestoredWithOtherIpv4);
        }
        if let (Some(address), Some(own)) = (ipv6, settings.ipv6) {
            if *address != own {
                found.push(Rule::RestoredWithOtherIpv6);
            }
        }
        if elsewhere.contains(teid) {
            found.push(match holds(*teid) {
                true => Rule::RestoredHeldByAnotherSession,
                false => Rule::RestoredHeldByOtherPeer,
            });
        }
        match source_interface {
            None => {
                if !of_endpoints.insert(*teid) {
                    found.push(Rule::SharedByEndpoints);
                }
            }
            Some(source) => {
                let this_use = (f_teid.families(), source);
                let first = *of_pdrs.entry(*teid).or_insert(this_use);
                if first.0 != this_use.0 {
                    found.push(Rule::SharedWithOtherFamilies);
                }
                if first.1 != this_use.1 {
                    found.push(Rule::SharedWithOtherSourceInterface);
                }
            }
        }
    }
    if of_endpoints.iter().any(|teid| of_pdrs.contains_key(teid)) {
        found.push(Rule::SharedByEndpointAndPdr);
    }
    found
}
