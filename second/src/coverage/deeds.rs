//! What an accepted request has done, for the counters.

use std::collections::{BTreeMap, BTreeSet};
use std::mem::discriminant;

use crate::element::f_teid::FTeid;
use crate::element::fq_csid::{self, FqCsid, NodeId};
use crate::ie;
use crate::request::framing::{elements, Part};
use crate::request::{FarChange, Kind, Record, Request};
use crate::session::{of_peer, Local, Session};
use crate::unit::AtEntry;

/// What an accepted request has done.
#[derive(Clone, Copy, PartialEq, Eq, PartialOrd, Ord, Debug)]
pub enum Done {
    Establishment,
    Restoration,
    Modification,
    Deletion,
    PdrWithNeither,
    PdrWithOwnChoose,
    PdrWithSoleChooseId,
    PdrsSharingChooseId,
    PdrNamingCreatedEndpoint,
    PdrNamingLiveEndpoint,
    EndpointWithChoose,
    FarGiven,
    NoFarGiven,
    GrantV4,
    GrantV6,
    GrantBoth,
    RestorationWithoutRecords,
    RestorationWithoutPdr,
    RestoredPdr,
    RestoredPdrsSharing,
    RestoredEndpoint,
    RestoredPdrNamingEndpoint,
    ModificationOfNothing,
    PdrRemoved,
    TunnelFreed,
    TunnelKeptBySharing,
    EndpointRemoved,
    PdrWentAlong,
    PdrWentAlongAndNamed,
    PrecedenceUpdated,
    FarUpdated,
    FarTakenAway,
    AbsentFarTakenAway,
    UpdateOfNothing,
    FqCsidSetNew,
    FqCsidReplaced,
    FqCsidRemoved,
    AbsentFqCsidRemoved,
    AllFqCsidsRemoved,
    AllOfNoFqCsidsRemoved,
    FqCsidIpv4,
    FqCsidIpv6,
    FqCsidOperator,
    DeletionSkippingFqCsid,
    DeletionSkippingBrokenFqCsid,
    LargestSession,
    SetDeletion,
    // How many FQ-CSIDs a set deletion lists, and how many sessions go of those that live.
    SetWithoutFqCsid,
    SetOfNone,
    SetOfOneOfMany,
    SetOfSeveral,
    SetOfAll,
    // What else it lists.
    SetWithFifteenCsids,
    SetWithNodeTypeTwice,
    SetByLaterFqCsid,
    SetByLaterCsid,
    SetNamingSessionTwice,
    // A session stays that differs in this alone from what is listed.
    SetSparingOtherNodeType,
    SetSparingOtherNodeIdType,
    SetSparingOtherAddress,
    SetSparingOtherCsid,
    // By the Node-ID type of what goes.
    SetByIpv4,
    SetByIpv6,
    SetByOperator,
    // What goes frees a TEID.
    SetFreeingTeids,
    // Addresses: given, chosen, and what stands beside them.
    PdrAddressGiven,
    EndpointAddressGiven,
    PdrAddressChosen,
    EndpointAddressChosen,
    AddressSharedByPdrs,
    AddressSharedByPdrAndEndpoint,
    TeidAndAddressChosen,
    OnlyTeidChosen,
    OnlyAddressChosen,
    AddressBesideEndpointId,
    AddressOfPdrWithNeither,
    // By what lives at entry.
    OutsideAddressOfTwoSessions,
    SecondAddressChosen,
    AddressBelowTakenOnes,
    LastAddressChosen,
    // What a removal leaves of it.
    AddressFreed,
    AddressKeptBySharing,
    AddressFreedWithEndpoint,
    AddressFreedByDeletion,
    SetFreeingAddresses,
    // Restored.
    RestoredPoolAddress,
    RestoredOutsideAddress,
    RestoredAddressShared,
    RestoredOutsideAddressOfTwoSessions,
    // TEIDs in the upper half of the largest map.
    RestoredHighTeid,
    RestoredLastTeidOfLargestPool,
    ChosenBelowHighTeid,
    // The other peer has a session with the same SEID, or one that a set deletion names.
    SeidOfOtherPeer,
    SetSparingOtherPeer,
    // The need goes just up to what the peer may hold: its limit, and the other's unused guarantee.
    ChosenToLimit,
    RestoredToLimit,
    ChosenToOthersGuarantee,
    RestoredToOthersGuarantee,
    // Within the guarantee, while the other peer holds more than its own.
    ChosenWithinGuarantee,
    RestoredWithinGuarantee,
}

pub const ALL_DONE: [Done; 100] = [
    Done::Establishment,
    Done::Restoration,
    Done::Modification,
    Done::Deletion,
    Done::PdrWithNeither,
    Done::PdrWithOwnChoose,
    Done::PdrWithSoleChooseId,
    Done::PdrsSharingChooseId,
    Done::PdrNamingCreatedEndpoint,
    Done::PdrNamingLiveEndpoint,
    Done::EndpointWithChoose,
    Done::FarGiven,
    Done::NoFarGiven,
    Done::GrantV4,
    Done::GrantV6,
    Done::GrantBoth,
    Done::RestorationWithoutRecords,
    Done::RestorationWithoutPdr,
    Done::RestoredPdr,
    Done::RestoredPdrsSharing,
    Done::RestoredEndpoint,
    Done::RestoredPdrNamingEndpoint,
    Done::ModificationOfNothing,
    Done::PdrRemoved,
    Done::TunnelFreed,
    Done::TunnelKeptBySharing,
    Done::EndpointRemoved,
    Done::PdrWentAlong,
    Done::PdrWentAlongAndNamed,
    Done::PrecedenceUpdated,
    Done::FarUpdated,
    Done::FarTakenAway,
    Done::AbsentFarTakenAway,
    Done::UpdateOfNothing,
    Done::FqCsidSetNew,
    Done::FqCsidReplaced,
    Done::FqCsidRemoved,
    Done::AbsentFqCsidRemoved,
    Done::AllFqCsidsRemoved,
    Done::AllOfNoFqCsidsRemoved,
    Done::FqCsidIpv4,
    Done::FqCsidIpv6,
    Done::FqCsidOperator,
    Done::DeletionSkippingFqCsid,
    Done::DeletionSkippingBrokenFqCsid,
    Done::LargestSession,
    Done::SetDeletion,
    Done::SetWithoutFqCsid,
    Done::SetOfNone,
    Done::SetOfOneOfMany,
    Done::SetOfSeveral,
    Done::SetOfAll,
    Done::SetWithFifteenCsids,
    Done::SetWithNodeTypeTwice,
    Done::SetByLaterFqCsid,
    Done::SetByLaterCsid,
    Done::SetNamingSessionTwice,
    Done::SetSparingOtherNodeType,
    Done::SetSparingOtherNodeIdType,
    Done::SetSparingOtherAddress,
    Done::SetSparingOtherCsid,
    Done::SetByIpv4,
    Done::SetByIpv6,
    Done::SetByOperator,
    Done::SetFreeingTeids,
    Done::PdrAddressGiven,
    Done::EndpointAddressGiven,
    Done::PdrAddressChosen,
    Done::EndpointAddressChosen,
    Done::AddressSharedByPdrs,
    Done::AddressSharedByPdrAndEndpoint,
    Done::TeidAndAddressChosen,
    Done::OnlyTeidChosen,
    Done::OnlyAddressChosen,
    Done::AddressBesideEndpointId,
    Done::AddressOfPdrWithNeither,
    Done::OutsideAddressOfTwoSessions,
    Done::SecondAddressChosen,
    Done::AddressBelowTakenOnes,
    Done::LastAddressChosen,
    Done::AddressFreed,
    Done::AddressKeptBySharing,
    Done::AddressFreedWithEndpoint,
    Done::AddressFreedByDeletion,
    Done::SetFreeingAddresses,
    Done::RestoredPoolAddress,
    Done::RestoredOutsideAddress,
    Done::RestoredAddressShared,
    Done::RestoredOutsideAddressOfTwoSessions,
    Done::RestoredHighTeid,
    Done::RestoredLastTeidOfLargestPool,
    Done::ChosenBelowHighTeid,
    Done::SeidOfOtherPeer,
    Done::SetSparingOtherPeer,
    Done::ChosenToLimit,
    Done::RestoredToLimit,
    Done::ChosenToOthersGuarantee,
    Done::RestoredToOthersGuarantee,
    Done::ChosenWithinGuarantee,
    Done::RestoredWithinGuarantee,
];

/// What an accepted request does, each thing once.
pub fn deeds(entry: AtEntry, request: &Request, message: &[u8]) -> BTreeSet<Done> {
    let nothing = Session::default();
    let own = entry.own(request).unwrap_or(&nothing);
    let mut done = BTreeSet::new();
    match (request.header.kind, request.restoration) {
        (Kind::Establishment, true) => {
            done.insert(Done::Restoration);
            deeds_of_restoration(request, &mut done);
        }
        (Kind::Establishment, false) => {
            done.insert(Done::Establishment);
            deeds_of_creation(request, &mut done);
        }
        (Kind::Modification, _) => {
            done.insert(Done::Modification);
            if request.records.is_empty() {
                done.insert(Done::ModificationOfNothing);
            }
            deeds_of_creation(request, &mut done);
            deeds_of_removal(request, own, &mut done);
            deeds_of_update(request, own, &mut done);
        }
        (Kind::Deletion, _) => {
            done.insert(Done::Deletion);
            let skipped = elements(Part::body(message)).filter(|e| e.ie_type == ie::FQ_CSID);
            done.extend(skipped.map(|element| match fq_csid::read(element.value) {
                Ok(_) => Done::DeletionSkippingFqCsid,
                Err(_) => Done::DeletionSkippingBrokenFqCsid,
            }));
            return done;
        }
        (Kind::SetDeletion, _) => {
            done.insert(Done::SetDeletion);
            deeds_of_set(entry, request, &mut done);
            return done;
        }
    }
    deeds_of_fq_csids(request, own, &mut done);
    let count = |wanted: fn(&Record) -> bool| request.records.iter().filter(|r| wanted(r)).count();
    if count(|record| matches!(record, Record::CreatePdr { .. })) == 16
        && count(|record| matches!(record, Record::CreateEndpoint { .. })) == 8
        && count(|record| matches!(record, Record::FqCsid(_))) == 6
    {
        done.insert(Done::LargestSession);
    }
    done
}

fn deeds_of_set(entry: AtEntry, request: &Request, done: &mut BTreeSet<Done>) {
    let before: Vec<&Session> = of_peer(entry.sessions, entry.peer).map(|(_, s)| s).collect();
    let listed: Vec<&FqCsid> = request
        .records
        .iter()
        .filter_map(|record| match record {
            Record::FqCsid(fq_csid) => Some(fq_csid),
            _ => None,
        })
        .collect();
    let node_types: BTreeSet<u8> = listed.iter().map(|fq_csid| fq_csid.node_type).collect();
    if node_types.len() < listed.len() {
        done.insert(Done::SetWithNodeTypeTwice);
    }
    if listed.iter().any(|fq_csid| fq_csid.csids.len() == 15) {
        done.insert(Done::SetWithFifteenCsids);
    }
    let lost = before.iter().filter(|session| session.is_lost_by(request)).count();
    match (listed.len(), lost, before.len()) {
        (0, ..) => drop(done.insert(Done::SetWithoutFqCsid)),
        (_, 0, 1..) => drop(done.insert(Done::SetOfNone)),
        (_, 1, 2..) => drop(done.insert(Done::SetOfOneOfMany)),
        (_, lost, live) if lost > 1 && lost < live => drop(done.insert(Done::SetOfSeveral)),
        (_, lost, live) if lost > 1 && lost == live => drop(done.insert(Done::SetOfAll)),
        _ => {}
    }
    for session in before {
        match session.is_lost_by(request) {
            true => deeds_of_lost(&listed, session, done),
            false => deeds_of_spared(&listed, session, done),
        }
    }
}

/// By what of the list a session goes.
fn deeds_of_lost(listed: &[&FqCsid], session: &Session, done: &mut BTreeSet<Done>) {
    let mut times = 0;
    for (index, fq_csid) in listed.iter().enumerate() {
        let Some(held) = session.fq_csids.get(&fq_csid.node_type) else { continue };
        let at = fq_csid.csids.iter().position(|csid| *csid == held.csid);
        let (true, Some(at)) = (fq_csid.node == held.node, at) else { continue };
        times += 1;
        if index > 0 && times == 1 {
            done.insert(Done::SetByLaterFqCsid);
        }
        if at > 0 {
            done.insert(Done::SetByLaterCsid);
        }
        done.insert(match held.node {
            NodeId::Ipv4(_) => Done::SetByIpv4,
            NodeId::Ipv6(_) => Done::SetByIpv6,
            NodeId::Operator { .. } => Done::SetByOperator,
        });
    }
    if times > 1 {
        done.insert(Done::SetNamingSessionTwice);
    }
    if session.teids().next().is_some() {
        done.insert(Done::SetFreeingTeids);
    }
}

/// What alone spares a session.
fn deeds_of_spared(listed: &[&FqCsid], session: &Session, done: &mut BTreeSet<Done>) {
    for fq_csid in listed {
        for (&node_type, held) in &session.fq_csids {
            let same = [
                fq_csid.node_type == node_type,
                discriminant(&fq_csid.node) == discriminant(&held.node),
                in_slot(&fq_csid.node) == in_slot(&held.node),
                fq_csid.csids.contains(&held.csid),
            ];
            match same {
                [false, true, true, true] => drop(done.insert(Done::SetSparingOtherNodeType)),
                [true, false, true, true] => drop(done.insert(Done::SetSparingOtherNodeIdType)),
                [true, true, false, true] => drop(done.insert(Done::SetSparingOtherAddress)),
                [true, true, true, false] => drop(done.insert(Done::SetSparingOtherCsid)),
                _ => {}
            }
        }
    }
}

/// The address as a table keeps it.
fn in_slot(node: &NodeId) -> [u8; 16] {
    let mut slot = [0; 16];
    match node {
        NodeId::Ipv4(octets) => slot[..4].copy_from_slice(octets),
        NodeId::Ipv6(octets) => slot = *octets,
        NodeId::Operator { country_and_network, number } => {
            let word = country_and_network << 12 | u32::from(*number);
            slot[..4].copy_from_slice(&word.to_be_bytes());
        }
    }
    slot
}

fn deeds_of_creation(request: &Request, done: &mut BTreeSet<Done>) {
    let mut uses: BTreeMap<u8, u32> = BTreeMap::new();
    let created: BTreeSet<u8> = request.records.iter().filter_map(created_endpoint).collect();
    for record in &request.records {
        match record {
            Record::CreatePdr { pdi, far_id, .. } => {
                done.insert(match far_id {
                    Some(_) => Done::FarGiven,
                    None => Done::NoFarGiven,
                });
                match (&pdi.f_teid, pdi.endpoint) {
                    (Some(FTeid::Choose { choose_id: Some(id), .. }), _) => {
                        *uses.entry(*id).or_insert(0) += 1;
                    }
                    (Some(_), _) => {
                        done.insert(Done::PdrWithOwnChoose);
                    }
                    (None, Some(id)) if created.contains(&id) => {
                        done.insert(Done::PdrNamingCreatedEndpoint);
                    }
                    (None, Some(_)) => {
                        done.insert(Done::PdrNamingLiveEndpoint);
                    }
                    (None, None) => {
                        done.insert(Done::PdrWithNeither);
                    }
                }
            }
            Record::CreateEndpoint { .. } => {
                done.insert(Done::EndpointWithChoose);
            }
            _ => {}
        }
    }
    for count in uses.values() {
        done.insert(match count {
            1 => Done::PdrWithSoleChooseId,
            _ => Done::PdrsSharingChooseId,
        });
    }
    for (f_teid, _) in request.f_teids() {
        let families = f_teid.families();
        done.insert(match (families.v4, families.v6) {
            (true, true) => Done::GrantBoth,
            (true, false) => Done::GrantV4,
            _ => Done::GrantV6,
        });
    }
}

fn created_endpoint(record: &Record) -> Option<u8> {
    match record {
        Record::CreateEndpoint { id, .. } => Some(*id),
        _ => None,
    }
}

fn deeds_of_restoration(request: &Request, done: &mut BTreeSet<Done>) {
    let mut teids = BTreeSet::new();
    let mut pdrs = 0;
    for record in &request.records {
        match record {
            Record::CreatePdr { pdi, .. } => {
                pdrs += 1;
                if let Some(FTeid::Given { teid, .. }) = &pdi.f_teid {
                    done.insert(match teids.insert(*teid) {
                        true => Done::RestoredPdr,
                        false => Done::RestoredPdrsSharing,
                    });
                }
                if pdi.endpoint.is_some() {
                    done.insert(Done::RestoredPdrNamingEndpoint);
                }
            }
            Record::CreateEndpoint { .. } => {
                done.insert(Done::RestoredEndpoint);
            }
            _ => {}
        }
    }
    if request.records.is_empty() {
        done.insert(Done::RestorationWithoutRecords);
    } else if pdrs == 0 {
        done.insert(Done::RestorationWithoutPdr);
    }
}

fn deeds_of_removal(request: &Request, own: &Session, done: &mut BTreeSet<Done>) {
    let removed = own.removed_by(request);
    let mut after = own.clone();
    after.pdrs.retain(|id, _| !removed.contains(id));
    let mut named: BTreeSet<u16> = BTreeSet::new();
    for record in &request.records {
        match record {
            Record::RemovePdr { id } => {
                named.insert(*id);
            }
            Record::RemoveEndpoint { id } => {
                after.endpoints.remove(id);
            }
            _ => {}
        }
    }
    let left: BTreeSet<u32> = after.teids().collect();
    for record in &request.records {
        match record {
            Record::RemovePdr { id } => {
                done.insert(Done::PdrRemoved);
                if let Local::Tunnel(tunnel) = own.pdrs[id].local {
                    done.insert(match left.contains(&tunnel.teid) {
                        true => Done::TunnelKeptBySharing,
                        false => Done::TunnelFreed,
                    });
                }
            }
            Record::RemoveEndpoint { id } => {
                if !own.is_named(*id) {
                    done.insert(Done::EndpointRemoved);
                }
                for (pdr_id, _) in
                    own.pdrs.iter().filter(|(_, pdr)| pdr.local == Local::Endpoint(*id))
                {
                    done.insert(match named.contains(pdr_id) {
                        true => Done::PdrWentAlongAndNamed,
                        false => Done::PdrWentAlong,
                    });
                }
            }
            _ => {}
        }
    }
}

fn deeds_of_update(request: &Request, own: &Session, done: &mut BTreeSet<Done>) {
    for record in &request.records {
        if let Record::UpdatePdr { id, precedence, far, .. } = record {
            if precedence.is_some() {
                done.insert(Done::PrecedenceUpdated);
            }
            match far {
                FarChange::Set(_) => {
                    done.insert(Done::FarUpdated);
                }
                FarChange::TakenAway => {
                    done.insert(match own.pdrs[id].far_id {
                        Some(_) => Done::FarTakenAway,
                        None => Done::AbsentFarTakenAway,
                    });
                }
                FarChange::Stays if precedence.is_none() => {
                    done.insert(Done::UpdateOfNothing);
                }
                FarChange::Stays => {}
            }
        }
    }
}

fn deeds_of_fq_csids(request: &Request, own: &Session, done: &mut BTreeSet<Done>) {
    for record in &request.records {
        match record {
            Record::FqCsid(fq_csid) => {
                let held = own.fq_csids.contains_key(&fq_csid.node_type);
                done.insert(match (fq_csid.is_removal(), held) {
                    (true, true) => Done::FqCsidRemoved,
                    (true, false) => Done::AbsentFqCsidRemoved,
                    (false, true) => Done::FqCsidReplaced,
                    (false, false) => Done::FqCsidSetNew,
                });
                if !fq_csid.is_removal() {
                    done.insert(match fq_csid.node {
                        NodeId::Ipv4(_) => Done::FqCsidIpv4,
                        NodeId::Ipv6(_) => Done::FqCsidIpv6,
                        NodeId::Operator { .. } => Done::FqCsidOperator,
                    });
                }
            }
            Record::RemoveAllFqCsids => {
                done.insert(match own.fq_csids.is_empty() {
                    true => Done::AllOfNoFqCsidsRemoved,
                    false => Done::AllFqCsidsRemoved,
                });
            }
            _ => {}
        }
    }
}
