//! The list of all counters that a run should meet.

use std::collections::BTreeSet;

use super::deeds::ALL_DONE;
use super::host::{ALL_EDGES, ALL_HEADER_FAULTS};
use super::site::ALL_SITES;
use super::{Class, Counter};
use crate::element::Bad;
use crate::ie;
use crate::request::fault::Place;
use crate::request::{FaultKind, Kind};
use crate::unit::limits::{Limit, Need, NoAddress, TeidTest};
use crate::unit::rules::{Allocation, Rule, Unsupported};

/// The places that can stand in a message.
fn places(message: Kind) -> &'static [Place] {
    match message {
        Kind::Establishment => {
            &[Place::Top, Place::CreatePdr, Place::PdiOfCreatePdr, Place::CreateEndpoint]
        }
        Kind::Modification => &[
            Place::Top,
            Place::CreatePdr,
            Place::PdiOfCreatePdr,
            Place::UpdatePdr,
            Place::PdiOfUpdatePdr,
            Place::CreateEndpoint,
            Place::RemovePdr,
            Place::RemoveEndpoint,
        ],
        Kind::Deletion | Kind::SetDeletion => &[Place::Top],
    }
}

/// Every counter that a run should meet.
pub fn expected() -> BTreeSet<Counter> {
    let mut all = BTreeSet::new();
    all.extend([0, 2, 3, 4, 5, 7].map(Counter::Outcome));
    all.extend(ALL_HEADER_FAULTS.map(Counter::Header));
    all.extend(ALL_EDGES.map(Counter::Edge));
    for cause in [1, 64, 66, 67, 68, 69, 71, 73, 75, 76, 79] {
        all.insert(Counter::Cause(Kind::Establishment, cause));
    }
    for cause in [1, 65, 66, 67, 68, 69, 71, 73, 75, 76, 79] {
        all.insert(Counter::Cause(Kind::Modification, cause));
    }
    for cause in [1, 65, 68] {
        all.insert(Counter::Cause(Kind::Deletion, cause));
    }
    for cause in [1, 68, 69] {
        all.insert(Counter::Cause(Kind::SetDeletion, cause));
    }
    let classes = [Class::ActedOn, Class::Vendor, Class::Misplaced, Class::Unknown];
    for message in [Kind::Establishment, Kind::Modification, Kind::Deletion, Kind::SetDeletion] {
        for &place in places(message) {
            all.insert(Counter::FewOctetsLeft(message, place));
            // A deletion acts on no element.
            let acts = message != Kind::Deletion;
            for class in classes.into_iter().filter(|class| acts || *class != Class::ActedOn) {
                all.insert(Counter::Overrun(message, place, class));
                if class != Class::ActedOn && place != Place::PdiOfUpdatePdr {
                    all.insert(Counter::Skipped(message, place, class));
                }
            }
        }
    }
    all.extend(expected_reading());
    all.extend(expected_of_order_and_stage_4());
    all.extend(expected_of_stage_5());
    all.extend(ALL_DONE.iter().copied().map(Counter::Accepted));
    all.extend((0..=5).map(Counter::NodeType));
    all
}

fn expected_reading() -> BTreeSet<Counter> {
    use FaultKind::{Empty, Missing, Repeated, Short};
    let bad = FaultKind::Bad;
    let mut all = BTreeSet::new();
    let mut add = |message, place, element, kinds: &[FaultKind]| {
        for &kind in kinds {
            all.insert(Counter::Reading(message, place, element, kind));
        }
    };
    let no_family = bad(Bad::NoFamily);
    let id_without_choose = bad(Bad::ChooseIdWithoutChoose);
    for message in [Kind::Establishment, Kind::Modification] {
        add(message, Place::CreatePdr, ie::PDR_ID, &[Missing, Empty, Short, Repeated]);
        add(message, Place::CreatePdr, ie::PRECEDENCE, &[Missing, Empty, Short, Repeated]);
        add(message, Place::CreatePdr, ie::PDI, &[Missing, Repeated]);
        add(message, Place::CreatePdr, ie::FAR_ID, &[Empty, Short, Repeated]);
        add(message, Place::PdiOfCreatePdr, ie::SOURCE_INTERFACE, &[Missing, Empty, Repeated]);
        let of_f_teid = [Empty, Short, Repeated, no_family, id_without_choose];
        add(message, Place::PdiOfCreatePdr, ie::F_TEID, &of_f_teid);
        add(message, Place::PdiOfCreatePdr, ie::ENDPOINT_ID, &[Empty, Repeated]);
        let of_ue_ip = [Empty, Short, Repeated, bad(Bad::NoAddress), bad(Bad::AddressAndChoose)];
        add(message, Place::PdiOfCreatePdr, ie::UE_IP_ADDRESS, &of_ue_ip);
        add(message, Place::CreateEndpoint, ie::UE_IP_ADDRESS, &of_ue_ip);
        add(message, Place::CreateEndpoint, ie::F_TEID, &of_f_teid);
        let id_in_endpoint = bad(Bad::ChooseIdInEndpoint);
        add(message, Place::CreateEndpoint, ie::F_TEID, &[Missing, id_in_endpoint]);
        add(message, Place::CreateEndpoint, ie::ENDPOINT_ID, &[Missing, Empty, Repeated]);
    }
    let modification = Kind::Modification;
    add(modification, Place::UpdatePdr, ie::PDR_ID, &[Missing, Empty, Short, Repeated]);
    add(modification, Place::UpdatePdr, ie::PRECEDENCE, &[Empty, Short, Repeated]);
    add(modification, Place::UpdatePdr, ie::PDI, &[Repeated]);
    add(modification, Place::UpdatePdr, ie::FAR_ID, &[Short, Repeated]);
    add(modification, Place::RemovePdr, ie::PDR_ID, &[Missing, Empty, Short, Repeated]);
    add(modification, Place::RemoveEndpoint, ie::ENDPOINT_ID, &[Missing, Empty, Repeated]);
    let establishment = Kind::Establishment;
    add(establishment, Place::Top, ie::CREATE_PDR, &[Missing]);
    let of_f_seid = [Missing, Empty, Short, Repeated, no_family, bad(Bad::NullSeid)];
    add(establishment, Place::Top, ie::F_SEID, &of_f_seid);
    add(establishment, Place::Top, ie::ESTABLISHMENT_FLAGS, &[Empty, Repeated]);
    for message in [Kind::Establishment, Kind::Modification, Kind::SetDeletion] {
        let of_fq_csid = [
            Empty,
            Short,
            bad(Bad::NodeIdType),
            bad(Bad::NodeType),
            bad(Bad::CountryAndNetwork),
            bad(Bad::RemovalNotZero),
            bad(Bad::NumberOfCsids),
        ];
        add(message, Place::Top, ie::FQ_CSID, &of_fq_csid);
        // In a set deletion a node type may come twice.
        if message != Kind::SetDeletion {
            add(message, Place::Top, ie::FQ_CSID, &[Repeated]);
        }
    }
    all
}

fn expected_of_order_and_stage_4() -> BTreeSet<Counter> {
    let mut all = BTreeSet::new();
    for kind in [Kind::Establishment, Kind::Modification] {
        all.insert(Counter::Allocation(kind, Allocation::PdrGivenOutsideRestoration));
        all.insert(Counter::Allocation(kind, Allocation::EndpointGivenOutsideRestoration));
        all.insert(Counter::Unsupported(kind, Unsupported::AddressOfPdr));
        all.insert(Counter::Unsupported(kind, Unsupported::AddressOfEndpoint));
    }
    let establishment = Kind::Establishment;
    all.insert(Counter::Allocation(establishment, Allocation::PdrChooseInRestoration));
    all.insert(Counter::Allocation(establishment, Allocation::EndpointChooseInRestoration));
    let modification = Kind::Modification;
    all.insert(Counter::Unsupported(modification, Unsupported::PdiInUpdatePdr));
    all.insert(Counter::Unsupported(modification, Unsupported::UpdateEndpoint));
    all.extend(ALL_RULES.iter().copied().map(Counter::Rule));
    all.insert(Counter::FramingBeforeReading);
    all.extend([Kind::Modification, Kind::Deletion].map(Counter::OnlyOfOtherPeer));
    let of_stage_1 = [(65, 66), (65, 68), (65, 69)];
    all.extend(of_stage_1.map(|(first, later)| Counter::Before(first, later)));
    // "Down the table": each before every later one. A restoration that is 71 or 73 for a CHOOSE is
    // never 79.
    let stages_4_and_5 = [64, 71, 76, 73, 75, 79];
    for (index, first) in stages_4_and_5.iter().enumerate() {
        let later = stages_4_and_5[index + 1..].iter();
        all.extend(later.map(|later| Counter::Before(*first, *later)));
    }
    all
}

fn expected_of_stage_5() -> BTreeSet<Counter> {
    let mut all = BTreeSet::new();
    for kind in [Kind::Establishment, Kind::Modification] {
        for limit in [Limit::Pdrs, Limit::Endpoints] {
            all.insert(Counter::Limit(kind, limit));
        }
        for test in [TeidTest::PeersLimit, TeidTest::Pool, TeidTest::OthersGuarantee] {
            all.insert(Counter::Limit(kind, Limit::Teids(test, Need::Chosen)));
        }
    }
    let of_establishments = [
        Limit::Sessions,
        Limit::SessionsByRestoration,
        Limit::PdrsByRestoration,
        Limit::EndpointsByRestoration,
    ];
    all.extend(of_establishments.map(|limit| Counter::Limit(Kind::Establishment, limit)));
    for test in [TeidTest::PeersLimit, TeidTest::Pool, TeidTest::OthersGuarantee] {
        let limit = Limit::Teids(test, Need::ChosenButForRemovals);
        all.insert(Counter::Limit(Kind::Modification, limit));
    }
    // What a restoration may name is free, so it passes the pool only by the other's guarantee.
    for test in [TeidTest::PeersLimit, TeidTest::OthersGuarantee] {
        let limit = Limit::Teids(test, Need::Restored);
        all.insert(Counter::Limit(Kind::Establishment, limit));
    }
    all.extend(ALL_SITES.map(Counter::Filled));
    all.extend(ALL_SITES.map(Counter::Full));
    all.insert(Counter::NoAddress(Kind::Establishment, NoAddress::AtAll));
    all.insert(Counter::NoAddress(Kind::Modification, NoAddress::AtAll));
    all.insert(Counter::NoAddress(Kind::Modification, NoAddress::ButForRemovals));
    all
}

const ALL_RULES: [Rule; 39] = [
    Rule::PdrRemovedTwice,
    Rule::PdrCreatedTwice,
    Rule::PdrUpdatedTwice,
    Rule::EndpointRemovedTwice,
    Rule::EndpointCreatedTwice,
    Rule::CreatedPdrLive,
    Rule::CreatedPdrLiveButRemoved,
    Rule::CreatedPdrLiveButGoesAlong,
    Rule::CreatedEndpointLive,
    Rule::CreatedEndpointLiveButRemoved,
    Rule::RemovedPdrNotLive,
    Rule::RemovedEndpointNotLive,
    Rule::UpdatedPdrNotLive,
    Rule::UpdateOfRemovedPdr,
    Rule::UpdateOfPdrThatGoesAlong,
    Rule::TunnelAndEndpointInPdi,
    Rule::EndpointNotThere,
    Rule::EndpointNotThereForItIsRemoved,
    Rule::ChooseIdWithOtherFamilies,
    Rule::ChooseIdWithOtherSourceInterface,
    Rule::PdrFamilyLacking,
    Rule::EndpointFamilyLacking,
    Rule::RestoredPdrOutsidePool,
    Rule::RestoredEndpointOutsidePool,
    Rule::RestoredWithOtherIpv4,
    Rule::RestoredWithOtherIpv6,
    Rule::RestoredHeldByAnotherSession,
    Rule::RestoredHeldByOtherPeer,
    Rule::SharedByEndpoints,
    Rule::SharedByEndpointAndPdr,
    Rule::SharedWithOtherFamilies,
    Rule::SharedWithOtherSourceInterface,
    Rule::PdrAddressInsidePool,
    Rule::EndpointAddressInsidePool,
    Rule::OwnAddressInsidePool,
    Rule::RestoredAddressOfAnotherSession,
    Rule::RestoredAddressOfOtherPeer,
    Rule::PdrAddressChooseInRestoration,
    Rule::EndpointAddressChooseInRestoration,
];
