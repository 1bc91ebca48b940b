//! "Removals come first, then endpoints, PDRs, updates, FQ-CSIDs." Only for an accepted request.

use std::net::Ipv4Addr;

use super::grants::{self, Grant, Owner};
use crate::element::f_teid::FTeid;
use crate::element::ue_ip::UeIp;
use crate::request::{FarChange, Kind, Record, Request};
use crate::session::{Endpoint, HeldCsid, Key, Local, Pdr, Session, Sessions, Tunnel};

/// "Sessions, set deletions and stores of repeats are kept by peer".
pub fn apply(sessions: &mut Sessions, peer: u8, request: &Request, grants: &[Grant]) {
    let seid = match (&request.f_seid, request.header.kind) {
        // "only the SEID is kept"
        (Some(f_seid), _) => f_seid.seid,
        (None, Kind::Deletion) => {
            // "Deletion removes the session whole."
            sessions.remove(&Key { peer, seid: request.header.seid });
            return;
        }
        (None, Kind::SetDeletion) => {
            sessions.retain(|key, session| key.peer != peer || !session.is_lost_by(request));
            return;
        }
        (None, _) => request.header.seid,
    };
    let session = sessions.entry(Key { peer, seid }).or_default();
    remove(session, request);
    for record in &request.records {
        create_endpoint(session, record, grants);
    }
    for record in &request.records {
        create_pdr(session, record, grants);
    }
    for record in &request.records {
        update(session, record);
    }
    for record in &request.records {
        follow_fq_csid(session, record);
    }
}

fn remove(session: &mut Session, request: &Request) {
    for id in session.removed_by(request) {
        session.pdrs.remove(&id);
    }
    for record in &request.records {
        if let Record::RemoveEndpoint { id } = record {
            session.endpoints.remove(id);
        }
    }
}

/// The tunnel of a record: the request's own TEID, or the granted one.
fn tunnel(f_teid: &FTeid, grants: &[Grant], owner: Owner) -> Tunnel {
    let teid = match f_teid {
        FTeid::Given { teid, .. } => *teid,
        FTeid::Choose { .. } => {
            let grant = grants::of(grants, owner).expect("every CHOOSE has a grant");
            grant.teid.expect("every CHOOSE of a TEID has one")
        }
    };
    Tunnel { teid, families: f_teid.families() }
}

/// The address of a record: none, the request's own, or the granted one.
fn address(ue_ip: &Option<UeIp>, grants: &[Grant], owner: Owner) -> Option<Ipv4Addr> {
    match ue_ip {
        Some(UeIp::Given(address)) => Some(*address),
        Some(UeIp::Choose) => grants::of(grants, owner).and_then(|grant| grant.address),
        Some(UeIp::NotServed) | None => None,
    }
}

fn create_endpoint(session: &mut Session, record: &Record, grants: &[Grant]) {
    if let Record::CreateEndpoint { id, f_teid, ue_ip } = record {
        let owner = Owner::Endpoint(*id);
        let tunnel = tunnel(f_teid, grants, owner);
        let address = address(ue_ip, grants, owner);
        session.endpoints.insert(*id, Endpoint { tunnel, address });
    }
}

fn create_pdr(session: &mut Session, record: &Record, grants: &[Grant]) {
    if let Record::CreatePdr { id, precedence, pdi, far_id } = record {
        let local = match (&pdi.f_teid, pdi.endpoint) {
            (Some(f_teid), _) => Local::Tunnel(tunnel(f_teid, grants, Owner::Pdr(*id))),
            (None, Some(endpoint)) => Local::Endpoint(endpoint),
            (None, None) => Local::Neither,
        };
        let pdr = Pdr {
            precedence: *precedence,
            far_id: *far_id,
            source_interface: pdi.source_interface,
            local,
            address: address(&pdi.ue_ip, grants, Owner::Pdr(*id)),
        };
        session.pdrs.insert(*id, pdr);
    }
}

/// "What isn't named stays."
fn update(session: &mut Session, record: &Record) {
    if let Record::UpdatePdr { id, precedence, far, .. } = record {
        let pdr = session.pdrs.get_mut(id).expect("an updated PDR is live");
        if let Some(precedence) = precedence {
            pdr.precedence = *precedence;
        }
        match far {
            FarChange::Stays => {}
            FarChange::Set(far_id) => pdr.far_id = Some(*far_id),
            FarChange::TakenAway => pdr.far_id = None,
        }
    }
}

/// "m = 1 sets that node type, m = 0 [..] removes it"; "Removing an absent one is accepted."
fn follow_fq_csid(session: &mut Session, record: &Record) {
    match record {
        Record::RemoveAllFqCsids => session.fq_csids.clear(),
        Record::FqCsid(fq_csid) => match fq_csid.csids.first() {
            Some(&csid) => {
                session.fq_csids.insert(fq_csid.node_type, HeldCsid { node: fq_csid.node, csid });
            }
            None => {
                session.fq_csids.remove(&fq_csid.node_type);
            }
        },
        _ => {}
    }
}
