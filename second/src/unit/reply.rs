//! The reply: "header [..], Node ID 60 (establishment only, IPv4, type octet 0), Cause 19,
//! Offending IE, then on acceptance F-SEID [..], a Created PDR 8 for each CHOOSE, then a Created
//! Traffic Endpoint 128 likewise, each kind in request order". To a set deletion "Node ID, Cause,
//! Offending IE", behind a header without SEID. "A record's one Created group lists what was chosen".
//! "Each peer has its own signalling IPv4 address on the unit [..], used in its replies' Node ID and
//! F-SEID".

use super::grants::{self, Grant, Owner};
use super::Refused;
use crate::element::f_seid::{self, FSeid};
use crate::element::f_teid::{self, FTeid};
use crate::element::ue_ip::{self, UeIp};
use crate::ie;
use crate::request::{Header, Kind, Record, Request};
use crate::session::Families;
use crate::settings::Settings;

const ACCEPTED: u8 = 1;
const NO_SESSION: u8 = 65;

pub fn refusal(settings: &Settings, refused: &Refused) -> Vec<u8> {
    let header = &refused.header;
    // "the session's SEID, but 0 for cause 65 and refused establishments"
    let seid = match (header.kind, refused.cause()) {
        (Kind::Establishment, _) | (_, NO_SESSION) => 0,
        _ => header.seid,
    };
    let mut body = front(settings, refused.peer, header.kind, refused.cause());
    if let Some(offending) = refused.offending() {
        body.extend(element(ie::OFFENDING_IE, &offending.to_be_bytes()));
    }
    with_header(header, seid, &body)
}

pub fn acceptance(settings: &Settings, peer: u8, request: &Request, grants: &[Grant]) -> Vec<u8> {
    let header = &request.header;
    let mut seid = header.seid;
    let mut body = front(settings, peer, header.kind, ACCEPTED);
    if let Some(asked) = &request.f_seid {
        // "IPv4 only; the unit's SEID equals the peer's, H"
        seid = asked.seid;
        let own = FSeid { seid, ipv4: Some(settings.peer(peer).address), ipv6: None };
        let mut space = [0; 13];
        let length = f_seid::write(&own, &mut space).expect("a live SEID is not 0");
        body.extend(element(ie::F_SEID, &space[..length]));
    }
    for record in &request.records {
        let Record::CreatePdr { id, pdi, .. } = record else { continue };
        let Some(grant) = grants::of(grants, Owner::Pdr(*id)) else { continue };
        let mut group = element(ie::PDR_ID, &id.to_be_bytes());
        group.extend(granted(settings, &grant, pdi.f_teid.as_ref()));
        body.extend(element(ie::CREATED_PDR, &group));
    }
    for record in &request.records {
        let Record::CreateEndpoint { id, f_teid, .. } = record else { continue };
        let Some(grant) = grants::of(grants, Owner::Endpoint(*id)) else { continue };
        let mut group = element(ie::ENDPOINT_ID, &[*id]);
        group.extend(granted(settings, &grant, Some(f_teid)));
        body.extend(element(ie::CREATED_ENDPOINT, &group));
    }
    with_header(header, seid, &body)
}

/// What every reply of this kind to this peer starts with.
fn front(settings: &Settings, peer: u8, kind: Kind, cause: u8) -> Vec<u8> {
    let mut body = Vec::new();
    if matches!(kind, Kind::Establishment | Kind::SetDeletion) {
        let mut node = vec![0];
        node.extend(settings.peer(peer).address);
        body.extend(element(ie::NODE_ID, &node));
    }
    body.extend(element(ie::CAUSE, &[cause]));
    body
}

/// What was chosen for a record: the F-TEID of the families that were asked for, and last the
/// address.
fn granted(settings: &Settings, grant: &Grant, asked: Option<&FTeid>) -> Vec<u8> {
    let mut elements = Vec::new();
    if let (Some(teid), Some(asked)) = (grant.teid, asked) {
        elements.extend(granted_tunnel(settings, teid, asked.families()));
    }
    if let Some(address) = grant.address {
        let mut space = [0; 5];
        let length = ue_ip::write(&UeIp::Given(address), &mut space).expect("there is room");
        elements.extend(element(ie::UE_IP_ADDRESS, &space[..length]));
    }
    elements
}

/// "the F-TEID with the unit's addresses"
fn granted_tunnel(settings: &Settings, teid: u32, families: Families) -> Vec<u8> {
    let f_teid = FTeid::Given {
        teid,
        ipv4: families.v4.then_some(settings.ipv4),
        ipv6: settings.ipv6.filter(|_| families.v6),
    };
    let mut space = [0; 25];
    let length = f_teid::write(&f_teid, &mut space).expect("a granted F-TEID has a family");
    element(ie::F_TEID, &space[..length])
}

fn element(ie_type: u16, value: &[u8]) -> Vec<u8> {
    let mut octets = ie_type.to_be_bytes().to_vec();
    octets.extend((value.len() as u16).to_be_bytes());
    octets.extend(value);
    octets
}

/// "header (the request's sequence; the session's SEID [..]; spare 0)"
fn with_header(request: &Header, seid: u64, body: &[u8]) -> Vec<u8> {
    let plain = request.kind == Kind::SetDeletion;
    let mut message = vec![if plain { 0x20 } else { 0x21 }, request.kind.reply_type()];
    let header_octets = ie::header_octets(&message);
    message.extend(((header_octets - 4 + body.len()) as u16).to_be_bytes());
    if !plain {
        message.extend(seid.to_be_bytes());
    }
    message.extend(&request.sequence.to_be_bytes()[1..]);
    message.push(0);
    message.extend(body);
    message
}
