//! "A live session's restoration request holds its SEID, flags `01` and its records, nothing more:
//! in the order of the establishment line, Places and the table, with the unit's addresses and
//! ignored bits 0." "Restorations carry the addresses".

use std::net::Ipv4Addr;

use crate::element::f_seid::{self, FSeid};
use crate::element::f_teid::{self, FTeid};
use crate::element::fq_csid::{self, FqCsid};
use crate::element::ue_ip::{self, UeIp};
use crate::generate::random::Random;
use crate::ie;
use crate::session::{Endpoint, Local, Session, Tunnel};
use crate::settings::Settings;

/// "Every session that the table can hold fits one restoration request of at most 1,526 octets", and
/// with addresses "1,526 becomes 1,742".
pub const LONGEST: usize = 1742;

/// What may be any: "Header SEID, sequence number and F-SEID addresses (one or both)".
#[derive(Clone, PartialEq, Eq, Debug)]
pub struct Envelope {
    pub header_seid: u64,
    /// 24 bits.
    pub sequence: u32,
    pub ipv4: Option<[u8; 4]>,
    pub ipv6: Option<[u8; 16]>,
}

impl Envelope {
    /// Any that is allowed, drawn at random for the restoration of this session.
    pub fn any(random: &mut Random, seid: u64) -> Envelope {
        let (v4, v6) = random.pick(&[(true, false), (false, true), (true, true), (true, true)]);
        Envelope {
            header_seid: random.pick(&[0, seid, u64::MAX]),
            sequence: random.number() as u32 & 0xFF_FFFF,
            ipv4: v4.then(|| std::array::from_fn(|_| random.octet())),
            ipv6: v6.then(|| std::array::from_fn(|_| random.octet())),
        }
    }
}

/// The restoration request of a live session; nothing for SEID 0 or without an F-SEID address.
pub fn request(
    settings: &Settings,
    seid: u64,
    session: &Session,
    envelope: &Envelope,
) -> Option<Vec<u8>> {
    let mut space = [0; 64];
    // "establishment: F-SEID 57, flags 186 [..], Create PDR 1, Create Traffic Endpoint 127,
    // FQ-CSID 65"
    let f_seid = FSeid { seid, ipv4: envelope.ipv4, ipv6: envelope.ipv6 };
    let length = f_seid::write(&f_seid, &mut space)?;
    let mut body = Vec::new();
    add(&mut body, ie::F_SEID, &space[..length]);
    add(&mut body, ie::ESTABLISHMENT_FLAGS, &[1]);
    for (id, pdr) in &session.pdrs {
        // "Create and Update PDR 56, 29, 2, 108; PDI 20, 21, 131"; 93 "stands last in a PDI, Create
        // Endpoint or Created group"
        let mut pdi = Vec::new();
        add(&mut pdi, ie::SOURCE_INTERFACE, &[pdr.source_interface]);
        match &pdr.local {
            Local::Neither => {}
            Local::Tunnel(tunnel) => add(&mut pdi, ie::F_TEID, &existing(settings, tunnel)?),
            Local::Endpoint(endpoint) => add(&mut pdi, ie::ENDPOINT_ID, &[*endpoint]),
        }
        add_address(&mut pdi, pdr.address)?;
        let mut group = Vec::new();
        add(&mut group, ie::PDR_ID, &id.to_be_bytes());
        add(&mut group, ie::PRECEDENCE, &pdr.precedence.to_be_bytes());
        add(&mut group, ie::PDI, &pdi);
        if let Some(far_id) = pdr.far_id {
            add(&mut group, ie::FAR_ID, &far_id.to_be_bytes());
        }
        add(&mut body, ie::CREATE_PDR, &group);
    }
    for (id, Endpoint { tunnel, address }) in &session.endpoints {
        // "Create Endpoint 131, 21"
        let mut group = Vec::new();
        add(&mut group, ie::ENDPOINT_ID, &[*id]);
        add(&mut group, ie::F_TEID, &existing(settings, tunnel)?);
        add_address(&mut group, *address)?;
        add(&mut body, ie::CREATE_ENDPOINT, &group);
    }
    for (node_type, held) in &session.fq_csids {
        let fq_csid = FqCsid { node: held.node, csids: vec![held.csid], node_type: *node_type };
        let length = fq_csid::write(&fq_csid, &mut space)?;
        add(&mut body, ie::FQ_CSID, &space[..length]);
    }
    let mut message = vec![0x21, 50];
    message.extend(((12 + body.len()) as u16).to_be_bytes());
    message.extend(envelope.header_seid.to_be_bytes());
    message.extend(&envelope.sequence.to_be_bytes()[1..]);
    message.push(0);
    message.extend(body);
    Some(message)
}

/// The F-TEID of a record with exactly the record's families and the unit's addresses.
fn existing(settings: &Settings, tunnel: &Tunnel) -> Option<Vec<u8>> {
    let f_teid = FTeid::Given {
        teid: tunnel.teid,
        ipv4: tunnel.families.v4.then_some(settings.ipv4),
        ipv6: settings.ipv6.filter(|_| tunnel.families.v6),
    };
    let mut space = [0; 25];
    let length = f_teid::write(&f_teid, &mut space)?;
    Some(space[..length].to_vec())
}

/// The address of a record, if it holds one.
fn add_address(part: &mut Vec<u8>, address: Option<Ipv4Addr>) -> Option<()> {
    if let Some(address) = address {
        let mut space = [0; 5];
        let length = ue_ip::write(&UeIp::Given(address), &mut space)?;
        add(part, ie::UE_IP_ADDRESS, &space[..length]);
    }
    Some(())
}

fn add(part: &mut Vec<u8>, ie_type: u16, value: &[u8]) {
    part.extend(ie_type.to_be_bytes());
    part.extend((value.len() as u16).to_be_bytes());
    part.extend(value);
}
