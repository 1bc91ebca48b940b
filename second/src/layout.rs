//! The table's octets as `docs/layout.md` gives them: written from records, and read into them.

use std::net::Ipv4Addr;

use crate::element::fq_csid::NodeId;
use crate::session::{records_hold, Families, HeldCsid, Local, Pdr, Session, Sessions, Tunnel};
use crate::session::{Endpoint, Key};
use crate::settings::{allowed_limit, Peer, Settings};

// In a table: the settings end with the session limit and the two peers.
pub const LIMIT: usize = 37;
pub const PEERS: usize = 39;
pub const PEER: usize = 12;
pub const COUNT: usize = 63;
pub const SLOTS: usize = 65;
pub const SLOT: usize = 604;

// In a session's slot: the peer stands before the SEID.
pub const SEID: usize = 1;
pub const COUNTS: usize = 9;
pub const PDRS: usize = 12;
pub const PDR: usize = 24;
pub const ENDPOINTS: usize = 396;
pub const ENDPOINT: usize = 11;
pub const FQ_CSIDS: usize = 484;
pub const FQ_CSID: usize = 20;

/// How long a table with this session limit is.
pub fn length(session_limit: u16) -> usize {
    SLOTS + SLOT * usize::from(session_limit)
}

/// The same, and 0 for a limit that is not allowed.
pub fn length_for(session_limit: u32) -> usize {
    allowed_limit(session_limit).map_or(0, length)
}

/// The octets of a table. There must be room for the records; they may break the rules otherwise.
pub fn encode(settings: &Settings, sessions: &Sessions) -> Vec<u8> {
    let length = length(settings.session_limit);
    let mut table = Vec::with_capacity(length);
    table.extend(settings.ipv4);
    table.push(u8::from(settings.ipv6.is_some()));
    table.extend(settings.ipv6.unwrap_or([0; 16]));
    table.extend(settings.first.to_be_bytes());
    table.extend(settings.size.to_be_bytes());
    table.extend(settings.first_address.octets());
    table.extend(settings.addresses.to_be_bytes());
    table.extend(settings.session_limit.to_be_bytes());
    for peer in settings.peers {
        table.extend(peer.address);
        table.extend(peer.guarantee.to_be_bytes());
        table.extend(peer.limit.to_be_bytes());
    }
    table.extend((sessions.len() as u16).to_be_bytes());
    for (key, session) in sessions {
        encode_session(&mut table, *key, session);
    }
    assert!(table.len() <= length, "more sessions than there is room for");
    table.resize(length, 0);
    table
}

fn encode_session(table: &mut Vec<u8>, key: Key, session: &Session) {
    let start = table.len();
    table.push(key.peer);
    table.extend(key.seid.to_be_bytes());
    table.push(session.pdrs.len() as u8);
    table.push(session.endpoints.len() as u8);
    table.push(session.fq_csids.len() as u8);
    for (id, pdr) in &session.pdrs {
        table.extend(id.to_be_bytes());
        table.extend(pdr.precedence.to_be_bytes());
        table.push(u8::from(pdr.far_id.is_some()));
        table.extend(pdr.far_id.unwrap_or(0).to_be_bytes());
        table.push(pdr.source_interface);
        let (place, teid, flags, endpoint) = match pdr.local {
            Local::Neither => (0, 0, 0, 0),
            Local::Tunnel(tunnel) => (1, tunnel.teid, flags(tunnel.families), 0),
            Local::Endpoint(id) => (2, 0, 0, id),
        };
        table.push(place);
        table.extend(teid.to_be_bytes());
        table.push(flags);
        table.push(endpoint);
        encode_address(table, pdr.address);
    }
    table.resize(start + ENDPOINTS, 0);
    for (id, Endpoint { tunnel, address }) in &session.endpoints {
        table.push(*id);
        table.extend(tunnel.teid.to_be_bytes());
        table.push(flags(tunnel.families));
        encode_address(table, *address);
    }
    table.resize(start + FQ_CSIDS, 0);
    for (node_type, held) in &session.fq_csids {
        let slot = table.len();
        table.push(*node_type);
        match held.node {
            NodeId::Ipv4(address) => {
                table.push(0);
                table.extend(address);
            }
            NodeId::Ipv6(address) => {
                table.push(1);
                table.extend(address);
            }
            NodeId::Operator { country_and_network, number } => {
                table.push(2);
                table.extend((country_and_network << 12 | u32::from(number)).to_be_bytes());
            }
        }
        table.resize(slot + 18, 0);
        table.extend(held.csid.to_be_bytes());
    }
    table.resize(start + SLOT, 0);
}

fn encode_address(table: &mut Vec<u8>, address: Option<Ipv4Addr>) {
    table.push(u8::from(address.is_some()));
    table.extend(address.unwrap_or(Ipv4Addr::UNSPECIFIED).octets());
}

fn flags(families: Families) -> u8 {
    u8::from(families.v4) + 2 * u8::from(families.v6)
}

/// The session limit and the number of sessions of a table that is as long as its limit says.
fn frame(table: &[u8]) -> Result<(u16, u16), &'static str> {
    if table.len() < SLOTS {
        return Err("a length under that of its settings");
    }
    let number = |at| u16::from_be_bytes(array(table, at));
    let (limit, count) = (number(LIMIT), number(COUNT));
    if allowed_limit(limit.into()).is_none() {
        return Err("a session limit that is not allowed");
    }
    if table.len() != length(limit) {
        return Err("another length than its session limit's");
    }
    match count <= limit {
        true => Ok((limit, count)),
        false => Err("more sessions than its session limit"),
    }
}

/// The settings and records of a table; nothing where an octet has no meaning at all.
pub fn decode(table: &[u8]) -> Option<(Settings, Sessions)> {
    let (session_limit, count) = frame(table).ok()?;
    let settings = Settings {
        ipv4: array(table, 0),
        ipv6: (table[4] != 0).then(|| array(table, 5)),
        first: u32::from_be_bytes(array(table, 21)),
        size: u32::from_be_bytes(array(table, 25)),
        first_address: Ipv4Addr::from(array(table, 29)),
        addresses: u32::from_be_bytes(array(table, 33)),
        session_limit,
        peers: [decode_peer(table, PEERS), decode_peer(table, PEERS + PEER)],
    };
    let mut sessions = Sessions::new();
    for slot in table[SLOTS..].chunks(SLOT).take(count.into()) {
        let key = Key { peer: slot[0], seid: u64::from_be_bytes(array(slot, SEID)) };
        sessions.insert(key, decode_session(slot)?);
    }
    Some((settings, sessions))
}

fn decode_peer(table: &[u8], at: usize) -> Peer {
    Peer {
        address: array(table, at),
        guarantee: u32::from_be_bytes(array(table, at + 4)),
        limit: u32::from_be_bytes(array(table, at + 8)),
    }
}

fn decode_session(slot: &[u8]) -> Option<Session> {
    let count = |place: usize| usize::from(slot[COUNTS + place]);
    let counts = (count(0), count(1), count(2));
    if counts.0 > 16 || counts.1 > 8 || counts.2 > 6 {
        return None;
    }
    let mut session = Session::default();
    for record in slot[PDRS..ENDPOINTS].chunks(PDR).take(counts.0) {
        let local = match record[12] {
            0 => Local::Neither,
            1 => Local::Tunnel(tunnel(&record[13..18])),
            2 => Local::Endpoint(record[18]),
            _ => return None,
        };
        let pdr = Pdr {
            precedence: u32::from_be_bytes(array(record, 2)),
            far_id: (record[6] != 0).then(|| u32::from_be_bytes(array(record, 7))),
            source_interface: record[11],
            local,
            address: address(&record[19..]),
        };
        session.pdrs.insert(u16::from_be_bytes(array(record, 0)), pdr);
    }
    for record in slot[ENDPOINTS..FQ_CSIDS].chunks(ENDPOINT).take(counts.1) {
        let endpoint = Endpoint { tunnel: tunnel(&record[1..6]), address: address(&record[6..]) };
        session.endpoints.insert(record[0], endpoint);
    }
    for record in slot[FQ_CSIDS..].chunks(FQ_CSID).take(counts.2) {
        let word = u32::from_be_bytes(array(record, 2));
        let node = match record[1] {
            0 => NodeId::Ipv4(array(record, 2)),
            1 => NodeId::Ipv6(array(record, 2)),
            2 => {
                NodeId::Operator { country_and_network: word >> 12, number: (word & 0xFFF) as u16 }
            }
            _ => return None,
        };
        let csid = u16::from_be_bytes(array(record, 18));
        session.fq_csids.insert(record[0], HeldCsid { node, csid });
    }
    Some(session)
}

fn tunnel(octets: &[u8]) -> Tunnel {
    let families = Families { v4: octets[4] & 1 != 0, v6: octets[4] & 2 != 0 };
    Tunnel { teid: u32::from_be_bytes(array(octets, 0)), families }
}

fn address(octets: &[u8]) -> Option<Ipv4Addr> {
    (octets[0] != 0).then(|| Ipv4Addr::from(array(octets, 1)))
}

fn array<const N: usize>(octets: &[u8], at: usize) -> [u8; N] {
    octets[at..at + N].try_into().expect("a slice of N octets")
}

/// The settings and records of a sound table, or why it is broken: "exactly when its length is not
/// that of its session limit, its settings or records break a rule of 01 or 02, or its octets are not
/// the ones that its own settings and records encode to".
pub fn sound(table: &[u8]) -> Result<(Settings, Sessions), String> {
    frame(table)?;
    let (settings, sessions) = decode(table).ok_or("an octet without a meaning")?;
    if !settings.are_allowed() {
        return Err("settings that are not allowed".to_string());
    }
    // Whether the records hold comes first, so that the counters tell the rules apart.
    records_hold(&settings, &sessions)?;
    match encode(&settings, &sessions) == table {
        true => Ok((settings, sessions)),
        false => Err("octets that its records do not encode to".to_string()),
    }
}
