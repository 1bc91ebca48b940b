//! A table with everything that it has room for: as many sessions as its limit says, half of them of
//! each peer with the same SEIDs, of 16 PDRs, 8 endpoints and 6 FQ-CSIDs, each record with a TEID of its
//! own, which are all of the pool; each peer's guarantee and limit are what it holds. The sessions share
//! out the pool of addresses evenly: each PDR has an address of its own where there are
//! enough, else the PDRs of a session take turns. An endpoint has the address of the PDR with its ID.
//! The cards of node type 0 have one session each, those of node type 1 two, and so on by doubling.

use std::net::Ipv4Addr;

use crate::element::fq_csid::NodeId;
use crate::session::{Endpoint, Families, HeldCsid, Key, Local, Pdr, Session, Sessions, Tunnel};
use crate::session::{MOST_ENDPOINTS, MOST_PDRS};
use crate::settings::{Peer, Settings, MOST_ADDRESSES};

/// The TEIDs of a session: one for each record that can hold one.
pub const TEIDS: u32 = (MOST_PDRS + MOST_ENDPOINTS) as u32;

/// How many sessions each peer has.
fn half(session_limit: u16) -> u16 {
    session_limit / 2
}

/// How many sessions there are: an odd limit leaves one place free.
pub fn count(session_limit: u16) -> u16 {
    2 * half(session_limit)
}

/// The key of the session with this number: the first half are peer 1's.
pub fn key(session_limit: u16, number: u16) -> Key {
    let half = half(session_limit);
    Key { peer: 1 + (number / half) as u8, seid: 1 + 1000 * u64::from(number % half) }
}

/// The addresses of a session's PDRs.
fn own_addresses(session_limit: u16) -> u32 {
    (MOST_ADDRESSES / u32::from(count(session_limit))).min(MOST_PDRS as u32)
}

pub fn settings(session_limit: u16) -> Settings {
    let ipv6 = [0x20, 1, 0x0D, 0xB8, 0, 0, 0, 0, 0, 0, 0, 0, 0, 0, 0, 1];
    let due = TEIDS * u32::from(half(session_limit));
    let peer = |octet| Peer { address: [192, 0, 2, octet], guarantee: due, limit: due };
    Settings {
        ipv4: [192, 0, 2, 1],
        ipv6: Some(ipv6),
        first: 4096,
        size: 2 * due,
        first_address: Ipv4Addr::new(10, 45, 0, 0),
        addresses: own_addresses(session_limit) * u32::from(count(session_limit)),
        session_limit,
        peers: [peer(1), peer(2)],
    }
}

pub fn node(node_type: u8) -> NodeId {
    NodeId::Ipv6([node_type + 1; 16])
}

/// The CSID that the session with this number holds.
pub fn csid(node_type: u8, number: u16) -> u16 {
    0xFFFF - (number >> node_type)
}

pub fn sessions(session_limit: u16) -> Sessions {
    let one = |number| (key(session_limit, number), session(session_limit, number));
    (0..count(session_limit)).map(one).collect()
}

fn session(session_limit: u16, number: u16) -> Session {
    let settings = settings(session_limit);
    let own = own_addresses(session_limit);
    let first = settings.first + TEIDS * u32::from(number);
    let families = Families { v4: true, v6: true };
    let first_address = u32::from(settings.first_address) + own * u32::from(number);
    let address = |id: u32| Some(Ipv4Addr::from(first_address + id % own));
    let mut session = Session::default();
    for id in 0..16 {
        let tunnel = Tunnel { teid: first + 8 + u32::from(id), families };
        let pdr = Pdr {
            precedence: u32::MAX - u32::from(id),
            far_id: Some(number.into()),
            source_interface: (id % 16) as u8,
            local: Local::Tunnel(tunnel),
            address: address(u32::from(id)),
        };
        session.pdrs.insert(id, pdr);
    }
    for id in 0..8 {
        let tunnel = Tunnel { teid: first + u32::from(id), families };
        session.endpoints.insert(id, Endpoint { tunnel, address: address(u32::from(id)) });
    }
    for node_type in 0..6 {
        let csid = csid(node_type, number);
        session.fq_csids.insert(node_type, HeldCsid { node: node(node_type), csid });
    }
    session
}
