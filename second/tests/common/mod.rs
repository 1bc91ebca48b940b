//! Messages written out by hand for the tests.
#![allow(dead_code)]

use std::net::Ipv4Addr;

use second::ie::LEAST_REPLY_SPACE;
use second::session::{Key, Sessions};
use second::settings::{Peer, Settings};
use second::unit::{Outcome, Unit};

pub const IPV4: [u8; 4] = [192, 0, 2, 1];
pub const IPV6: [u8; 16] = [0x20, 1, 0x0D, 0xB8, 0, 0, 0, 0, 0, 0, 0, 0, 0, 0, 0, 1];

/// Octets from hexadecimal text with spaces.
pub fn hex(text: &str) -> Vec<u8> {
    text.split_whitespace().map(|pair| u8::from_str_radix(pair, 16).unwrap()).collect()
}

pub fn ie(ie_type: u16, value: &[u8]) -> Vec<u8> {
    let mut octets = ie_type.to_be_bytes().to_vec();
    octets.extend((value.len() as u16).to_be_bytes());
    octets.extend(value);
    octets
}

/// An element whose written length is not the true one.
pub fn ie_claiming(ie_type: u16, length: u16, value: &[u8]) -> Vec<u8> {
    let mut octets = ie(ie_type, value);
    octets[2..4].copy_from_slice(&length.to_be_bytes());
    octets
}

pub fn group(ie_type: u16, members: &[Vec<u8>]) -> Vec<u8> {
    ie(ie_type, &members.concat())
}

pub fn message(message_type: u8, seid: u64, sequence: u32, parts: &[Vec<u8>]) -> Vec<u8> {
    let body = parts.concat();
    let mut octets = vec![0x21, message_type];
    octets.extend(((12 + body.len()) as u16).to_be_bytes());
    octets.extend(seid.to_be_bytes());
    octets.extend(&sequence.to_be_bytes()[1..]);
    octets.push(0);
    octets.extend(body);
    octets
}

/// A message whose header has no SEID.
pub fn plain_message(message_type: u8, sequence: u32, parts: &[Vec<u8>]) -> Vec<u8> {
    let mut octets = message(message_type, 0, sequence, parts);
    octets.drain(4..12);
    octets[0] = 0x20;
    let length = (octets.len() - 4) as u16;
    octets[2..4].copy_from_slice(&length.to_be_bytes());
    octets
}

pub fn set_deletion(parts: &[Vec<u8>]) -> Vec<u8> {
    plain_message(14, 1, parts)
}

/// An F-SEID with an IPv4 address.
pub fn f_seid(seid: u64) -> Vec<u8> {
    let mut value = vec![2];
    value.extend(seid.to_be_bytes());
    value.extend([10, 0, 0, 1]);
    ie(57, &value)
}

pub fn establishment(seid: u64, parts: &[Vec<u8>]) -> Vec<u8> {
    let mut all = vec![f_seid(seid)];
    all.extend_from_slice(parts);
    message(50, 0, 1, &all)
}

pub fn restoration(seid: u64, parts: &[Vec<u8>]) -> Vec<u8> {
    let mut all = vec![f_seid(seid), ie(186, &[1])];
    all.extend_from_slice(parts);
    message(50, 0, 1, &all)
}

pub fn modification(seid: u64, parts: &[Vec<u8>]) -> Vec<u8> {
    message(52, seid, 1, parts)
}

pub fn deletion(seid: u64, parts: &[Vec<u8>]) -> Vec<u8> {
    message(54, seid, 1, parts)
}

pub fn pdr_id(id: u16) -> Vec<u8> {
    ie(56, &id.to_be_bytes())
}

pub fn precedence(value: u32) -> Vec<u8> {
    ie(29, &value.to_be_bytes())
}

pub fn far(value: u32) -> Vec<u8> {
    ie(108, &value.to_be_bytes())
}

pub fn source(value: u8) -> Vec<u8> {
    ie(20, &[value])
}

pub fn endpoint_id(id: u8) -> Vec<u8> {
    ie(131, &[id])
}

/// Create PDR with precedence 1, source interface 0 and these further members of its PDI.
pub fn create_pdr(id: u16, pdi: &[Vec<u8>]) -> Vec<u8> {
    create_pdr_from(0, id, pdi)
}

pub fn create_pdr_from(interface: u8, id: u16, pdi: &[Vec<u8>]) -> Vec<u8> {
    let mut members = vec![source(interface)];
    members.extend_from_slice(pdi);
    group(1, &[pdr_id(id), precedence(1), group(2, &members)])
}

pub fn create_endpoint(id: u8, f_teid: &[u8]) -> Vec<u8> {
    group(127, &[endpoint_id(id), ie(21, f_teid)])
}

pub fn update_pdr(id: u16, members: &[Vec<u8>]) -> Vec<u8> {
    let mut all = vec![pdr_id(id)];
    all.extend_from_slice(members);
    group(9, &all)
}

pub fn remove_pdr(id: u16) -> Vec<u8> {
    group(15, &[pdr_id(id)])
}

pub fn remove_endpoint(id: u8) -> Vec<u8> {
    group(130, &[endpoint_id(id)])
}

/// The value of an F-TEID of the unit at 192.0.2.1.
pub fn given_v4(teid: u32) -> Vec<u8> {
    let mut value = vec![1];
    value.extend(teid.to_be_bytes());
    value.extend(IPV4);
    value
}

pub fn given_v6(teid: u32) -> Vec<u8> {
    let mut value = vec![2];
    value.extend(teid.to_be_bytes());
    value.extend(IPV6);
    value
}

/// An FQ-CSID with one CSID: IPv4 Node-ID 192.0.2.10.
pub fn fq_csid(csid: u16, node_type: u8) -> Vec<u8> {
    fq_csid_of(0, &[192, 0, 2, 10], &[csid], node_type)
}

pub fn fq_csid_of(node_id_type: u8, address: &[u8], csids: &[u16], node_type: u8) -> Vec<u8> {
    let mut value = vec![node_id_type << 4 | csids.len() as u8];
    value.extend(address);
    value.extend(csids.iter().flat_map(|csid| csid.to_be_bytes()));
    value.push(node_type);
    ie(65, &value)
}

pub fn choose() -> Vec<u8> {
    ie(21, &[5])
}

pub fn choose_id(id: u8) -> Vec<u8> {
    ie(21, &[0x0D, id])
}

/// The first address of the units' pool.
pub const POOL: Ipv4Addr = Ipv4Addr::new(10, 45, 0, 0);

/// The units' session limit where a test does not choose one.
pub const SESSION_LIMIT: u32 = 64;

/// Peers that share a pool of this size without guarantees: the first one's address is the unit's.
pub fn peers(size: u32) -> [Peer; 2] {
    [1, 2].map(|octet| Peer { address: [192, 0, 2, octet], guarantee: 0, limit: size })
}

/// The key of a session of the first peer, whose requests most tests send.
pub fn key(seid: u64) -> Key {
    Key { peer: 1, seid }
}

/// The key of a session of the second peer.
pub fn key2(seid: u64) -> Key {
    Key { peer: 2, seid }
}

pub fn unit(first: u32, size: u32) -> Unit {
    unit_with_addresses((first, size), 4)
}

/// A unit whose pool has so many addresses.
pub fn unit_with_addresses(teids: (u32, u32), addresses: u32) -> Unit {
    let peers = peers(teids.1);
    let settings = Settings::make(IPV4, &[], teids, (POOL, addresses), SESSION_LIMIT, peers);
    Unit::new(settings.unwrap()).unwrap()
}

pub fn dual_unit(first: u32, size: u32) -> Unit {
    let (teids, addresses) = ((first, size), (POOL, 4));
    let settings = Settings::make(IPV4, &IPV6, teids, addresses, SESSION_LIMIT, peers(size));
    Unit::new(settings.unwrap()).unwrap()
}

/// A unit with this session limit and pool of TEIDs.
pub fn unit_with_limit(session_limit: u32, teids: (u32, u32)) -> Unit {
    let settings = Settings::make(IPV4, &[], teids, (POOL, 4), session_limit, peers(teids.1));
    Unit::new(settings.unwrap()).unwrap()
}

/// The value of a UE IP Address that is given.
pub fn given_address(address: Ipv4Addr) -> Vec<u8> {
    [vec![2], address.octets().to_vec()].concat()
}

/// A UE IP Address that the unit is to choose.
pub fn choose_address() -> Vec<u8> {
    ie(93, &[0x10])
}

/// A call of the first peer with the least reply space; the outcome must be 0.
pub fn reply(unit: &mut Unit, message: &[u8]) -> Vec<u8> {
    reply_to(1, unit, message)
}

/// A call of a peer with the least reply space; the outcome must be 0.
pub fn reply_to(peer: u32, unit: &mut Unit, message: &[u8]) -> Vec<u8> {
    let mut space = vec![0xEE; LEAST_REPLY_SPACE];
    let Outcome { number, reply_length, .. } = unit.request(peer, message, &mut space);
    assert_eq!(number, 0, "outcome");
    assert!(space[reply_length..].iter().all(|octet| *octet == 0xEE), "space after the reply");
    space.truncate(reply_length);
    space
}

/// The elements of a reply.
pub fn elements(reply: &[u8]) -> Vec<(u16, Vec<u8>)> {
    let mut rest = &reply[if reply[0] & 1 == 1 { 16 } else { 8 }..];
    let mut found = Vec::new();
    while !rest.is_empty() {
        let length = usize::from(u16::from_be_bytes([rest[2], rest[3]]));
        found.push((u16::from_be_bytes([rest[0], rest[1]]), rest[4..4 + length].to_vec()));
        rest = &rest[4 + length..];
    }
    found
}

/// Cause and Offending IE of a reply.
pub fn verdict(reply: &[u8]) -> (u8, Option<u16>) {
    let all = elements(reply);
    let cause = all.iter().find(|(ie_type, _)| *ie_type == 19).unwrap().1[0];
    let offending = all.iter().find(|(ie_type, _)| *ie_type == 40);
    (cause, offending.map(|(_, value)| u16::from_be_bytes([value[0], value[1]])))
}

/// The cause of a call of the first peer; a refusal must leave the sessions alone.
pub fn cause(unit: &mut Unit, message: &[u8]) -> u8 {
    cause_for(1, unit, message)
}

/// The cause of a call of a peer; a refusal must leave the sessions alone.
pub fn cause_for(peer: u32, unit: &mut Unit, message: &[u8]) -> u8 {
    let before: Sessions = unit.sessions().clone();
    let (cause, _) = verdict(&reply_to(peer, unit, message));
    if cause != 1 {
        assert_eq!(*unit.sessions(), before, "a refusal changed the sessions");
    }
    cause
}

/// The TEIDs of a reply's Created PDRs (8) or Created Traffic Endpoints (128), in reply order.
pub fn created(reply: &[u8], ie_type: u16) -> Vec<(u16, u32)> {
    let mut found = Vec::new();
    for (_, value) in elements(reply).into_iter().filter(|(other, _)| *other == ie_type) {
        let mut framed = vec![1; 16];
        framed.extend(value);
        let members = elements(&framed);
        let id = members[0].1.iter().fold(0, |id, octet| id << 8 | u16::from(*octet));
        let f_teid = &members[1].1;
        found.push((id, u32::from_be_bytes([f_teid[1], f_teid[2], f_teid[3], f_teid[4]])));
    }
    found
}
