//! The list of a unit's sessions as `pfcp-list --json` gives it, read back into records.

use std::collections::BTreeSet;
use std::io::{Read, Write};
use std::net::{Ipv4Addr, Ipv6Addr};
use std::os::unix::net::UnixStream;
use std::time::Duration;

use second::element::fq_csid::NodeId;
use second::list;
use second::session::{
    distinct_teids, Endpoint, Families, HeldCsid, Key, Local, Pdr, Session, Sessions, Tunnel,
};

use crate::json::{self, Json};

/// What a list says.
#[derive(Clone, Debug)]
pub struct Listed {
    pub sessions: Sessions,
    /// Where the list contradicts itself, in words.
    pub faults: Vec<String>,
    /// The addresses in the replies to the peers that the list tells of.
    pub peers: Vec<(u8, Ipv4Addr)>,
}

/// Reads a whole list.
pub fn read(text: &[u8]) -> Result<Listed, String> {
    let list = json::read(text)?;
    let whole = "not a whole list of pfcp-list --json";
    let written = list.member("sessions").and_then(Json::array).ok_or(whole)?;
    let live: u64 = list.member("live_sessions").and_then(Json::number).ok_or(whole)?;
    let (mut sessions, mut faults) = (Sessions::new(), Vec::new());
    for (place, one) in written.iter().enumerate() {
        let wrong = || format!("session {} of the list is not one of pfcp-list --json", place + 1);
        let (key, session) = session(one, &mut faults).ok_or_else(wrong)?;
        if sessions.insert(key, session).is_some() {
            faults.push(format!("the list has {} twice", crate::words::session(key)));
        }
    }
    if live != written.len() as u64 {
        faults.push(format!("the list says {live} live sessions and has {}", written.len()));
    }
    let mut peers = Vec::new();
    let told = list.member("peers").and_then(Json::array).unwrap_or(&[]);
    for one in told {
        let peer: u8 = one.member("peer").and_then(Json::number).ok_or(whole)?;
        // The list of a stored table does not have it.
        if let Some(address) = one.member("address") {
            let address = address.text().and_then(|text| text.parse().ok()).ok_or(whole)?;
            peers.push((peer, address));
        }
        faults.extend(of_peer(peer, one, &sessions));
    }
    // The list of a stored table does not say how large the pools are.
    let has = |name: &str| list.member(name).is_some();
    if has("pool_size") || has("address_pool_size") || !has("stored_table") {
        faults.extend(of_pools(&list, &sessions, told.len() != 1));
    }
    Ok(Listed { sessions, faults, peers })
}

/// Where what the head says of the pools does not fit the records. A list of one peer has the whole unit's pools, of which
/// another peer may hold some. Which addresses are the pool's is not said: the records have as many at least.
fn of_pools(list: &Json, sessions: &Sessions, is_whole: bool) -> Vec<String> {
    let number = |name: &str| list.member(name).and_then(Json::number::<u64>);
    let held = |free: &str, size: &str| number(size)?.checked_sub(number(free)?);
    let teids = distinct_teids(sessions).len() as u64;
    let addresses: BTreeSet<Ipv4Addr> =
        sessions.values().flat_map(|session| session.addresses()).collect();
    let mut faults = Vec::new();
    let of_pool = held("free_teids", "pool_size");
    if of_pool.is_none_or(|held| held < teids || is_whole && held > teids) {
        faults.push(format!(
            "the free TEIDs of the list are not the pool less the {teids} of its records"
        ));
    }
    let of_pool = held("free_addresses", "address_pool_size");
    if of_pool.is_none_or(|held| is_whole && held > addresses.len() as u64) {
        faults.push(
            "the free addresses of the list are too few for the addresses of its records"
                .to_string(),
        );
    }
    faults
}

/// Where what a peer is said to have is not what its sessions have.
fn of_peer(peer: u8, said: &Json, sessions: &Sessions) -> Vec<String> {
    let number = |name: &str| said.member(name).and_then(Json::number::<u64>);
    let live = second::session::count_of(sessions, peer) as u64;
    let teids = second::session::holdings(sessions, peer) as u64;
    let mut faults = Vec::new();
    for (what, said, has) in
        [("sessions", number("sessions"), live), ("TEIDs", number("teids"), teids)]
    {
        if said.is_some_and(|said| said != has) {
            let said = said.unwrap_or(0);
            faults.push(format!(
                "the list says that peer {peer} has {said} {what}, and has {has} of it"
            ));
        }
    }
    faults
}

fn session(one: &Json, faults: &mut Vec<String>) -> Option<(Key, Session)> {
    let peer = one.member("peer")?.number()?;
    let seid = one.member("seid")?.text()?.parse().ok()?;
    let key = Key { peer, seid };
    let own = crate::words::session(key);
    let mut session = Session::default();
    named(one, "seid_hex", &format!("0x{seid:x}"), &own, faults)?;
    for record in one.member("pdrs")?.array()? {
        let (id, pdr) = pdr(record)?;
        let (what, name) =
            (format!("PDR {id} of {own}"), list::interface_name(pdr.source_interface));
        named(record, "source_interface_name", name, &what, faults)?;
        if session.pdrs.insert(id, pdr).is_some() {
            faults.push(format!("the list has {what} twice"));
        }
    }
    for record in one.member("endpoints")?.array()? {
        let id = record.member("id")?.number()?;
        let endpoint = Endpoint { tunnel: tunnel(record)??, address: address(record)? };
        if session.endpoints.insert(id, endpoint).is_some() {
            faults.push(format!("the list has endpoint {id} of {own} twice"));
        }
    }
    for record in one.member("fq_csids")?.array()? {
        let node_type = record.member("node_type")?.number()?;
        let held = HeldCsid {
            node: node(record.member("node")?.text()?)?,
            csid: record.member("csid")?.number()?,
        };
        let what = format!("the FQ-CSID of node type {node_type} of {own}");
        named(record, "node_type_name", list::node_type_name(node_type), &what, faults)?;
        if session.fq_csids.insert(node_type, held).is_some() {
            faults.push(format!("the list has {what} twice"));
        }
    }
    Some((key, session))
}

/// A member that says in other words what a number says: a fault where it does not, nothing where it is not there.
fn named(
    record: &Json,
    member: &str,
    words: &str,
    what: &str,
    faults: &mut Vec<String>,
) -> Option<()> {
    let said = record.member(member)?.text()?;
    if said != words {
        faults.push(format!("the list has \"{said}\" and not \"{words}\" as {member} of {what}"));
    }
    Some(())
}

fn pdr(record: &Json) -> Option<(u16, Pdr)> {
    let endpoint = match record.member("endpoint_id") {
        None => None,
        Some(id) => Some(id.number()?),
    };
    let local = match (tunnel(record)?, endpoint) {
        (None, None) => Local::Neither,
        (Some(tunnel), None) => Local::Tunnel(tunnel),
        (None, Some(id)) => Local::Endpoint(id),
        (Some(_), Some(_)) => return None,
    };
    let far_id = match record.member("far_id") {
        None => None,
        Some(id) => Some(id.number()?),
    };
    let pdr = Pdr {
        precedence: record.member("precedence")?.number()?,
        far_id,
        source_interface: record.member("source_interface")?.number()?,
        local,
        address: address(record)?,
    };
    Some((record.member("id")?.number()?, pdr))
}

/// The F-TEID of a record, if it has one; nothing at all where it is not whole.
fn tunnel(record: &Json) -> Option<Option<Tunnel>> {
    let parts = (record.member("teid"), record.member("ipv4"), record.member("ipv6"));
    match parts {
        (None, None, None) => Some(None),
        (Some(teid), Some(v4), Some(v6)) => {
            let families = Families { v4: v4.truth()?, v6: v6.truth()? };
            Some(Some(Tunnel { teid: teid.number()?, families }))
        }
        _ => None,
    }
}

fn address(record: &Json) -> Option<Option<Ipv4Addr>> {
    match record.member("address") {
        None => Some(None),
        Some(address) => Some(Some(address.text()?.parse().ok()?)),
    }
}

fn node(text: &str) -> Option<NodeId> {
    if let Ok(address) = text.parse::<Ipv4Addr>() {
        return Some(NodeId::Ipv4(address.octets()));
    }
    if let Ok(address) = text.parse::<Ipv6Addr>() {
        return Some(NodeId::Ipv6(address.octets()));
    }
    if text.len() != 8 || !text.bytes().all(|octet| octet.is_ascii_hexdigit()) {
        return None;
    }
    let word = u32::from_str_radix(text, 16).ok()?;
    Some(NodeId::Operator { country_and_network: word >> 12, number: (word & 0xFFF) as u16 })
}

/// The longest list is that of 256 full sessions, under a mebioctet for each ten of them.
const LONGEST: usize = 64 << 20;

/// Asks a running unit for its whole list, over its control socket, as pfcp-list does.
pub fn ask(socket: &str) -> Result<Vec<u8>, String> {
    let told = |error: std::io::Error| match error.kind() {
        std::io::ErrorKind::WouldBlock => "the unit does not answer".to_string(),
        _ => crate::words::system(&error),
    };
    let limit = Some(Duration::from_secs(10));
    let mut unit = UnixStream::connect(socket).map_err(told)?;
    unit.set_read_timeout(limit).map_err(told)?;
    unit.set_write_timeout(limit).map_err(told)?;
    unit.write_all(b"list json\n").map_err(told)?;
    let (mut answer, mut room) = (Vec::new(), [0; 65_536]);
    while answer.last() != Some(&0) {
        match unit.read(&mut room).map_err(told)? {
            0 => return Err("the answer was cut short".to_string()),
            got => answer.extend(&room[..got]),
        }
        if answer.len() > LONGEST {
            return Err("the answer is longer than any list".to_string());
        }
    }
    answer.pop();
    match answer.strip_prefix(b"ok\n") {
        Some(list) => Ok(list.to_vec()),
        None => Err(String::from_utf8_lossy(&answer).lines().next().unwrap_or("").to_string()),
    }
}
