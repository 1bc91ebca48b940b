//! The list of live sessions as the unit's operators see it, as text and as JSON, from settings and
//! sessions alone. It shares nothing with the unit's printer, which it is compared with.

use std::fmt::Write;
use std::net::{Ipv4Addr, Ipv6Addr};

use crate::element::fq_csid::NodeId;
use crate::session::{
    distinct_teids, taken_addresses, Endpoint, Families, HeldCsid, Key, Local, Pdr, Session,
    Sessions, Tunnel,
};
use crate::settings::Settings;

/// How many TEIDs and addresses of the pools are free.
struct Free {
    teids: usize,
    addresses: usize,
}

impl Free {
    fn of(settings: &Settings, sessions: &Sessions) -> Free {
        Free {
            teids: settings.size as usize - distinct_teids(sessions).len(),
            addresses: settings.addresses as usize - taken_addresses(settings, sessions).len(),
        }
    }
}

/// The whole list as text.
pub fn text(settings: &Settings, sessions: &Sessions) -> String {
    let (live, free) = (sessions.len(), Free::of(settings, sessions));
    let mut list = format!(
        "live sessions: {live}; free TEIDs: {} of {}; free addresses: {} of {}\n",
        free.teids, settings.size, free.addresses, settings.addresses
    );
    for (key, session) in sessions {
        add_text(&mut list, *key, session);
    }
    list
}

fn add_text(list: &mut String, key: Key, session: &Session) {
    let mut line = |text: String| writeln!(list, "{text}").expect("a string takes any text");
    line(format!("  session {} of peer {} (0x{:x})", key.seid, key.peer, key.seid));
    for (id, pdr) in &session.pdrs {
        line(format!("    PDR {id}: {}", pdr_text(pdr)));
    }
    for (id, endpoint) in &session.endpoints {
        line(format!("    endpoint {id}: {}", endpoint_text(endpoint)));
    }
    for (node_type, held) in &session.fq_csids {
        let name = node_type_name(*node_type);
        line(format!("    FQ-CSID of node type {node_type} ({name}): {}", fq_csid_text(held)));
    }
}

/// TS 29.244, clause 8.2.2.
pub fn interface_name(source: u8) -> &'static str {
    match source {
        0 => "access",
        1 => "core",
        2 => "SGi-LAN or N6-LAN",
        3 => "CP function",
        4 => "5G VN internal",
        _ => "spare",
    }
}

/// TS 29.244, clause 8.2.43.
pub fn node_type_name(node_type: u8) -> &'static str {
    match node_type {
        0 => "MME",
        1 => "SGW-C",
        2 => "PGW-C or SMF",
        3 => "ePDG",
        4 => "TWAN",
        5 => "PGW-U, SGW-U or UPF",
        _ => "spare",
    }
}

/// What a PDR has, without its ID.
pub fn pdr_text(pdr: &Pdr) -> String {
    let far = pdr.far_id.map_or("no FAR".to_string(), |far_id| format!("FAR {far_id}"));
    let local = match &pdr.local {
        Local::Neither => String::new(),
        Local::Tunnel(tunnel) => format!(", {}", tunnel_text(tunnel)),
        Local::Endpoint(id) => format!(", endpoint {id}"),
    };
    let (precedence, source) = (pdr.precedence, pdr.source_interface);
    let (name, address) = (interface_name(source), address_text(pdr.address));
    format!("precedence {precedence}, {far}, source interface {source} ({name}){local}{address}")
}

/// What an endpoint has, without its ID.
pub fn endpoint_text(endpoint: &Endpoint) -> String {
    format!("{}{}", tunnel_text(&endpoint.tunnel), address_text(endpoint.address))
}

/// What an FQ-CSID says, without its node type.
pub fn fq_csid_text(held: &HeldCsid) -> String {
    let kind = match held.node {
        NodeId::Operator { .. } => "operator node ",
        _ => "",
    };
    format!("CSID {} of {kind}{}", held.csid, node_text(&held.node))
}

fn tunnel_text(tunnel: &Tunnel) -> String {
    let families = match tunnel.families {
        Families { v4: true, v6: true } => "IPv4 and IPv6",
        Families { v4: true, v6: false } => "IPv4",
        Families { v4: false, v6: true } => "IPv6",
        Families { v4: false, v6: false } => "no family",
    };
    format!("TEID {} ({families})", tunnel.teid)
}

fn address_text(address: Option<Ipv4Addr>) -> String {
    address.map_or(String::new(), |address| format!(", address {address}"))
}

fn node_text(node: &NodeId) -> String {
    match node {
        NodeId::Ipv4(address) => Ipv4Addr::from(*address).to_string(),
        NodeId::Ipv6(address) => ipv6_text(address),
        NodeId::Operator { country_and_network, number } => {
            format!("{:08X}", country_and_network << 12 | u32::from(*number))
        }
    }
}

/// As the C library writes it: an address of which only the last four octets are used ends as an
/// IPv4 address.
fn ipv6_text(address: &[u8; 16]) -> String {
    let last: [u8; 4] = address[12..].try_into().expect("four octets");
    match address[..12].iter().all(|octet| *octet == 0) && last[..2] != [0, 0] {
        true => format!("::{}", Ipv4Addr::from(last)),
        false => Ipv6Addr::from(*address).to_string(),
    }
}

/// The whole list as JSON, without counters.
pub fn json(settings: &Settings, sessions: &Sessions) -> String {
    let (live, free) = (sessions.len(), Free::of(settings, sessions));
    let sessions: Vec<String> =
        sessions.iter().map(|(key, session)| session_json(*key, session)).collect();
    let of_teids = format!("\"free_teids\":{},\"pool_size\":{}", free.teids, settings.size);
    let of_addresses = format!(
        "\"free_addresses\":{},\"address_pool_size\":{}",
        free.addresses, settings.addresses
    );
    format!(
        "{{\"live_sessions\":{live},{of_teids},{of_addresses},\"sessions\":[{}]}}\n",
        sessions.join(",\n")
    )
}

fn session_json(key: Key, session: &Session) -> String {
    let Key { peer, seid } = key;
    let pdrs: Vec<String> = session.pdrs.iter().map(|(id, pdr)| pdr_json(*id, pdr)).collect();
    let endpoints: Vec<String> = session
        .endpoints
        .iter()
        .map(|(id, endpoint)| {
            let (tunnel, address) = (tunnel_json(&endpoint.tunnel), address_json(endpoint.address));
            format!("{{\"id\":{id}{tunnel}{address}}}")
        })
        .collect();
    let fq_csids: Vec<String> = session
        .fq_csids
        .iter()
        .map(|(node_type, held)| {
            let (node, csid) = (node_text(&held.node), held.csid);
            let name = format!("\"node_type_name\":\"{}\"", node_type_name(*node_type));
            format!("{{\"node_type\":{node_type},{name},\"node\":\"{node}\",\"csid\":{csid}}}")
        })
        .collect();
    let seids = format!("\"seid\":\"{seid}\",\"seid_hex\":\"0x{seid:x}\"");
    format!(
        "{{\"peer\":{peer},{seids},\"pdrs\":[{}],\"endpoints\":[{}],\"fq_csids\":[{}]}}",
        pdrs.join(","),
        endpoints.join(","),
        fq_csids.join(",")
    )
}

fn pdr_json(id: u16, pdr: &Pdr) -> String {
    let far = pdr.far_id.map_or(String::new(), |far_id| format!(",\"far_id\":{far_id}"));
    let local = match &pdr.local {
        Local::Neither => String::new(),
        Local::Tunnel(tunnel) => tunnel_json(tunnel),
        Local::Endpoint(id) => format!(",\"endpoint_id\":{id}"),
    };
    let (precedence, source) = (pdr.precedence, pdr.source_interface);
    let from = format!(
        "\"source_interface\":{source},\"source_interface_name\":\"{}\"",
        interface_name(source)
    );
    let rest = format!("{from}{local}{}", address_json(pdr.address));
    format!("{{\"id\":{id},\"precedence\":{precedence}{far},{rest}}}")
}

fn address_json(address: Option<Ipv4Addr>) -> String {
    address.map_or(String::new(), |address| format!(",\"address\":\"{address}\""))
}

fn tunnel_json(tunnel: &Tunnel) -> String {
    let Families { v4, v6 } = tunnel.families;
    format!(",\"teid\":{},\"ipv4\":{v4},\"ipv6\":{v6}", tunnel.teid)
}
