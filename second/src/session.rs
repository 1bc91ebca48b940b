//! The records that live in a unit, and the rules that document 01 gives for them under "Settings
//! and table", with the addresses of 02 (v), the session limit of 02 (vi) and the peers of 02 (xiv).

use std::collections::{BTreeMap, BTreeSet};
use std::net::Ipv4Addr;

use crate::element::fq_csid::{NodeId, LAST_NODE_TYPE};
use crate::request::{Record, Request};
use crate::settings::{named_peer, Settings, PEERS};

/// Sessions "each with 16 PDRs, 8 traffic endpoints and one FQ-CSID per node type"; how many there
/// may be is a setting.
pub const MOST_PDRS: usize = 16;
pub const MOST_ENDPOINTS: usize = 8;

/// The family flags of a local F-TEID.
#[derive(Clone, Copy, PartialEq, Eq, PartialOrd, Ord, Debug)]
pub struct Families {
    pub v4: bool,
    pub v6: bool,
}

impl Families {
    pub fn none(&self) -> bool {
        !self.v4 && !self.v6
    }
}

/// A local F-TEID as a record holds it: "(TEID, V4, V6)". Its addresses are the unit's.
#[derive(Clone, Copy, PartialEq, Eq, PartialOrd, Ord, Debug)]
pub struct Tunnel {
    pub teid: u32,
    pub families: Families,
}

/// "a local F-TEID (TEID, V4, V6), an endpoint ID, or neither"
#[derive(Clone, Copy, PartialEq, Eq, Debug)]
pub enum Local {
    Neither,
    Tunnel(Tunnel),
    Endpoint(u8),
}

/// A PDR without its ID, which is its key in the session.
#[derive(Clone, PartialEq, Eq, Debug)]
pub struct Pdr {
    pub precedence: u32,
    pub far_id: Option<u32>,
    pub source_interface: u8,
    pub local: Local,
    /// The patient's address, if it holds one.
    pub address: Option<Ipv4Addr>,
}

/// A traffic endpoint without its ID, which is its key in the session.
#[derive(Clone, Copy, PartialEq, Eq, Debug)]
pub struct Endpoint {
    pub tunnel: Tunnel,
    /// The patient's address, if it holds one.
    pub address: Option<Ipv4Addr>,
}

/// An FQ-CSID as a session holds it: one CSID, and its node type is its key in the session.
#[derive(Clone, PartialEq, Eq, Debug)]
pub struct HeldCsid {
    pub node: NodeId,
    pub csid: u16,
}

/// What a session is told apart by: "equal SEIDs may live on both". The order is that of the fields:
/// "ascending order of peer, then as in 01".
#[derive(Clone, Copy, PartialEq, Eq, PartialOrd, Ord, Debug)]
pub struct Key {
    pub peer: u8,
    pub seid: u64,
}

/// A session without its peer and SEID, which are its key. The maps keep the ascending order of peer,
/// then "of SEID and ID".
#[derive(Clone, PartialEq, Eq, Debug, Default)]
pub struct Session {
    pub pdrs: BTreeMap<u16, Pdr>,
    pub endpoints: BTreeMap<u8, Endpoint>,
    pub fq_csids: BTreeMap<u8, HeldCsid>,
}

pub type Sessions = BTreeMap<Key, Session>;

impl Session {
    /// Every TEID in the session's records, one for each record that holds one.
    pub fn teids(&self) -> impl Iterator<Item = u32> + '_ {
        let of_pdrs = self.pdrs.values().filter_map(|pdr| match pdr.local {
            Local::Tunnel(tunnel) => Some(tunnel.teid),
            _ => None,
        });
        self.endpoints.values().map(|endpoint| endpoint.tunnel.teid).chain(of_pdrs)
    }

    /// Every address in the session's records, one for each record that holds one.
    pub fn addresses(&self) -> impl Iterator<Item = Ipv4Addr> + '_ {
        let of_pdrs = self.pdrs.values().filter_map(|pdr| pdr.address);
        self.endpoints.values().filter_map(|endpoint| endpoint.address).chain(of_pdrs)
    }

    /// The different addresses of the pool among them.
    pub fn pool_addresses(&self, settings: &Settings) -> BTreeSet<Ipv4Addr> {
        self.addresses().filter(|address| settings.address_place(*address).is_some()).collect()
    }

    /// The PDRs that a request removes: those that a Remove PDR names, and "PDRs which name the
    /// removed endpoint are removed with it".
    pub fn removed_by(&self, request: &Request) -> BTreeSet<u16> {
        let goes = |id: u16, pdr: &Pdr| {
            request.records.iter().any(|record| match record {
                Record::RemovePdr { id: gone } => *gone == id,
                Record::RemoveEndpoint { id: gone } => pdr.local == Local::Endpoint(*gone),
                _ => false,
            })
        };
        self.pdrs.iter().filter(|(id, pdr)| goes(**id, pdr)).map(|(id, _)| *id).collect()
    }

    /// Whether a set deletion names it: it holds "an FQ-CSID equal in node type, Node-ID type,
    /// address and any one listed CSID".
    pub fn is_lost_by(&self, request: &Request) -> bool {
        self.fq_csids.iter().any(|(&node_type, held)| {
            request.records.iter().any(|record| match record {
                Record::FqCsid(listed) => {
                    listed.node_type == node_type
                        && listed.node == held.node
                        && listed.csids.contains(&held.csid)
                }
                _ => false,
            })
        })
    }

    /// Whether a PDR names this endpoint.
    pub fn is_named(&self, endpoint: u8) -> bool {
        self.pdrs.values().any(|pdr| pdr.local == Local::Endpoint(endpoint))
    }
}

/// The different TEIDs in the records.
pub fn distinct_teids(sessions: &Sessions) -> BTreeSet<u32> {
    sessions.values().flat_map(|session| session.teids()).collect()
}

/// The sessions of a peer.
pub fn of_peer(sessions: &Sessions, peer: u8) -> impl Iterator<Item = (&Key, &Session)> {
    sessions.iter().filter(move |(key, _)| key.peer == peer)
}

/// How many sessions a peer has.
pub fn count_of(sessions: &Sessions, peer: u8) -> usize {
    of_peer(sessions, peer).count()
}

/// A peer's holdings: how many different TEIDs stand in the records of its sessions.
pub fn holdings(sessions: &Sessions, peer: u8) -> usize {
    let teids: BTreeSet<u32> = of_peer(sessions, peer).flat_map(|(_, s)| s.teids()).collect();
    teids.len()
}

/// The different addresses of the pool in the records.
pub fn taken_addresses(settings: &Settings, sessions: &Sessions) -> BTreeSet<Ipv4Addr> {
    sessions.values().flat_map(|session| session.pool_addresses(settings)).collect()
}

/// The place of a session: from 0, over both peers, in ascending order of peer, then SEID.
pub fn place_of(sessions: &Sessions, wanted: Key) -> Option<usize> {
    sessions.keys().position(|key| *key == wanted)
}

/// The place of the session that holds each TEID.
pub fn holders(sessions: &Sessions) -> BTreeMap<u32, usize> {
    let of = |(place, session): (usize, &Session)| {
        session.teids().map(|teid| (teid, place)).collect::<Vec<_>>()
    };
    sessions.values().enumerate().flat_map(of).collect()
}

/// The rules for the records of a table, as 01 lists them. The answer names the first broken rule.
pub fn records_hold(settings: &Settings, sessions: &Sessions) -> Result<(), String> {
    // Who holds a TEID: an endpoint alone, or PDRs of one session with one use of it.
    let mut of_endpoints: BTreeSet<u32> = BTreeSet::new();
    let mut of_pdrs: BTreeMap<u32, (Key, Families, u8)> = BTreeMap::new();
    let mut of_earlier: BTreeSet<Ipv4Addr> = BTreeSet::new();
    for (&key, session) in sessions {
        let Key { peer, seid } = key;
        let fail = |what: &str| Err(format!("session {seid} of peer {peer}: {what}"));
        if named_peer(peer.into()).is_none() {
            return fail("a peer that is neither 1 nor 2");
        }
        if seid == 0 {
            return fail("SEID 0");
        }
        if session.pdrs.len() > MOST_PDRS {
            return fail("more than 16 PDRs");
        }
        if session.endpoints.len() > MOST_ENDPOINTS {
            return fail("more than 8 endpoints");
        }
        for Endpoint { tunnel, .. } in session.endpoints.values() {
            if !tunnel_holds(settings, tunnel) {
                return fail("an endpoint's F-TEID breaks a rule");
            }
            if !of_endpoints.insert(tunnel.teid) {
                return fail("two endpoints share a TEID");
            }
        }
        for pdr in session.pdrs.values() {
            if pdr.source_interface > 15 {
                return fail("a source interface of more than four bits");
            }
            match pdr.local {
                Local::Neither => {}
                Local::Endpoint(id) => {
                    if !session.endpoints.contains_key(&id) {
                        return fail("a PDR names an endpoint that does not exist");
                    }
                }
                Local::Tunnel(tunnel) => {
                    if !tunnel_holds(settings, &tunnel) {
                        return fail("a PDR's F-TEID breaks a rule");
                    }
                    let this_use = (key, tunnel.families, pdr.source_interface);
                    if *of_pdrs.entry(tunnel.teid).or_insert(this_use) != this_use {
                        return fail("PDRs share a TEID against the rule");
                    }
                }
            }
        }
        for (&node_type, held) in &session.fq_csids {
            if node_type > LAST_NODE_TYPE || !held.node.is_allowed() {
                return fail("an FQ-CSID breaks its rules");
            }
        }
        // "a restored pool address held by another session is 73 (a table so is broken)"
        for address in session.pool_addresses(settings) {
            if !of_earlier.insert(address) {
                return fail("an address of the pool is another session's too");
            }
        }
    }
    match of_endpoints.iter().find(|teid| of_pdrs.contains_key(teid)) {
        Some(teid) => Err(format!("an endpoint and a PDR share TEID {teid}")),
        None => dues_hold(settings, sessions),
    }
}

/// "A table is broken past a peer's limit of TEIDs or its half of the sessions, or when each peer's
/// holdings or guarantee, whichever is more, together pass the pool."
fn dues_hold(settings: &Settings, sessions: &Sessions) -> Result<(), String> {
    let mut dues = 0;
    for peer in PEERS {
        let held = holdings(sessions, peer);
        if count_of(sessions, peer) > settings.half() {
            return Err(format!("peer {peer}: more sessions than its half"));
        }
        if held > settings.peer(peer).limit as usize {
            return Err(format!("peer {peer}: more TEIDs than its limit"));
        }
        dues += held.max(settings.peer(peer).guarantee as usize);
    }
    match dues <= settings.size as usize {
        true => Ok(()),
        false => Err("holdings and guarantees that together pass the pool".to_string()),
    }
}

/// "TEIDs lie in the pool; families are the unit's, at least one each"
fn tunnel_holds(settings: &Settings, tunnel: &Tunnel) -> bool {
    settings.holds(tunnel.teid) && !tunnel.families.none() && settings.has(tunnel.families)
}
